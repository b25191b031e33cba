struct Node { lock l; final ref Node up; int v protected_by(up.up.up.up.l); }
pool Node ring[1];
init ring[0].up = ring[0];
