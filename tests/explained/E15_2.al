struct Node { lock l; int v protected_by(l); }
pool Node near[60000];
pool Node far[6000];
