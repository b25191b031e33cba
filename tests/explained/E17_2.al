struct S { lock l; int x protected_by(l); }
pool S p[2];
init p[1].x = 1;
init p[01].x = 2;
