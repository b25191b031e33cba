lock G;
global int n protected_by(G);
atomic f() { return n; )
