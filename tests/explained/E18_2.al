lock G;
global int n protected_by(G);
atomic read() { return n; }
