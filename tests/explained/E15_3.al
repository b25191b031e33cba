lock G;
global int n protected_by(G);
atomic f() { n = n + 1; }
thread t { repeat 400 { repeat 300 { f(); } } }
