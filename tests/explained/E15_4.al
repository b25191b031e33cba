lock G;
global int n protected_by(G);
call one() { n = 1; }
call two() { call one(); }
call three() { call two(); }
call four() { call three(); }
call five() { call four(); }
call six() { call five(); }
call seven() { call six(); }
call eight() { call seven(); }
call nine() { call eight(); }
atomic f() { call eight(); }
