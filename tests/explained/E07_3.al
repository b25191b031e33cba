struct S { lock l; int x protected_by(l); }
atomic f(ref S s) { if (s.x == null) { s.x = 1; } }
