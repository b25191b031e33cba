struct S { lock l; int x protected_by(l); }
call of(ref S s) : int { return s.x; }
atomic f(ref S s) { let t: ref S = call of(s); t.x = 1; }
