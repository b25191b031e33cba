struct S { lock l; int x protected_by(l); }
lock G;
global ref S head protected_by(G);
atomic f() { head.x = 1; }             // let h: ref S = head; and h.x are right
