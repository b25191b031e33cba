struct B { lock m; int y protected_by(m); }
struct A { lock l; int x protected_by(l); ref B b protected_by(l); }
lock G;
global int n protected_by(G);
atomic through(ref A r) {              // A.l comes before B.m, though B.m is declared first
  let s: ref B = r.b;
  s.y = 1;
  r.x = 2;                             // r.l is surely held
}
atomic both(ref A a, ref A b) {        // b.l is used later, and of no greater rank than a.l
  a.x = a.x - 1;
  b.x = b.x + 1;
}
atomic early(ref A a) {                // a.l is used later than G, but of a lower rank
  n = n + 1;
  a.x = 1;
}
atomic late(ref A a) {                 // G is of a greater rank than a.l, so it is taken later
  a.x = 1;
  n = n + 1;
}
atomic branch(ref A a, int k) {
  if (k > 0) { a.x = k; }
  print a.x;                           // one way here wanted a.l before, the other did not
}
atomic loop() {
  while (n > 0) { n = n - 1; }         // the condition is on every way to the body
}
