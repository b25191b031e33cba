struct S { lock l; int x protected_by(l); }
pool S p[2];
atomic f(ref S a) {
  var v: ref S = a;
  print v.x;
}
