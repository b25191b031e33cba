struct Acc { lock l; int bal protected_by(l); }
pool Acc acc[2];
atomic sum() : int {
  let a: ref Acc = acc[0];
  let x: int = a.bal;
  let b: ref Acc = acc[1];
  return x + b.bal;
}
