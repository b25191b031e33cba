struct Acc { lock l; int bal protected_by(l); }
pool Acc acc[8];
atomic total() : int {
  var sum: int = 0;
  var i: int = 0;
  while (i < 8) {
    let a: ref Acc = acc[i];
    sum = sum + a.bal;
    i = i + 1;
  }
  return sum;
}
