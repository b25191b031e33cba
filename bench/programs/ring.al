// A bounded ring buffer: bursts of puts, then of takes.
lock G;
global int slot[64] protected_by(G);
global int head protected_by(G);
global int count protected_by(G);

atomic run(int rounds) : int {
  var r: int = 0;
  var i: int = 0;
  var sum: int = 0;
  var refused: int = 0;
  while (r < rounds) {
    i = 0;
    while (i < 50 + r % 40) {
      if (count < 64) {
        slot[(head + count) % 64] = r + i;
        count = count + 1;
      } else {
        refused = refused + 1;
      }
      i = i + 1;
    }
    i = 0;
    while (i < 60 && count > 0) {
      sum = (sum + slot[head]) % 1000007;
      head = (head + 1) % 64;
      count = count - 1;
      i = i + 1;
    }
    r = r + 1;
  }
  return sum + refused;
}

thread t { run(30000); }
