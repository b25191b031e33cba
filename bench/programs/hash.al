// A hash table with open addressing: pseudorandom keys are counted, then looked up.
lock G;
global int key[8192] protected_by(G);
global int count[8192] protected_by(G);

atomic run(int rounds) : int {
  var x: int = 12345;
  var i: int = 0;
  var at: int = 0;
  var k: int = 0;
  var most: int = 0;
  while (i < rounds) {
    x = (x * 1103515245 + 12345) % 2147483648;
    k = x / 65536 % 4096 + 1;
    at = k * 2654435761 % 8192;
    while (key[at] != 0 && key[at] != k) { at = (at + 1) % 8192; }
    key[at] = k;
    count[at] = count[at] + 1;
    if (count[at] > most) { most = count[at]; }
    i = i + 1;
  }
  return most;
}

thread t { run(1000000); }
