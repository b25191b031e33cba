// The sum of an array, many times.
lock G;
global int a[1000] protected_by(G);

atomic run(int rounds) : int {
  var i: int = 0;
  while (i < 1000) { a[i] = i * 7 % 13; i = i + 1; }
  var s: int = 0;
  var r: int = 0;
  while (r < rounds) {
    i = 0;
    while (i < 1000) { s = s + a[i]; i = i + 1; }
    r = r + 1;
  }
  return s;
}

thread t { run(5000); }
