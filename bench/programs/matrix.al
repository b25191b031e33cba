// Products of square matrices that lie in arrays, row after row.
lock G;
global int a[3600] protected_by(G);
global int b[3600] protected_by(G);
global int c[3600] protected_by(G);

atomic run(int n, int rounds) : int {
  var i: int = 0;
  var j: int = 0;
  var k: int = 0;
  var s: int = 0;
  var r: int = 0;
  while (i < n * n) {
    a[i] = i % 7;
    b[i] = i % 11;
    i = i + 1;
  }
  while (r < rounds) {
    i = 0;
    while (i < n) {
      j = 0;
      while (j < n) {
        s = 0;
        k = 0;
        while (k < n) {
          s = s + a[i * n + k] * b[k * n + j];
          k = k + 1;
        }
        c[i * n + j] = s;
        j = j + 1;
      }
      i = i + 1;
    }
    a[r] = c[r] % 10;
    r = r + 1;
  }
  return c[n * n - 1];
}

thread t { run(60, 15); }
