// Bubble sort in an array.
lock G;
global int a[2000] protected_by(G);

atomic run(int n) : int {
  var i: int = 0;
  var x: int = 12345;
  while (i < n) {
    x = (x * 1103515245 + 12345) % 2147483648;
    a[i] = x % 100000;
    i = i + 1;
  }
  var end: int = n;
  while (end > 1) {
    i = 1;
    while (i < end) {
      if (a[i - 1] > a[i]) {
        x = a[i];
        a[i] = a[i - 1];
        a[i - 1] = x;
      }
      i = i + 1;
    }
    end = end - 1;
  }
  return a[0] + a[n / 2] * 3 + a[n - 1] * 7;
}

thread t { run(2000); }
