// The greatest common divisor of each pair of numbers, by Euclid.
lock G;
global int sum protected_by(G);

atomic run(int most) : int {
  var a: int = 1;
  var b: int = 1;
  var x: int = 0;
  var y: int = 0;
  var r: int = 0;
  while (a <= most) {
    b = 1;
    while (b <= most) {
      x = a;
      y = b;
      while (y != 0) { r = x % y; x = y; y = r; }
      sum = sum + x;
      b = b + 1;
    }
    a = a + 1;
  }
  return sum;
}

thread t { run(600); }
