// Greatest common divisors of all pairs of numbers up to a bound.
atomic run(int bound) : int {
  var sum: int = 0;
  var a: int = 1;
  var b: int = 1;
  var x: int = 0;
  var y: int = 0;
  var rest: int = 0;
  while (a <= bound) {
    b = 1;
    while (b <= bound) {
      x = a;
      y = b;
      while (y != 0) {
        rest = x % y;
        x = y;
        y = rest;
      }
      sum = sum + x;
      b = b + 1;
    }
    a = a + 1;
  }
  return sum;
}

thread t { run(1000); }
