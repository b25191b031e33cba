// A loop of integer arithmetic.
atomic run(int turns) : int {
  var s: int = 0;
  var i: int = 0;
  while (i < turns) {
    s = s + i * 3 % 7 - s / 5;
    i = i + 1;
  }
  return s;
}

thread t { run(10000000); }
