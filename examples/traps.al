// What happens when a section goes wrong.
//
// A trap ends the section where it happens. What the section wrote and printed before stays, the
// trap's number is the outcome of the call, and the thread goes on with its next call. Trap 3 is a
// number that 64 bits don't hold, trap 4 a division by zero.
//
// check: one class, G. compute takes it before its first statement; overflow and divide take
// nothing.

lock G;
global int average protected_by(G) = -1;
global int tries protected_by(G);

// The average of a total, which it also keeps. The try is counted even where the count is 0.
atomic compute(int total, int count) : int {
  tries = tries + 1;
  print total;
  average = total / count;
  return average;
}

// The largest number that there is, and one more.
atomic overflow() {
  var largest: int = 9223372036854775807;
  print largest;
  largest = largest + 1;
  print largest;
}

// Division truncates toward zero, and a remainder has the sign of what is divided.
atomic divide(int a, int b) : int {
  print a % b;
  return a / b;
}

thread t {
  compute(10, 0);
  compute(10, 4);
  overflow();
  divide(-7, 2);
  divide(7, -2);
}
