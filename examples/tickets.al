// A ticket counter: numbers that are handed out once each.
//
// take reads the next number, steps it and gives the number back, all in one section. So whichever
// thread comes first, no two calls return the same number, and none is left out. How many tickets
// are waiting is kept under another lock; waiting uses both.
//
// check: first Next, then Called, as declared. take takes Next, call_up takes Called, and waiting
// both, each before its first statement.

lock Next;
lock Called;

global int next protected_by(Next) = 1;
global int called protected_by(Called);

// Hands out a ticket.
atomic take() : int {
  let mine: int = next;
  next = mine + 1;
  return mine;
}

// Calls up a ticket.
atomic call_up() : int {
  called = called + 1;
  return called;
}

// How many tickets were handed out and not called up yet.
atomic waiting() : int {
  return next - 1 - called;
}

thread first { take(); take(); waiting(); }
thread second { take(); waiting(); }
thread clerk { call_up(); call_up(); waiting(); }
