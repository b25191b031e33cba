// A rising linked list over a pool of cells.
//
// Objects are never made while sections run: all cells there are stand in the pool. Those that the
// list doesn't use hang in a list of their own, free. A var walks along the references; && and ||
// stop early, so at.value is never read where at is null.
//
// check: one class, List. insert takes it where it reads free, remove and show where they read
// head.

lock List;

struct Cell {
  int value protected_by(List);
  ref Cell next protected_by(List);
}

pool Cell cell[4];
global ref Cell head protected_by(List);
global ref Cell free protected_by(List) = cell[0];

init cell[0].next = cell[1];
init cell[1].next = cell[2];
init cell[2].next = cell[3];

// Puts a value at its place: 1, or 0 where no cell is free.
atomic insert(int value) : int {
  let new: ref Cell = free;
  var done: int = 0;
  if (new != null) {
    free = new.next;
    new.value = value;
    var at: ref Cell = head;
    if (at == null || value <= at.value) {
      new.next = at;
      head = new;
    } else {
      while (at.next != null && at.next.value < value) { at = at.next; }
      new.next = at.next;
      at.next = new;
    }
    done = 1;
  }
  return done;
}

// Takes a value out and frees its cell: 1, or 0 where it isn't there.
atomic remove(int value) : int {
  var before: ref Cell = null;
  var at: ref Cell = head;
  while (at != null && at.value != value) {
    before = at;
    at = at.next;
  }
  var done: int = 0;
  if (at != null) {
    if (before == null) { head = at.next; } else { before.next = at.next; }
    at.next = free;
    free = at;
    done = 1;
  }
  return done;
}

// Prints the values, and returns their sum.
atomic show() : int {
  var sum: int = 0;
  var at: ref Cell = head;
  while (at != null) {
    print at.value;
    sum = sum + at.value;
    at = at.next;
  }
  return sum;
}

thread one { insert(30); insert(10); insert(20); show(); }
thread two { remove(10); remove(99); insert(40); insert(5); insert(7); show(); }
