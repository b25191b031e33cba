// Bounded buffers of three places, each with a lock of its own.
//
// A buffer is an object: its places and how many are filled stand in one struct, under the lock of
// that struct. put and take work on one buffer and need one lock. move works on two and needs two
// locks of the same kind; given one buffer twice it needs one, and turns its values round.
//
// check: one class, Buffer.l. put and take take their buffer's lock before their first if, and move
// the locks of both buffers before its outer if.

struct Buffer {
  lock l;
  int first protected_by(l);
  int second protected_by(l);
  int third protected_by(l);
  int filled protected_by(l);
}

pool Buffer buffer[2];

init buffer[1].first = 100;
init buffer[1].filled = 1;

// 1 where the value went in, 0 where the buffer was full.
atomic put(ref Buffer b, int value) : int {
  var done: int = 0;
  if (b.filled < 3) {
    if (b.filled == 0) { b.first = value; }
    if (b.filled == 1) { b.second = value; }
    if (b.filled == 2) { b.third = value; }
    b.filled = b.filled + 1;
    done = 1;
  }
  return done;
}

// The oldest value, or -1 where there is none.
atomic take(ref Buffer b) : int {
  var value: int = -1;
  if (b.filled > 0) {
    value = b.first;
    b.first = b.second;
    b.second = b.third;
    b.filled = b.filled - 1;
  }
  return value;
}

// Takes the oldest value of one buffer and puts it into the other: 1 where that was done.
atomic move(ref Buffer from, ref Buffer to) : int {
  var moved: int = 0;
  if (from.filled > 0 && to.filled < 3) {
    let value: int = from.first;
    from.first = from.second;
    from.second = from.third;
    from.filled = from.filled - 1;
    if (to.filled == 0) { to.first = value; }
    if (to.filled == 1) { to.second = value; }
    if (to.filled == 2) { to.third = value; }
    to.filled = to.filled + 1;
    moved = 1;
  }
  return moved;
}

thread producer {
  put(buffer[0], 10);
  put(buffer[0], 20);
  put(buffer[0], 30);
  put(buffer[0], 40);
  move(buffer[0], buffer[1]);
  move(buffer[0], buffer[0]);
}

thread consumer {
  repeat 3 { take(buffer[1]); }
  take(buffer[0]);
}
