// A ring of three places between a thread that puts and one that takes.
//
// put refuses when the ring is full, and take when it is empty; both say so in what they return.
// The places and the two counts share one lock, so no one sees a place filled and not yet counted.
//
// check: one class, Ring. put and take take it before their if, show before its while.

lock Ring;

global int place[3] protected_by(Ring);
global int first protected_by(Ring);
global int filled protected_by(Ring);

// 1 where the value went in, 0 where the ring was full.
atomic put(int value) : int {
  var done: int = 0;
  if (filled < 3) {
    place[(first + filled) % 3] = value;
    filled = filled + 1;
    done = 1;
  }
  return done;
}

// The value that stood there longest, or -1 where there is none.
atomic take() : int {
  var value: int = -1;
  if (filled > 0) {
    value = place[first];
    first = (first + 1) % 3;
    filled = filled - 1;
  }
  return value;
}

// The sum of what is in the ring, printed place by place.
atomic show() : int {
  var sum: int = 0;
  var i: int = 0;
  while (i < filled) {
    let value: int = place[(first + i) % 3];
    print value;
    sum = sum + value;
    i = i + 1;
  }
  return sum;
}

thread puts {
  put(10);
  put(20);
  put(30);
  put(40);
  show();
}

thread takes {
  repeat 2 { take(); }
  show();
}
