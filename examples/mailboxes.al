// Mailboxes of three letters, each with a lock of its own.
//
// post puts a letter into a box, fetch takes the oldest one, and forward does both with two boxes.
// What is done with one box stands in two helpers, append and oldest, which are given the box. The
// locks that they need are those of the boxes of the section that calls them.
//
// check: one class, Box.l. forward takes the locks of both boxes before its if, and nothing more in
// the helpers; post takes its box's lock at the first statement of append that looks at the box.

struct Box {
  lock l;
  int first protected_by(l);
  int second protected_by(l);
  int third protected_by(l);
  int filled protected_by(l);
}

pool Box box[2];

// 1 where the letter went in, 0 where the box was full.
call append(ref Box b, int letter) : int {
  var done: int = 0;
  if (b.filled < 3) {
    if (b.filled == 0) { b.first = letter; }
    if (b.filled == 1) { b.second = letter; }
    if (b.filled == 2) { b.third = letter; }
    b.filled = b.filled + 1;
    done = 1;
  }
  return done;
}

// The oldest letter of a box that has one.
call oldest(ref Box b) : int {
  let letter: int = b.first;
  b.first = b.second;
  b.second = b.third;
  b.filled = b.filled - 1;
  return letter;
}

atomic post(ref Box b, int letter) : int {
  let done: int = call append(b, letter);
  return done;
}

// The oldest letter, or -1 where there is none.
atomic fetch(ref Box b) : int {
  var letter: int = -1;
  if (b.filled > 0) {
    let found: int = call oldest(b);
    letter = found;
  }
  return letter;
}

// 1 where a letter was moved from one box to the other.
atomic forward(ref Box from, ref Box to) : int {
  var moved: int = 0;
  if (from.filled > 0 && to.filled < 3) {
    let letter: int = call oldest(from);
    call append(to, letter);
    moved = 1;
  }
  return moved;
}

thread writer {
  post(box[0], 10);
  post(box[0], 20);
  post(box[0], 30);
  post(box[0], 40);
  forward(box[0], box[1]);
  forward(box[0], box[0]);
}

thread reader {
  repeat 2 { fetch(box[1]); }
  fetch(box[0]);
}
