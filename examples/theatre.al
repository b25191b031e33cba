// Seats in rows: two seats are reserved together or not at all.
//
// A row's lock protects its own count and, through the final reference row, all its seats. Two
// seats of one row need one lock, two seats of two rows need two. Whoever asks how many seats are
// free sees both seats of a couple taken, or neither.
//
// check: one class, Row.l. reserve takes the locks of both seats' rows before its if, exchange
// before its first statement; leave takes that of its seat's row, free_seats those of its two rows.

struct Row { lock l; int free protected_by(l); }
struct Seat { final ref Row row; int guest protected_by(row.l); }

pool Row row[2];
pool Seat seat[4];

init row[0].free = 2;
init row[1].free = 2;
init seat[0].row = row[0];
init seat[1].row = row[0];
init seat[2].row = row[1];
init seat[3].row = row[1];

// Both seats for one guest: 1, or 0 where they aren't two or one of them is taken.
atomic reserve(ref Seat a, ref Seat b, int guest) : int {
  var done: int = 0;
  if (a != b && a.guest == 0 && b.guest == 0) {
    a.guest = guest;
    b.guest = guest;
    a.row.free = a.row.free - 1;
    b.row.free = b.row.free - 1;
    done = 1;
  }
  return done;
}

// The guests of two seats change places.
atomic exchange(ref Seat a, ref Seat b) {
  let guest: int = a.guest;
  a.guest = b.guest;
  b.guest = guest;
}

// Frees a seat, and returns who sat there.
atomic leave(ref Seat s) : int {
  let guest: int = s.guest;
  if (guest != 0) {
    s.guest = 0;
    s.row.free = s.row.free + 1;
  }
  return guest;
}

atomic free_seats(ref Row first, ref Row second) : int { return first.free + second.free; }

thread box_office {
  reserve(seat[0], seat[1], 7);
  reserve(seat[1], seat[2], 8);
  reserve(seat[2], seat[2], 8);
  reserve(seat[2], seat[3], 8);
  free_seats(row[0], row[1]);
}

thread hall {
  exchange(seat[1], seat[2]);
  repeat 2 { leave(seat[0]); }
  reserve(seat[0], null, 9);
  free_seats(row[0], row[1]);
}
