// A hotel in which the way leads from guests to rooms and from rooms to guests: refused.
//
// stay finds the room through the guest, so Guest.l would have to come before Room.l. charge finds
// the guest through the room, so Room.l would have to come before Guest.l. Each of the two sections
// alone is accepted; together they might wait for each other.
//
// check and serial: the cycle Guest.l -> Room.l -> Guest.l, told at the first statement of stay.
//
// The way out is a parameter: charge is told whose room it is, and looks whether that is true. What
// a parameter refers to is known from the start, so its lock needs no other one ahead of it:
//
//   atomic charge(ref Room r, ref Guest g, int price) : int {
//     var due: int = 0;
//     if (g != null && r.guest == g) {
//       due = price * r.nights;
//       g.bill = g.bill + due;
//       r.nights = 0;
//     }
//     return due;
//   }
//   thread desk { charge(room[0], guest[0], 50); charge(room[1], guest[1], 50); }
//
// These stand in place of the last section and the last thread. check: first Guest.l, then Room.l.
// stay takes the two at two places, charge both before its if.

struct Guest {
  lock l;
  ref Room room protected_by(l);
  int bill protected_by(l);
}

struct Room {
  lock l;
  ref Guest guest protected_by(l);
  int nights protected_by(l);
}

pool Guest guest[2];
pool Room room[2];
init guest[0].room = room[0];  init room[0].guest = guest[0];

// One night more in the guest's room: 1, or 0 where the guest has none.
atomic stay(ref Guest g) : int {
  let r: ref Room = g.room;
  var done: int = 0;
  if (r != null) {
    r.nights = r.nights + 1;
    done = 1;
  }
  return done;
}

// Puts the nights of a room on its guest's bill, and returns what they cost.
atomic charge(ref Room r, int price) : int {
  let g: ref Guest = r.guest;
  var due: int = 0;
  if (g != null) {
    due = price * r.nights;
    g.bill = g.bill + due;
    r.nights = 0;
  }
  return due;
}

thread guests { repeat 2 { stay(guest[0]); } stay(guest[1]); }
thread desk { charge(room[0], 50); charge(room[1], 50); }
