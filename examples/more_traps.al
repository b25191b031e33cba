// The traps that references, arrays and prints can meet.
//
// Trap 1 is a field of null, trap 2 an index that is out of range, trap 6 one print more than the
// 256 that a section may make. A left side comes before its right side: set(3) and change(null)
// meet the traps of their left sides, and the division by 0 on their right sides is never reached.
//
// check: first Box.l, then Shelf, as declared. value, has_next and change take the lock of their
// box; set, count and how_far take Shelf; pick takes nothing.

struct Box {
  lock l;
  int value protected_by(l);
  ref Box next protected_by(l);
}

lock Shelf;
pool Box box[2];
init box[0].next = box[1];

global int size[3] protected_by(Shelf);
global int printed protected_by(Shelf);

// A field of null: trap 1.
atomic value(ref Box b) : int { return b.value; }

// Only a base that is used is asked for: an early stop of && leaves b.next alone.
atomic has_next(ref Box b) : int {
  var is: int = 0;
  if (b != null && b.next != null) { is = 1; }
  return is;
}

// Trap 2 where the index is below 0 or past the end, else trap 4.
atomic set(int i) { size[i] = 1 / 0; }

// Trap 1 where the box is null, else trap 4.
atomic change(ref Box b) { b.value = 1 / 0; }

// A member of a pool by its index: trap 2, or a reference.
atomic pick(int i) : ref Box { return box[i]; }

// Prints n numbers. The count stands in printed, and shows how far it came.
atomic count(int n) {
  printed = 0;
  while (printed < n) {
    print 7;
    printed = printed + 1;
  }
}

atomic how_far() : int { return printed; }

thread references {
  value(null);
  value(box[1]);
  has_next(null);
  has_next(box[0]);
  has_next(box[1]);
}

thread indexes { set(3); set(-1); set(2); change(null); change(box[0]); pick(2); pick(1); }
thread prints { count(3); how_far(); count(257); how_far(); }
