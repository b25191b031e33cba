// A hash table of three buckets, each with a lock of its own.
//
// A bucket owns two slots. What a slot holds is protected by the lock of the bucket that owns it:
// home is a final reference, so which lock that is never changes. A section on one key needs one
// lock, and two sections on keys of different buckets need not wait for each other.
//
// check: one class, Bucket.l. find and store take their locks before their first if, remove before
// it reads entries, size before its return. at.l, at.a.home.l and at.b.home.l are three paths, and
// a section that uses them takes all three, though here they name one lock.

struct Bucket { lock l; final ref Slot a; final ref Slot b; int entries protected_by(l); }
struct Slot {
  final ref Bucket home;
  int used protected_by(home.l);
  int key protected_by(home.l);
  int value protected_by(home.l);
}

pool Bucket bucket[3];
pool Slot slot[6];
init bucket[0].a = slot[0];  init slot[0].home = bucket[0];
init bucket[0].b = slot[1];  init slot[1].home = bucket[0];
init bucket[1].a = slot[2];  init slot[2].home = bucket[1];
init bucket[1].b = slot[3];  init slot[3].home = bucket[1];
init bucket[2].a = slot[4];  init slot[4].home = bucket[2];
init bucket[2].b = slot[5];  init slot[5].home = bucket[2];

// The value of a key, or -1. A key below 0 has no bucket: trap 2.
atomic find(int key) : int {
  let at: ref Bucket = bucket[key % 3];
  var value: int = -1;
  if (at.a.used == 1 && at.a.key == key) { value = at.a.value; }
  if (at.b.used == 1 && at.b.key == key) { value = at.b.value; }
  return value;
}

// Keeps a value for a key: 1, or 0 where both slots hold other keys.
atomic store(int key, int value) : int {
  let at: ref Bucket = bucket[key % 3];
  var in_a: int = 0;
  var in_b: int = 0;
  if (at.a.used == 1 && at.a.key == key) { in_a = 1; }
  if (at.b.used == 1 && at.b.key == key) { in_b = 1; }
  if (in_a + in_b == 0) {
    if (at.a.used == 0) { in_a = 1; } else { if (at.b.used == 0) { in_b = 1; } }
    at.entries = at.entries + in_a + in_b;
  }
  if (in_a == 1) { at.a.used = 1; at.a.key = key; at.a.value = value; }
  if (in_b == 1) { at.b.used = 1; at.b.key = key; at.b.value = value; }
  return in_a + in_b;
}

// Forgets a key: how many entries its bucket had less.
atomic remove(int key) : int {
  let at: ref Bucket = bucket[key % 3];
  let before: int = at.entries;
  if (at.a.used == 1 && at.a.key == key) { at.a.used = 0; at.entries = before - 1; }
  if (at.b.used == 1 && at.b.key == key) { at.b.used = 0; at.entries = before - 1; }
  return before - at.entries;
}

atomic size() : int {
  let x: ref Bucket = bucket[0];
  let y: ref Bucket = bucket[1];
  let z: ref Bucket = bucket[2];
  return x.entries + y.entries + z.entries;
}

thread writer { store(3, 30); store(7, 70); store(6, 60); store(9, 90); store(7, 71); }
thread reader { find(6); find(9); remove(3); remove(3); store(9, 91); find(9); find(-4); size(); }
