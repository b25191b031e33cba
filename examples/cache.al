// A cache of two buckets, each with a lock of its own and a chain of entries.
//
// What an entry holds is protected by the lock of its bucket, which home, a final reference, names
// once and for all. A walk along a chain meets one entry after another, and of what e.next leads to
// the compiler knows nothing: it could be an entry of another bucket, under another lock. where
// home == b says that it is none. Then the lock of b is all that a section needs, and two sections
// on different buckets need not wait for each other. The test is made when the section runs: an
// entry of another bucket ends it with trap 5.
//
// check: one class, Bucket.l. Each section takes the lock of b once: add before it writes e.key,
// find and forget before they read b.first. Without one of the wheres the program is refused, E14.

struct Bucket { lock l; ref Entry first protected_by(l); int hits protected_by(l); }
struct Entry {
  final ref Bucket home;
  int key protected_by(home.l);
  int value protected_by(home.l);
  ref Entry next protected_by(home.l);
}

pool Bucket bucket[2];
pool Entry entry[4];
init entry[0].home = bucket[0];
init entry[1].home = bucket[0];
init entry[2].home = bucket[1];
init entry[3].home = bucket[1];

// Puts an entry of b at the head of its chain.
atomic add(ref Bucket b, ref Entry given, int key, int value) {
  let e: ref Entry = given where home == b;
  e.key = key;
  e.value = value;
  e.next = b.first;
  b.first = e;
}

// The value of a key, or -1.
atomic find(ref Bucket b, int key) : int {
  var at: ref Entry = b.first;
  var value: int = -1;
  while (at != null) {
    let e: ref Entry = at where home == b;
    if (e.key == key) { value = e.value; b.hits = b.hits + 1; }
    at = e.next;
  }
  return value;
}

// Takes the first entry of a key out of the chain: 1, or 0 where there is none.
atomic forget(ref Bucket b, int key) : int {
  var before: ref Entry = null;
  var at: ref Entry = b.first;
  var done: int = 0;
  while (at != null && done == 0) {
    let e: ref Entry = at where home == b;
    if (e.key == key) {
      if (before == null) {
        b.first = e.next;
      } else {
        let p: ref Entry = before where home == b;
        p.next = e.next;
      }
      e.next = null;
      done = 1;
    } else {
      before = at;
      at = e.next;
    }
  }
  return done;
}

thread writer {
  add(bucket[0], entry[0], 10, 100);
  add(bucket[0], entry[1], 12, 120);
  add(bucket[1], entry[2], 11, 110);
  forget(bucket[0], 10);
}

// entry[1] is no entry of bucket[1]; and null has no first.
thread reader {
  find(bucket[0], 10);
  find(bucket[1], 11);
  add(bucket[1], entry[1], 13, 130);
  find(null, 10);
}
