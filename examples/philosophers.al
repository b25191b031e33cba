// The dining philosophers.
//
// Five philosophers sit around a table, and between each two of them lies one fork. Who eats needs
// the fork on either side. Where each takes the left one by hand and then waits for the right one,
// all five may wait for ever. Here a fork has a lock of its own, and eat uses both forks in one
// section: no philosopher says which lock comes first, so none can say it wrongly.
//
// check: first Fork.l, then Philosopher.l, as declared. eat takes the locks of both forks before
// its first statement, and the philosopher's where it counts the meal; unaccounted takes the fork's
// and those of both philosophers in its if.

struct Fork {
  lock l;
  int used protected_by(l);
}

struct Philosopher {
  lock l;
  final ref Fork left;
  final ref Fork right;
  int meals protected_by(l);
}

pool Fork fork[5];
pool Philosopher philosopher[5];

init philosopher[0].left = fork[0];
init philosopher[0].right = fork[1];
init philosopher[1].left = fork[1];
init philosopher[1].right = fork[2];
init philosopher[2].left = fork[2];
init philosopher[2].right = fork[3];
init philosopher[3].left = fork[3];
init philosopher[3].right = fork[4];
init philosopher[4].left = fork[4];
init philosopher[4].right = fork[0];

// Eats once. Gives back how often the two forks have been used, together.
atomic eat(ref Philosopher p) : int {
  p.left.used = p.left.used + 1;
  p.right.used = p.right.used + 1;
  p.meals = p.meals + 1;
  return p.left.used + p.right.used;
}

// The uses of the fork between two neighbours that neither's meals account for: always 0. Where the
// second doesn't sit at the first one's right hand, it is -1. Final references need no lock.
atomic unaccounted(ref Philosopher a, ref Philosopher b) : int {
  var uses: int = -1;
  if (a.right == b.left) {
    uses = a.right.used - a.meals - b.meals;
  }
  return uses;
}

thread plato { repeat 2 { eat(philosopher[0]); } }
thread zeno { eat(philosopher[1]); }
thread thales { repeat 3 { eat(philosopher[2]); } }
thread solon { eat(philosopher[3]); }

thread bias {
  repeat 2 { eat(philosopher[4]); }
  unaccounted(philosopher[4], philosopher[0]);
  unaccounted(philosopher[0], philosopher[2]);
}
