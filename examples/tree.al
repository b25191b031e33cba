// A search tree over a pool of four nodes, and a walk through it in order.
//
// Sections don't call each other and there is no recursion: the walk keeps its way back in an array
// of references, under the same lock as the tree. Where the pool is used up, node[used] is an index
// out of range: trap 2 ends the section before it has written anything.
//
// check: one class, Tree. add takes it before its first statement, walk where it reads root.

lock Tree;

struct Node {
  int key protected_by(Tree);
  ref Node low protected_by(Tree);
  ref Node high protected_by(Tree);
}

pool Node node[4];
global int used protected_by(Tree);
global ref Node root protected_by(Tree);
global ref Node way[4] protected_by(Tree);

// Adds a key, and returns how deep its node stands.
atomic add(int key) : int {
  let new: ref Node = node[used];
  used = used + 1;
  new.key = key;
  var depth: int = 0;
  var at: ref Node = root;
  if (at == null) { root = new; }
  while (at != null) {
    let above: ref Node = at;
    if (key < above.key) {
      at = above.low;
      if (at == null) { above.low = new; }
    } else {
      at = above.high;
      if (at == null) { above.high = new; }
    }
    depth = depth + 1;
  }
  return depth;
}

// Prints all keys from the lowest to the highest, and returns their number.
atomic walk() : int {
  var count: int = 0;
  var depth: int = 0;
  var at: ref Node = root;
  while (at != null || depth > 0) {
    while (at != null) {
      way[depth] = at;
      depth = depth + 1;
      at = at.low;
    }
    depth = depth - 1;
    at = way[depth];
    print at.key;
    count = count + 1;
    at = at.high;
  }
  return count;
}

thread gardener { walk(); add(50); add(20); add(70); add(60); add(10); }
thread visitor { walk(); }
