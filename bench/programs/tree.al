// A binary search tree over a pool, built from pseudorandom keys and then searched.
lock G;
struct Node {
  int key protected_by(G);
  ref Node left protected_by(G);
  ref Node right protected_by(G);
}
pool Node node[20000];

atomic run(int count, int searches) : int {
  var x: int = 12345;
  var i: int = 1;
  var at: ref Node = null;
  var made: ref Node = null;
  var placed: int = 0;
  let root: ref Node = node[0];
  root.key = 500000;
  while (i < count) {
    x = (x * 1103515245 + 12345) % 2147483648;
    made = node[i];
    made.key = x % 1000000;
    made.left = null;
    made.right = null;
    at = root;
    placed = 0;
    while (placed == 0) {
      if (made.key < at.key) {
        if (at.left == null) {
          at.left = made;
          placed = 1;
        } else {
          at = at.left;
        }
      } else {
        if (at.right == null) {
          at.right = made;
          placed = 1;
        } else {
          at = at.right;
        }
      }
    }
    i = i + 1;
  }
  var found: int = 0;
  var key: int = 0;
  i = 0;
  while (i < searches) {
    x = (x * 1103515245 + 12345) % 2147483648;
    key = x % 1000000;
    at = root;
    while (at != null && at.key != key) {
      if (key < at.key) { at = at.left; } else { at = at.right; }
    }
    if (at != null) { found = found + 1; }
    i = i + 1;
  }
  return found;
}

thread t { run(20000, 100000); }
