// A walk round a list whose nodes are the members of a pool.
lock G;
struct Node {
  int value protected_by(G);
  ref Node next protected_by(G);
}
pool Node node[1000];

atomic run(int steps) : int {
  var i: int = 0;
  var at: ref Node = null;
  var before: ref Node = node[999];
  while (i < 1000) {
    at = node[i];
    at.value = i;
    before.next = at;
    before = at;
    i = i + 1;
  }
  var s: int = 0;
  at = node[0];
  i = 0;
  while (i < steps) {
    s = s + at.value;
    at = at.next;
    i = i + 1;
  }
  return s;
}

thread t { run(5000000); }
