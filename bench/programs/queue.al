// A list along references: nodes go from its end to its beginning, many times.
lock G;
struct Node {
  int value protected_by(G);
  ref Node next protected_by(G);
}
pool Node node[64];

atomic run(int turns) : int {
  var i: int = 0;
  var at: ref Node = null;
  var first: ref Node = null;
  var last: ref Node = null;
  var sum: int = 0;
  while (i < 64) {
    at = node[i];
    at.value = i;
    at.next = null;
    if (first == null) { first = at; } else { last.next = at; }
    last = at;
    i = i + 1;
  }
  i = 0;
  while (i < turns) {
    at = first;
    first = at.next;
    at.next = null;
    at.value = at.value + 1;
    sum = (sum + at.value) % 1000007;
    last.next = at;
    last = at;
    i = i + 1;
  }
  return sum;
}

thread t { run(1500000); }
