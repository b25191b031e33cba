// A walk along a list whose nodes have a lock each, as in hand_over_hand.al. This one is accepted.
//
// The section lists the class of the nodes in its head: lock(Node.l). At the first statement that reads
// here.value it takes the locks of all nodes, in their order. So it never takes the lock of one node
// while it holds that of a later one, and any node may come next. A section that names its node by a
// parameter, as set, still takes one lock.
//
// check: one class, Node.l. sum takes all of its locks, set that of at.

struct Node {
  lock l;
  int value protected_by(l);
  ref Node next protected_by(l);
}

pool Node node[3];
init node[0].value = 10;  init node[0].next = node[1];
init node[1].value = 20;  init node[1].next = node[2];
init node[2].value = 30;

// The sum of the values from a node on.
atomic sum(ref Node from) : int lock(Node.l) {
  var at: ref Node = from;
  var total: int = 0;
  while (at != null) {
    let here: ref Node = at;
    total = total + here.value;
    at = here.next;
  }
  return total;
}

// Sets the value of one node.
atomic set(ref Node at, int value) { at.value = value; }

thread one { sum(node[0]); }
thread two { set(node[1], 25); sum(node[1]); }
