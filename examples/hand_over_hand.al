// A walk along a list whose nodes have a lock each: refused.
//
// A node is known only once the node ahead of it was read. So sum would hold the lock of one node
// where it takes the lock of the next: Node.l would have to come before itself. With two such walks
// in a ring of nodes, each might wait for the other.
//
// check and serial: the cycle Node.l -> Node.l, told at the statement that reads here.value.
//
// The way out is one global lock for the whole list, in place of the struct below:
//
//   lock List;
//   struct Node {
//     int value protected_by(List);
//     ref Node next protected_by(List);
//   }
//
// All else stays as it is. Another way out keeps the locks of the nodes: whole_walk.al.

struct Node {
  lock l;
  int value protected_by(l);
  ref Node next protected_by(l);
}

pool Node node[3];
init node[0].value = 10;  init node[0].next = node[1];
init node[1].value = 20;  init node[1].next = node[2];
init node[2].value = 30;

// The sum of the values from a node on.
atomic sum(ref Node from) : int {
  var at: ref Node = from;
  var total: int = 0;
  while (at != null) {
    let here: ref Node = at;
    total = total + here.value;
    at = here.next;
  }
  return total;
}

thread one { sum(node[0]); }
thread two { sum(node[1]); }
