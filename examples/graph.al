// A graph of nodes that refer to each other, and a walk over it, nearest nodes first.
//
// A walk follows references that are found on the way, and so it can't be said beforehand which
// nodes it will meet. Therefore all nodes share the one lock Graph, and a struct needs no lock of
// its own. Under a global lock a field may be reached through any reference, as in at.a.distance.
//
// check: one class, Graph. measure takes it in its first loop, and again behind that loop, whose
// body may not be run; connect takes it before its outer if, distance before its return.

lock Graph;

struct Node {
  int distance protected_by(Graph);
  ref Node a protected_by(Graph);
  ref Node b protected_by(Graph);
}

pool Node node[6];
global ref Node todo[6] protected_by(Graph);

init node[0].a = node[1];
init node[0].b = node[2];
init node[1].a = node[3];
init node[2].a = node[3];
init node[2].b = node[4];
init node[3].a = node[0];
init node[5].b = node[0];

// Gives each node its distance from one, or -1 where no way leads to it. Returns how many were met.
atomic measure(ref Node from) : int {
  var i: int = 0;
  while (i < 6) {
    let n: ref Node = node[i];
    n.distance = -1;
    i = i + 1;
  }
  from.distance = 0;
  todo[0] = from;
  var done: int = 0;
  var met: int = 1;
  while (done < met) {
    let at: ref Node = todo[done];
    done = done + 1;
    if (at.a != null && at.a.distance < 0) {
      at.a.distance = at.distance + 1;
      todo[met] = at.a;
      met = met + 1;
    }
    if (at.b != null && at.b.distance < 0) {
      at.b.distance = at.distance + 1;
      todo[met] = at.b;
      met = met + 1;
    }
  }
  return met;
}

// A way from one node to another: 1, or 0 where the first has two already.
atomic connect(ref Node from, ref Node to) : int {
  var done: int = 1;
  if (from.a == null) {
    from.a = to;
  } else {
    if (from.b == null) { from.b = to; } else { done = 0; }
  }
  return done;
}

atomic distance(ref Node n) : int { return n.distance; }

thread surveyor { measure(node[0]); distance(node[4]); distance(node[5]); }
thread builder { connect(node[4], node[5]); connect(node[0], node[5]); }
thread walker { measure(node[3]); distance(node[5]); }
