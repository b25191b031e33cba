// Many calls of a section with a loop of three turns.
lock G;
global int n protected_by(G);

atomic run(int turns) : int {
  var i: int = 0;
  while (i < turns) { n = n + 1; i = i + 1; }
  return n;
}

thread t { repeat 100000 { run(3); } }
