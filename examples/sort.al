// An array that is sorted in place and then searched by halving.
//
// The whole array is under one lock, so search never sees it half sorted. A local that is declared
// in a loop is bound anew at each turn: j opens at i each time, and high keeps one value a turn.
//
// check: one class, Numbers. set takes it before its only statement, sort before its inner while,
// search before the first if in its loop.

lock Numbers;

global int number[6] protected_by(Numbers);

atomic set(int i, int value) { number[i] = value; }

// Moves each number down to its place, and returns how many exchanges that took.
atomic sort() : int {
  var exchanges: int = 0;
  var i: int = 1;
  while (i < 6) {
    var j: int = i;
    while (j > 0 && number[j - 1] > number[j]) {
      let high: int = number[j - 1];
      number[j - 1] = number[j];
      number[j] = high;
      j = j - 1;
      exchanges = exchanges + 1;
    }
    i = i + 1;
  }
  return exchanges;
}

// The place of a value, or -1; prints the places that it looks at.
atomic search(int value) : int {
  var from: int = 0;
  var to: int = 6;
  var found: int = -1;
  while (found < 0 && from < to) {
    let middle: int = (from + to) / 2;
    print middle;
    if (number[middle] == value) {
      found = middle;
    } else {
      if (number[middle] < value) { from = middle + 1; } else { to = middle; }
    }
  }
  return found;
}

thread fill {
  set(0, 5);
  set(1, 2);
  set(2, 9);
  set(3, -3);
  set(4, 7);
  set(5, 2);
  set(6, 1);
}

thread use {
  sort();
  search(7);
  search(4);
  sort();
}
