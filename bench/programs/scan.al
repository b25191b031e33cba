// Words, numbers and lines of a text that lies in an array, one character an element.
lock G;
global int text[10000] protected_by(G);

atomic run(int length, int rounds) : int {
  var i: int = 0;
  var x: int = 1;
  var r: int = 0;
  var c: int = 0;
  var state: int = 0;
  var words: int = 0;
  var numbers: int = 0;
  var lines: int = 0;
  while (i < length) {
    x = (x * 1103515245 + 12345) % 2147483648;
    text[i] = x / 65536 % 96 + 32;
    if (text[i] > 122) { text[i] = 10; }
    i = i + 1;
  }
  while (r < rounds) {
    i = 0;
    state = 0;
    while (i < length) {
      c = text[i];
      if (c >= 97 && c <= 122 || c >= 65 && c <= 90) {
        if (state != 1) { words = words + 1; }
        state = 1;
      } else {
        if (c >= 48 && c <= 57) {
          if (state == 0) {
            numbers = numbers + 1;
            state = 2;
          }
        } else {
          if (c == 10) { lines = lines + 1; }
          state = 0;
        }
      }
      i = i + 1;
    }
    r = r + 1;
  }
  return words * 10000 + numbers * 100 + lines;
}

thread t { run(10000, 150); }
