// A sensor's readings: their number, their sum, the last one and how it changed.
//
// The four numbers belong together, and they are protected by one lock. A section that uses several
// of them sees them as they were at one moment: mean never divides a new sum by an old count. let
// names a value that stays, var one that is assigned to again.
//
// check: one class, Sensor. record takes it where it reads last, mean before its first statement.

lock Sensor;

global int count protected_by(Sensor);
global int sum protected_by(Sensor);
global int last protected_by(Sensor);
global int change protected_by(Sensor);

atomic record(int value) {
  var difference: int = value;
  difference = difference - last;
  count = count + 1;
  sum = sum + value;
  last = value;
  change = difference;
}

// The mean in hundredths, so that no fraction is lost at once. With no reading yet it is trap 4.
atomic mean() : int {
  let hundredths: int = sum * 100 / count;
  print count;
  return hundredths;
}

thread reader { mean(); mean(); }
thread sensor { record(20); record(23); record(-4); mean(); }
