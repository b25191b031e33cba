// A work queue: jobs wait in a line, and workers take them from its front.
//
// The line's ends and the links between jobs share the lock Line. What a job holds is under the
// job's own lock, and what a worker has in hand under the worker's. take uses all three in one
// section, so a job is never both in the line and in a hand, nor in two hands.
//
// check: first Line, then Worker.l, then Job.l, since finish finds the job through the worker.
// submit takes Line and the job's lock before its first if. take takes Line, the worker's lock and
// the job's at three places, finish the worker's and then the job's.

lock Line;

struct Job {
  lock l;
  ref Job next protected_by(Line);
  int number protected_by(l);
  int state protected_by(l);     // 0 new, 1 in the line, 2 in hand, 3 done
  int result protected_by(l);
}

struct Worker {
  lock l;
  ref Job job protected_by(l);
  int done protected_by(l);
}

pool Job job[3];
pool Worker worker[2];
global ref Job front protected_by(Line);
global ref Job back protected_by(Line);

// Puts a job at the back of the line: 1, or 0 where it is in the line or in hand already.
atomic submit(ref Job j, int number) : int {
  var done: int = 0;
  if (j.state == 0 || j.state == 3) {
    j.number = number;
    j.state = 1;
    j.next = null;
    let last: ref Job = back;
    if (last == null) { front = j; } else { last.next = j; }
    back = j;
    done = 1;
  }
  return done;
}

// Gives the job at the front to a worker whose hands are empty; returns what he has in hand then.
atomic take(ref Worker w) : ref Job {
  let j: ref Job = front;
  if (j != null && w.job == null) {
    front = j.next;
    if (front == null) { back = null; }
    j.state = 2;
    w.job = j;
  }
  return w.job;
}

// Does the job in hand: the sum of the numbers from 1 to its number.
atomic finish(ref Worker w) : int {
  let j: ref Job = w.job;
  var sum: int = 0;
  if (j != null) {
    var k: int = 1;
    while (k <= j.number) { sum = sum + k; k = k + 1; }
    j.result = sum;
    j.state = 3;
    w.job = null;
    w.done = w.done + 1;
  }
  return sum;
}

thread client { submit(job[0], 4); submit(job[1], 10); submit(job[0], 5); submit(job[2], 100); }
thread first { repeat 2 { take(worker[0]); } finish(worker[0]); }
thread second { repeat 3 { take(worker[1]); finish(worker[1]); } }
thread late { submit(job[0], 3); }
