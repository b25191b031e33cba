// Sessions of a server, and a sweep that ends those that were idle for too long.
//
// enter takes a free session and touch notes a use of one: each takes the lock of a single session. The
// sweep visits all of them, so its head lists the class: lock(Session.l). It holds all locks from its
// first use of a session to its end, so it should be rare. Between sweeps users of different sessions
// don't wait for each other.
//
// check: two classes, Count before Session.l. sweep takes all locks of Session.l at its first use.
// outcomes --cells ended: the sweep ends one session if it comes before ann's use, and else none.

lock Count;
global int ended protected_by(Count);

struct Session {
  lock l;
  int user protected_by(l);
  int used protected_by(l);
}

pool Session session[3];
init session[0].user = 7;  init session[0].used = 40;
init session[1].user = 8;  init session[1].used = 95;

// Notes that a user used the session. Does nothing if it is another user's by now.
atomic touch(ref Session s, int user, int now) {
  if (s.user == user) { s.used = now; }
}

// Takes a session for a user, if it is free. The result says whether it was.
atomic enter(ref Session s, int user, int now) : int {
  var ok: int = 0;
  if (s.user == 0) {
    s.user = user;
    s.used = now;
    ok = 1;
  }
  return ok;
}

// Ends the sessions that were last used before a time, and returns how many these were.
atomic sweep(int time) : int lock(Session.l) {
  var i: int = 0;
  var count: int = 0;
  while (i < 3) {
    let s: ref Session = session[i];
    if (s.user != 0 && s.used < time) {
      s.user = 0;
      count = count + 1;
    }
    i = i + 1;
  }
  ended = ended + count;
  return count;
}

thread ann { touch(session[0], 7, 100); }
thread bob { enter(session[2], 9, 100); }
thread timer { sweep(50); }
