// The lost update.
//
// Two threads each add 1 to a shared number. Written with threads and no lock, both may read 0 and
// both may write 1: one update is lost. Here n is protected by the lock G, and inc is an atomic
// section, which runs whole: one call comes after the other, and n ends as 2.
//
// check: one class, G. inc takes it before its only statement.

lock G;
global int n protected_by(G);

atomic inc() { n = n + 1; }

thread t { inc(); }
thread u { inc(); }
