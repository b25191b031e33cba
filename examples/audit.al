// An audit of all accounts, beside transfers between two of them.
//
// A transfer takes the locks of its two accounts, and transfers between other accounts run beside it.
// The audit meets one account after another in a loop. Locks that are taken as a loop finds them have
// no order, so its head lists their class: lock(Acc.l). At its first use of a balance it takes the locks
// of all accounts, in their order. No transfer is then half done, so each sum is that of the opening.
//
// check: two classes, Book before Acc.l. audit takes both at the statement that reads a.balance, since it
// uses Book later.
// outcomes --cells checked: a single end, with 60 in checked, whatever the order.

lock Book;
global int checked protected_by(Book);

struct Acc {
  lock l;
  int balance protected_by(l);
}

pool Acc acc[4];
init acc[0].balance = 30;
init acc[1].balance = 20;
init acc[2].balance = 10;

atomic transfer(ref Acc from, ref Acc to, int amount) {
  if (from.balance >= amount) {
    from.balance = from.balance - amount;
    to.balance = to.balance + amount;
  }
}

// The sum of all balances.
atomic audit() : int lock(Acc.l) {
  var i: int = 0;
  var sum: int = 0;
  while (i < 4) {
    let a: ref Acc = acc[i];
    sum = sum + a.balance;
    i = i + 1;
  }
  checked = sum;
  return sum;
}

thread one { transfer(acc[0], acc[3], 25); transfer(acc[3], acc[1], 15); }
thread two { transfer(acc[1], acc[2], 20); transfer(acc[2], acc[0], 30); }
thread clerk { audit(); audit(); }
