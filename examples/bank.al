// A bank with one lock for each account.
//
// Every account has its own lock, a member of its struct, so two transfers between four different
// accounts need not wait for each other. total reads all accounts in one section: it always
// returns 100.
//
// check: one class, Account.held. transfer takes the locks of both accounts before its first if,
// and total those of all four before its return.

struct Account {
  lock held;
  int balance protected_by(held);
}

pool Account account[4];

init account[0].balance = 70;
init account[1].balance = 30;

// Moves an amount, or as much as there is. Gives back what was moved.
atomic transfer(ref Account from, ref Account to, int amount) : int {
  var moved: int = amount;
  if (from.balance < moved) {
    moved = from.balance;
  }
  from.balance = from.balance - moved;
  to.balance = to.balance + moved;
  return moved;
}

atomic total(ref Account a, ref Account b, ref Account c, ref Account d) : int {
  return a.balance + b.balance + c.balance + d.balance;
}

thread teller {
  transfer(account[0], account[2], 50);
  transfer(account[2], account[2], 10);
  total(account[0], account[1], account[2], account[3]);
}

thread other {
  transfer(account[1], account[3], 40);
  repeat 2 { transfer(account[3], account[0], 20); }
}
