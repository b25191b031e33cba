// A shop: items in stock, customers with money, orders that join the two.
//
// An item and a customer have a lock each. An order has none: it is its buyer's, so its fields are
// under the buyer's lock, which the final reference buyer leads to. fill needs two locks, that of
// the item and that of the buyer; o.quantity and o.buyer.money stand under the same one.
//
// check: first Item.l, then Customer.l, as declared. fill and cancel take the item's lock and the
// buyer's before their first statement, in this order, although both read the order first: it is
// under the buyer's lock. deliver and reprice take the item's.

struct Item { lock l; int stock protected_by(l); int price protected_by(l); }
struct Customer { lock l; int money protected_by(l); }

struct Order {
  final ref Item item;
  final ref Customer buyer;
  int quantity protected_by(buyer.l);
  int filled protected_by(buyer.l);    // 1 once it is filled
  int paid protected_by(buyer.l);
}

pool Item item[2];
pool Customer customer[2];
pool Order order[3];

init item[0].stock = 10;  init item[0].price = 3;
init item[1].price = 50;
init customer[0].money = 100;
init customer[1].money = 20;
init order[0].item = item[0];  init order[0].buyer = customer[0];  init order[0].quantity = 4;
init order[1].item = item[1];  init order[1].buyer = customer[0];  init order[1].quantity = 1;
init order[2].item = item[0];  init order[2].buyer = customer[1];  init order[2].quantity = 6;

// Fills an order if it is open, the stock suffices and the buyer can pay: 1, else 0.
atomic fill(ref Order o) : int {
  let cost: int = o.quantity * o.item.price;
  var done: int = 0;
  if (o.filled == 0 && o.quantity <= o.item.stock && cost <= o.buyer.money) {
    o.item.stock = o.item.stock - o.quantity;
    o.buyer.money = o.buyer.money - cost;
    o.paid = cost;
    o.filled = 1;
    done = 1;
  }
  return done;
}

// Takes a filled order back, and returns what was paid for it.
atomic cancel(ref Order o) : int {
  let back: int = o.paid;
  if (o.filled == 1) {
    o.item.stock = o.item.stock + o.quantity;
    o.buyer.money = o.buyer.money + back;
    o.paid = 0;
    o.filled = 0;
  }
  return back;
}

atomic deliver(ref Item i, int quantity) { i.stock = i.stock + quantity; }

// Sets a price, and returns the one before.
atomic reprice(ref Item i, int price) : int {
  let before: int = i.price;
  i.price = price;
  return before;
}

thread shop { fill(order[0]); fill(order[1]); fill(order[2]); fill(order[0]); }
thread supplier { deliver(item[1], 2); reprice(item[1], 60); fill(order[1]); }
thread customers { cancel(order[2]); cancel(order[2]); }
