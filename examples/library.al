// A library: readers wish for books, and books stand on shelves.
//
// borrow finds its way by references that change: the book through the reader, the shelf through
// the book. So a reader's lock comes first, then a book's, then a shelf's. give_back is told whose
// book it is: found through the book, the reader's lock would have to come behind the book's, and
// with borrow that would be a cycle.
//
// check: first Reader.l, then Book.l, then Shelf.l: the other way round than declared. borrow takes
// these three locks at three places, the book's and the shelf's once the references to them were
// read; give_back takes the first two before its if, and the shelf's where it counts the book.

struct Shelf { lock l; int books protected_by(l); }

struct Book {
  lock l;
  ref Shelf shelf protected_by(l);      // null while a reader has it
  ref Reader reader protected_by(l);
}

struct Reader { lock l; ref Book wish protected_by(l); int held protected_by(l); }

pool Shelf shelf[2];
pool Book book[3];
pool Reader reader[2];

init shelf[0].books = 2;  init shelf[1].books = 1;
init book[0].shelf = shelf[0];  init book[1].shelf = shelf[0];  init book[2].shelf = shelf[1];

atomic wish(ref Reader r, ref Book b) { r.wish = b; }

// Where the book stands that a reader wishes for, or null.
atomic wished_at(ref Reader r) : ref Shelf {
  let b: ref Book = r.wish;
  var at: ref Shelf = null;
  if (b != null) { at = b.shelf; }
  return at;
}

// Takes the book that the reader wishes for from its shelf: 1, or 0 where it isn't on one.
atomic borrow(ref Reader r) : int {
  let b: ref Book = r.wish;
  var done: int = 0;
  if (b != null) {
    let s: ref Shelf = b.shelf;
    if (s != null) {
      s.books = s.books - 1;
      b.shelf = null;
      b.reader = r;
      r.held = r.held + 1;
      r.wish = null;
      done = 1;
    }
  }
  return done;
}

// Puts a reader's book on a shelf: 1, or 0 where that reader doesn't have it.
atomic give_back(ref Reader r, ref Book b, ref Shelf s) : int {
  var done: int = 0;
  if (b.reader == r) {
    b.reader = null;
    b.shelf = s;
    s.books = s.books + 1;
    r.held = r.held - 1;
    done = 1;
  }
  return done;
}

thread ada {
  wish(reader[0], book[1]);
  wished_at(reader[0]);
  repeat 2 { borrow(reader[0]); }
  wish(reader[0], book[2]);
  borrow(reader[0]);
}

thread bob {
  wish(reader[1], book[1]);
  borrow(reader[1]);  wished_at(reader[1]);
  give_back(reader[1], book[1], shelf[1]);
  give_back(reader[0], book[1], shelf[1]);
  borrow(reader[1]);
}
