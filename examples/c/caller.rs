//! Four threads move money between the accounts of examples/bank.al. The total stays 100.

use std::alloc::{Layout, alloc_zeroed, handle_alloc_error};
use std::ffi::{c_int, c_void};
use std::{process, thread};

#[repr(C)]
#[derive(Clone, Copy)]
struct Int {
    trap: c_int,
    value: i64,
}

#[link(name = "bank")]
unsafe extern "C" {
    fn alSize() -> usize;
    fn alOpen(state: *mut c_void);
    fn alClose(state: *mut c_void);
    fn al_account(state: *mut c_void, number: i64) -> *mut c_void;
    fn al_transfer(state: *mut c_void, from: *mut c_void, to: *mut c_void, amount: i64) -> Int;
    fn al_total(state: *mut c_void, a: *mut c_void, b: *mut c_void, c: *mut c_void, d: *mut c_void) -> Int;
}

#[derive(Clone, Copy)]
struct Bank(*mut c_void);

// SAFETY: sections may be called from any thread.
unsafe impl Send for Bank {}

impl Bank {
    fn open() -> Bank {
        // SAFETY: a state is as long as it says, and begins a cache line.
        unsafe {
            let layout = Layout::from_size_align(alSize(), 64).expect("a state has a size");
            let state = alloc_zeroed(layout);
            if state.is_null() {
                handle_alloc_error(layout);
            }
            alOpen(state.cast());
            Bank(state.cast())
        }
    }

    fn transfer(self, from: i64, to: i64, amount: i64) -> Int {
        // SAFETY: both accounts are members of this state's pool.
        unsafe { al_transfer(self.0, al_account(self.0, from), al_account(self.0, to), amount) }
    }

    fn total(self) -> Int {
        // SAFETY: as above.
        unsafe {
            let account = |number| al_account(self.0, number);
            al_total(self.0, account(0), account(1), account(2), account(3))
        }
    }
}

fn main() {
    let bank = Bank::open();
    let work = |number: i64| {
        move || {
            let bank = bank;
            for i in 0..100_000 {
                bank.transfer((number + i) % 4, (number + 3 * i + 1) % 4, i % 7);
            }
        }
    };
    let threads: Vec<_> = (0..4).map(|number| thread::spawn(work(number))).collect();
    for thread in threads {
        thread.join().expect("a thread ends");
    }
    let total = bank.total();
    println!("total {}, trap {}", total.value, total.trap);
    // SAFETY: no section is under way.
    unsafe { alClose(bank.0) };
    process::exit(i32::from((total.value, total.trap) != (100, 0)));
}
