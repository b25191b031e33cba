"""Four threads move money between the accounts of examples/bank.al. The total stays 100."""

import ctypes
import os
import sys
import threading

LINE = 64


class Int(ctypes.Structure):
    _fields_ = [("trap", ctypes.c_int), ("value", ctypes.c_int64)]


bank = ctypes.CDLL(os.path.join(os.path.dirname(os.path.abspath(__file__)), "libbank.so"))
pointer, number = ctypes.c_void_p, ctypes.c_int64
bank.alSize.restype = ctypes.c_size_t
bank.alOpen.argtypes = bank.alClose.argtypes = [pointer]
bank.al_account.argtypes, bank.al_account.restype = [pointer, number], pointer
bank.al_transfer.argtypes, bank.al_transfer.restype = [pointer, pointer, pointer, number], Int
bank.al_total.argtypes, bank.al_total.restype = [pointer] * 5, Int

room = ctypes.create_string_buffer(bank.alSize() + LINE)
state = (ctypes.addressof(room) + LINE - 1) // LINE * LINE
bank.alOpen(state)
accounts = [bank.al_account(state, i) for i in range(4)]


def work(thread):
    for i in range(5000):
        bank.al_transfer(state, accounts[(thread + i) % 4], accounts[(thread + 3 * i + 1) % 4], i % 7)


threads = [threading.Thread(target=work, args=(thread,)) for thread in range(4)]
for thread in threads:
    thread.start()
for thread in threads:
    thread.join()
total = bank.al_total(state, *accounts)
print(f"total {total.value}, trap {total.trap}")
bank.alClose(state)
sys.exit(0 if (total.value, total.trap) == (100, 0) else 1)
