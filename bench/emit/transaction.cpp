// The same by GCC's transactional memory.
#include "transfers.h"

struct alignas(64) Account {
  int64_t balance;
};

static Account account[64];

int64_t hand_transaction(int a, int b, int64_t k)
{
  int64_t result;
  __transaction_atomic {
    account[a].balance -= k;
    account[b].balance += k;
    result = account[b].balance;
  }
  return result;
}
