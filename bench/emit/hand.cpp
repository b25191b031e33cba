// Written by hand: two std::mutexes in order, std::scoped_lock, one global mutex.
#include <mutex>

#include "transfers.h"

struct alignas(64) Account {
  std::mutex lock;
  int64_t balance;
};

static Account account[64];
static std::mutex global_lock;

static int64_t move(int a, int b, int64_t k)
{
  account[a].balance -= k;
  account[b].balance += k;
  return account[b].balance;
}

int64_t hand_ordered(int a, int b, int64_t k)
{
  int low = a < b ? a : b, high = a < b ? b : a;
  std::unique_lock<std::mutex> first(account[low].lock);
  std::unique_lock<std::mutex> second;
  if (high != low) second = std::unique_lock<std::mutex>(account[high].lock);
  return move(a, b, k);
}

int64_t hand_scoped(int a, int b, int64_t k)
{
  if (a == b) {
    std::lock_guard<std::mutex> one(account[a].lock);
    return move(a, b, k);
  }
  std::scoped_lock both(account[a].lock, account[b].lock);
  return move(a, b, k);
}

int64_t hand_global(int a, int b, int64_t k)
{
  std::lock_guard<std::mutex> all(global_lock);
  return move(a, b, k);
}
