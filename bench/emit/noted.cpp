// Written by hand: two std::mutexes in order, and a history in memory. Each thread has a list, whose room is there before the
// calls; an entry's place is drawn from one counter under the locks.
#include <atomic>
#include <memory>
#include <mutex>
#include <vector>

#include "transfers.h"

struct alignas(64) Account {
  std::mutex lock;
  int64_t balance;
};

struct Entry {
  int64_t place, begun, result, k;
  int a, b;
};

static Account account[64];
alignas(64) static std::atomic<int64_t> length;
alignas(64) static std::mutex list_lock;
static std::vector<std::unique_ptr<std::vector<Entry>>> lists;
static std::atomic<int> round_number;

static std::vector<Entry> &mine()
{
  static thread_local std::vector<Entry> *list;
  static thread_local int round = -1;
  if (round != round_number.load(std::memory_order_relaxed)) {
    std::lock_guard<std::mutex> one(list_lock);
    lists.push_back(std::make_unique<std::vector<Entry>>());
    list = lists.back().get();
    list->reserve(1 << 20);
    round = round_number;
  }
  return *list;
}

void drop_noted()
{
  lists.clear();
  length = 0;
  round_number++;
}

int64_t hand_noted(int a, int b, int64_t k)
{
  int64_t begun = length.load(std::memory_order_relaxed);
  std::vector<Entry> &list = mine();
  int low = a < b ? a : b, high = a < b ? b : a;
  std::unique_lock<std::mutex> first(account[low].lock);
  std::unique_lock<std::mutex> second;
  if (high != low) second = std::unique_lock<std::mutex>(account[high].lock);
  account[a].balance -= k;
  account[b].balance += k;
  int64_t result = account[b].balance;
  list.push_back({length.fetch_add(1, std::memory_order_relaxed), begun, result, k, a, b});
  return result;
}
