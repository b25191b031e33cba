// Transfers between two accounts by threads, each account under a std::mutex, or all under one; each transfer is entered
// into one history. Says how many transfers there were and the least time of so many runs, in microseconds.
//
//     mutex ordered|global same|disjoint THREADS TRANSFERS ROUNDS
#include <chrono>
#include <cstdint>
#include <cstdio>
#include <cstdlib>
#include <cstring>
#include <mutex>
#include <thread>
#include <utility>
#include <vector>

struct Account {
  alignas(64) std::mutex mutex;
  int64_t balance = 0;
};

struct Access {
  uint32_t cell;
  int64_t value;
};

// What an entry of the history keeps.
struct Entry {
  uint32_t thread, step, section;
  uint64_t begun;
  std::vector<int64_t> arguments;
  std::vector<Access> reads, writes;
  int64_t result;
};

struct History {
  std::mutex mutex;
  std::vector<Entry> entries;

  uint64_t length() {
    std::lock_guard<std::mutex> held(mutex);
    return entries.size();
  }

  void enter(Entry entry) {
    std::lock_guard<std::mutex> held(mutex);
    entries.push_back(std::move(entry));
  }
};

struct Bank {
  std::vector<Account> accounts;
  std::mutex all;
  History history;

  explicit Bank(size_t count) : accounts(count) {}

  Entry move(uint32_t thread, uint32_t step, uint64_t begun, uint32_t from, uint32_t to, int64_t sum) {
    Entry entry{thread, step, 0, begun, {from, to, sum}, {}, {}, 0};
    const int64_t first = accounts[from].balance, second = accounts[to].balance;
    entry.reads = {{from, first}, {to, second}};
    accounts[from].balance = first - sum;
    accounts[to].balance = second + sum;
    entry.writes = {{from, first - sum}, {to, second + sum}};
    entry.result = second + sum;
    return entry;
  }

  void ordered(uint32_t thread, uint32_t step, uint32_t from, uint32_t to, int64_t sum) {
    const uint64_t begun = history.length();
    const uint32_t low = from < to ? from : to, high = from < to ? to : from;
    std::lock_guard<std::mutex> one(accounts[low].mutex);
    std::lock_guard<std::mutex> other(accounts[high].mutex);
    history.enter(move(thread, step, begun, from, to, sum));
  }

  void global(uint32_t thread, uint32_t step, uint32_t from, uint32_t to, int64_t sum) {
    std::lock_guard<std::mutex> held(all);
    history.entries.push_back(move(thread, step, history.entries.size(), from, to, sum));
  }
};

int main(int, char **words) {
  const bool is_global = !std::strcmp(words[1], "global"), is_same = !std::strcmp(words[2], "same");
  const uint32_t threads = std::atoi(words[3]), transfers = std::atoi(words[4]), rounds = std::atoi(words[5]);
  int64_t least = INT64_MAX;
  size_t calls = 0;
  for (uint32_t round = 0; round < rounds; round++) {
    Bank bank(is_same ? 2 : 2 * threads);
    const auto start = std::chrono::steady_clock::now();
    std::vector<std::thread> running;
    for (uint32_t t = 0; t < threads; t++) {
      running.emplace_back([&bank, is_global, is_same, t, transfers] {
        const uint32_t base = is_same ? 0 : 2 * t;
        const uint32_t from = base + t % 2, to = base + 1 - t % 2;
        for (uint32_t i = 0; i < transfers; i++) {
          if (is_global) bank.global(t, i, from, to, 1);
          else bank.ordered(t, i, from, to, 1);
        }
      });
    }
    for (auto &one : running) one.join();
    const auto took = std::chrono::steady_clock::now() - start;
    const int64_t time = std::chrono::duration_cast<std::chrono::microseconds>(took).count();
    if (time < least) least = time;
    calls = bank.history.entries.size();
  }
  std::printf("%zu calls %lld us\n", calls, (long long)least);
}
