// On one thread: locks the std::mutex of two cells, sets both cells, and unlocks both. Says how many rounds there were
// and the least time of one of five runs, in microseconds.
#include <chrono>
#include <cstdint>
#include <cstdio>
#include <cstdlib>
#include <mutex>
#include <vector>

struct Owned {
  std::mutex mutex;
  std::vector<int64_t> cells;
};

int main(int, char **words) {
  const uint32_t cells = std::atoi(words[1]), locks = std::atoi(words[2]), each = cells / locks, half = cells / 2;
  const uint32_t rounds = 100000;
  std::vector<Owned> owned(locks);
  for (auto &one : owned) one.cells.resize(each);
  int64_t least = INT64_MAX;
  for (int run = 0; run < 5; run++) {
    const auto start = std::chrono::steady_clock::now();
    for (uint32_t i = 0; i < rounds; i++) {
      const uint32_t at = i * 7919 % half, behind = at + half;
      Owned &first = owned[at / each], &second = owned[behind / each];
      std::lock_guard<std::mutex> one(first.mutex);
      std::lock_guard<std::mutex> other(second.mutex);
      *const_cast<volatile int64_t *>(&first.cells[at % each]) = i;
      *const_cast<volatile int64_t *>(&second.cells[behind % each]) = i;
    }
    const auto took = std::chrono::steady_clock::now() - start;
    const int64_t time = std::chrono::duration_cast<std::chrono::microseconds>(took).count();
    if (time < least) least = time;
  }
  std::printf("%u cells %u locks %u sections %lld us\n", cells, locks, rounds, (long long)least);
}
