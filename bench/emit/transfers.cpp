// Rounds in turn: nanoseconds a transfer, the least and the middle of the rounds, by threads and accounts; then ratios.
#include "transfers.h"

#include <algorithm>
#include <atomic>
#include <chrono>
#include <cstdio>
#include <cstdlib>
#include <thread>
#include <vector>

using Transfer = int64_t (*)(int, int, int64_t);

static double nanoseconds(Transfer transfer, int threads, int calls, bool disjoint)
{
  std::atomic<int> ready{0};
  std::atomic<bool> go{false};
  std::vector<std::thread> all;
  for (int t = 0; t < threads; t++)
    all.emplace_back([&, t] {
      int a = disjoint ? 2 * t : 0, b = disjoint ? 2 * t + 1 : 1;
      ready++;
      while (!go) {
      }
      for (int i = 0; i < calls; i++) (t & 1) ? transfer(b, a, 7) : transfer(a, b, 5);
    });
  while (ready < threads) {
  }
  auto begun = std::chrono::steady_clock::now();
  go = true;
  for (auto &thread : all) thread.join();
  double seconds = std::chrono::duration<double>(std::chrono::steady_clock::now() - begun).count();
  return seconds / (double(threads) * calls) * 1e9;
}

static void none() {}

int main(int argc, char **argv)
{
  int rounds = argc > 1 ? std::atoi(argv[1]) : 15, calls = argc > 2 ? std::atoi(argv[2]) : 1000000;
  open_line();
  open_packed();
  open_recorded();
  struct {
    const char *name;
    Transfer transfer;
    void (*begin)();
    void (*drop)();
  } peers[] = {{"emitted", emitted_line, none, none},
               {"packed", emitted_packed, none, none},
               {"ordered", hand_ordered, none, none},
               {"scoped", hand_scoped, none, none},
               {"global", hand_global, none, none},
               {"libitm", hand_transaction, none, none},
               {"recorded", emitted_recorded, begin_recorded, drop_recorded},
               {"noted", hand_noted, none, drop_noted}};
  std::printf("%-20s", "ns, least (middle)");
  for (auto &peer : peers) std::printf("%18s", peer.name);
  std::puts("   emitted/ordered   recorded/noted");
  for (int threads : {1, 2, 4})
    for (bool disjoint : {false, true}) {
      std::vector<std::vector<double>> times(std::size(peers));
      for (int round = 0; round < rounds; round++)
        for (size_t i = 0; i < std::size(peers); i++) {
          peers[i].begin();
          times[i].push_back(nanoseconds(peers[i].transfer, threads, calls / threads, disjoint));
          peers[i].drop();
        }
      std::printf("%d threads, %-9s", threads, disjoint ? "disjoint" : "same");
      for (auto &of : times) {
        std::sort(of.begin(), of.end());
        std::printf("%9.1f (%6.1f)", of.front(), of[of.size() / 2]);
      }
      for (auto [one, other] : {std::pair(0, 2), std::pair(6, 7)})
        std::printf("   %.2f (%.2f)   ", times[one].front() / times[other].front(),
                    times[one][rounds / 2] / times[other][rounds / 2]);
      std::puts("");
    }
}
