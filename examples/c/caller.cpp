// Four threads move money between the accounts of examples/bank.al. The total stays 100.
#include "bank.h"

#include <cstdio>
#include <thread>
#include <vector>

static alState bank;

int main()
{
  alOpen(&bank);
  std::vector<std::thread> threads;
  for (int t = 0; t < 4; t++)
    threads.emplace_back([t] {
      for (int i = 0; i < 100000; i++)
        al_transfer(&bank, al_account(&bank, (t + i) % 4), al_account(&bank, (t + 3 * i + 1) % 4), i % 7);
    });
  for (auto &thread : threads) thread.join();
  auto total = al_total(&bank, al_account(&bank, 0), al_account(&bank, 1), al_account(&bank, 2), al_account(&bank, 3));
  std::printf("total %lld, trap %d\n", static_cast<long long>(total.value), total.trap);
  alClose(&bank);
  return total.value == 100 && total.trap == 0 ? 0 : 1;
}
