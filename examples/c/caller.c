/* Four threads move money between the accounts of examples/bank.al. The total stays 100. */
#include <pthread.h>
#include <stdio.h>
#include "bank.h"

static struct alState bank;

static void *work(void *number)
{
  int t = *(int *)number;
  for (int i = 0; i < 100000; i++)
    al_transfer(&bank, al_account(&bank, (t + i) % 4), al_account(&bank, (t + 3 * i + 1) % 4), i % 7);
  return NULL;
}

int main(void)
{
  pthread_t threads[4];
  int numbers[4];
  alOpen(&bank);
  for (int t = 0; t < 4; t++) {
    numbers[t] = t;
    if (pthread_create(&threads[t], NULL, work, &numbers[t]) != 0) return 4;
  }
  for (int t = 0; t < 4; t++) pthread_join(threads[t], NULL);
  struct autolock_int total =
      al_total(&bank, al_account(&bank, 0), al_account(&bank, 1), al_account(&bank, 2), al_account(&bank, 3));
  struct autolock_int none = al_transfer(&bank, NULL, al_account(&bank, 0), 1);
  printf("total %lld, trap %d; from no account: trap %d\n", (long long)total.value, total.trap, none.trap);
  alClose(&bank);
  return total.value == 100 && total.trap == 0 && none.trap == 1 ? 0 : 1;
}
