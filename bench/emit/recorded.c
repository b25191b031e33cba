/* The emitted section with a history, behind names of its own. */
#include <stdlib.h>

#include "transfer.c"

static struct alState state;

void open_recorded(void) { alOpen(&state); }

void begin_recorded(void)
{
  if (alHistoryOpen(&state) != 0) abort();
}

void drop_recorded(void)
{
  if (state.history->refused) abort();
  alHistoryClose(&state);
}

int64_t emitted_recorded(int a, int b, int64_t k) { return al_transfer(&state, &state.p_p[a], &state.p_p[b], k).value; }
