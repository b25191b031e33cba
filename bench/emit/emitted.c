/* The emitted section behind a name of its own: -DKIND=line, with `al` as the prefix of transfer.c. */
#include "transfer.c"

static struct alState state;

#define JOIN_(a, b) a##b
#define JOIN(a, b) JOIN_(a, b)

void JOIN(open_, KIND)(void) { alOpen(&state); }

int64_t JOIN(emitted_, KIND)(int a, int b, int64_t k) { return al_transfer(&state, &state.p_p[a], &state.p_p[b], k).value; }
