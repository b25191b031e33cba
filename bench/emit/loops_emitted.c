#include "loops.c"
#include "loops.h"
static struct alState st;
static int opened;
static struct alState *s(void) { if (!opened) { alOpen(&st); opened = 1; } return &st; }
void e_link(void) { al_link(s()); }
int64_t e_sieve(int64_t n) { return al_sieve(s(), n).value; }
int64_t e_sum(int64_t n) { return al_sum(s(), n).value; }
int64_t e_matrix(int64_t n) { return al_matrix(s(), n).value; }
int64_t e_chase(int64_t n) { return al_chase(s(), n).value; }
