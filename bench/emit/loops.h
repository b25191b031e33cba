/* e_: emitted; h_: by hand, without tests; c_: by hand, with the same tests. */
#pragma once
#include <stdint.h>

int64_t e_sieve(int64_t n), e_sum(int64_t n), e_matrix(int64_t n), e_chase(int64_t n);
int64_t h_sieve(int64_t n), h_sum(int64_t n), h_matrix(int64_t n), h_chase(int64_t n);
int64_t c_sieve(int64_t n), c_sum(int64_t n), c_matrix(int64_t n), c_chase(int64_t n);
void h_link(void), e_link(void);
