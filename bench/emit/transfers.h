// A transfer between two of 64 accounts, by each of the peers.
#pragma once
#include <cstdint>

int64_t hand_ordered(int a, int b, int64_t k);
int64_t hand_scoped(int a, int b, int64_t k);
int64_t hand_global(int a, int b, int64_t k);
int64_t hand_transaction(int a, int b, int64_t k);
int64_t hand_noted(int a, int b, int64_t k);
void drop_noted();
extern "C" {
int64_t emitted_line(int a, int b, int64_t k);
int64_t emitted_packed(int a, int b, int64_t k);
void open_line(void);
void open_packed(void);
int64_t emitted_recorded(int a, int b, int64_t k);
void open_recorded(void);
void begin_recorded(void);
void drop_recorded(void);
}
