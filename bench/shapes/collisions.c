// Writes names whose hashes are alike in a table that hashes by the library's `FoldHasher` with its fixed seed: the low
// 16 bits are 0, so that each is looked for where all of them are. Usage: collisions COUNT
#include <stdint.h>
#include <stdio.h>
#include <stdlib.h>
#include <string.h>

static const uint64_t MULTIPLIER = 0x9e3779b97f4a7c15u;

static uint64_t folded(uint64_t a, uint64_t b) {
  unsigned __int128 product = (unsigned __int128)a * b;
  return (uint64_t)product ^ (uint64_t)(product >> 64);
}

static uint64_t read32(const unsigned char *bytes) {
  uint32_t word;
  memcpy(&word, bytes, 4);
  return word;
}

// A name of eight bytes, and the byte 255 that ends a text.
static uint32_t hash(const unsigned char *name) {
  uint64_t state = 0x243f6a8885a308d3u;
  state = folded(state ^ (read32(name) | read32(name + 4) << 32), MULTIPLIER ^ 16);
  state = folded(state ^ (255u | 255u << 8 | 255u << 16), MULTIPLIER ^ 2);
  return (uint32_t)(state ^ state >> 32);
}

int main(int argc, char **argv) {
  int left = argc > 1 ? atoi(argv[1]) : 1000;
  for (uint64_t i = 0; left > 0; i++) {
    unsigned char name[9] = "aaaaaaaa";
    uint64_t rest = i;
    for (int k = 7; rest > 0 && k >= 0; k--, rest /= 26) name[k] = 'a' + rest % 26;
    uint32_t h = hash(name);
    if ((h & 0xffff) == 0) {
      puts((char *)name);
      left--;
    }
  }
}
