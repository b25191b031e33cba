/* Refuses the library each growth of memory in turn.
 *
 *     refused EVERY FILE ..      (linked with -Wl,--wrap=malloc,--wrap=realloc,--wrap=free)
 *
 * For each FILE and each function, each EVERY-th of the growths that a call asks for is refused: that call has to
 * answer 4, with no length and nothing in its room, and to give back each block that it got; and the next call
 * answers as the first one did. Writes how many growths were refused; the status is 1 where something is otherwise,
 * and that is told. */
#include "asked.h"

void *__real_malloc(size_t size);
void *__real_realloc(void *block, size_t size);
void __real_free(void *block);
void *__wrap_malloc(size_t size);
void *__wrap_realloc(void *block, size_t size);
void __wrap_free(void *block);

static const uint8_t UNTOUCHED = 0xa5;
/* How many growths are let through, or -1 for all; how many were asked for; how many blocks are held. */
static long left = -1, asked, held;

static int is_refused(void)
{
  asked++;
  return left >= 0 && left-- == 0;
}

void *__wrap_malloc(size_t size)
{
  if (is_refused())
    return NULL;
  held++;
  return __real_malloc(size);
}

void *__wrap_realloc(void *block, size_t size)
{
  if (is_refused())
    return NULL;
  held += !block;
  return __real_realloc(block, size);
}

void __wrap_free(void *block)
{
  held -= !!block;
  __real_free(block);
}

/* A call where the growth behind so many is refused: what it asked for, and whether it did what it has to. */
static int is_right(int word, struct bytes text, struct bytes prefix, long growth, struct bytes whole, uint8_t status)
{
  static uint8_t room[1 << 24];
  size_t needed = 12345, length = whole.length + 16;
  if (length > sizeof room)
    length = sizeof room;
  memset(room, UNTOUCHED, length);
  long before = held;
  left = growth;
  uint8_t ended = ask(word, text, prefix, (struct bytes){room, length}, &needed);
  left = -1;
  int is_nothing = ended == AUTOLOCK_NO_MEMORY && needed == 0;
  for (size_t i = 0; i < length; i++)
    is_nothing = is_nothing && room[i] == UNTOUCHED;
  int is_whole = ended == status && needed == whole.length && !memcmp(room, whole.at, whole.length);
  return held == before && (growth < 0 ? is_whole : is_nothing);
}

int main(int count, char **given)
{
  long every = count > 1 ? atol(given[1]) : 1, refused = 0, failed = 0;
  struct bytes prefix = {(uint8_t *)"al", 2};
  for (int i = 2; i < count; i++) {
    struct bytes text = read_file(given[i]);
    for (int word = 0; word < WORDS; word++) {
      uint8_t none;
      struct bytes whole = {&none, 0};
      uint8_t status = ask(word, text, prefix, whole, &whole.length);
      whole.at = malloc(whole.length + 1);
      if (!whole.at)
        return 3;
      size_t needed;
      asked = 0;
      ask(word, text, prefix, whole, &needed);
      long all = asked;
      for (long growth = 0; growth < all; growth += every) {
        refused++;
        if (!is_right(word, text, prefix, growth, whole, status)) {
          printf("%s: %s: growth %ld of %ld refused: no status 4 with nothing\n", given[i], words[word], growth, all);
          failed++;
        }
      }
      if (!is_right(word, text, prefix, -1, whole, status)) {
        printf("%s: %s: another answer after growths were refused\n", given[i], words[word]);
        failed++;
      }
      free(whole.at);
    }
    free(text.at);
  }
  printf("%ld growths refused, %ld failed\n", refused, failed);
  return failed != 0;
}
