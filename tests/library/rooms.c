/* Calls the library with rooms of many sizes, each of which ends where a page begins that nobody may touch.
 *
 *     rooms PREFIX FOLDER FILE ..
 *
 * For each FILE and each function: whatever the room is, the status and the length are the same, the room has the
 * beginning of the answer, and what is behind that in it stays. The answer of FILE n to the function W goes to the file
 * n.W in FOLDER, its status in a line of its own ahead of it. The status is 1 where something is otherwise, and that is
 * told. */
#include "asked.h"

#include <sys/mman.h>
#include <unistd.h>

static const uint8_t UNTOUCHED = 0xa5;
static int failed;

/* So many bytes that end at a page which can be neither read nor written; `all` and `size` are for `munmap`. */
static struct bytes beside_nothing(size_t length, void **all, size_t *size)
{
  size_t page = (size_t)sysconf(_SC_PAGESIZE), pages = length / page + 1;
  *size = (pages + 1) * page;
  *all = mmap(NULL, *size, PROT_READ | PROT_WRITE, MAP_PRIVATE | MAP_ANONYMOUS, -1, 0);
  if (*all == MAP_FAILED || mprotect((char *)*all + pages * page, page, PROT_NONE)) {
    perror("mmap");
    exit(3);
  }
  struct bytes room = {(uint8_t *)*all + pages * page - length, length};
  memset(room.at, UNTOUCHED, length);
  return room;
}

static struct bytes moved(struct bytes text)
{
  void *all;
  size_t size;
  struct bytes room = beside_nothing(text.length, &all, &size);
  if (text.length)
    memcpy(room.at, text.at, text.length);
  return room;
}

static void tell(const char *file, int word, size_t room, const char *what)
{
  printf("%s: %s with room for %zu bytes: %s\n", file, words[word], room, what);
  failed = 1;
}

/* One call with this room, against the whole answer. */
static void judge(const char *file, int word, struct bytes text, struct bytes prefix, size_t length, uint8_t status,
                  struct bytes whole)
{
  void *all;
  size_t size, needed = 12345;
  struct bytes room = beside_nothing(length, &all, &size);
  if (ask(word, text, prefix, room, &needed) != status)
    tell(file, word, length, "another status");
  if (needed != whole.length)
    tell(file, word, length, "another length");
  size_t given = length < whole.length ? length : whole.length;
  if (given && memcmp(room.at, whole.at, given))
    tell(file, word, length, "the answer does not begin with that");
  for (size_t i = given; i < length; i++)
    if (room.at[i] != UNTOUCHED) {
      tell(file, word, length, "what is behind the answer was changed");
      break;
    }
  munmap(all, size);
}

static void write_answer(const char *folder, int number, int word, uint8_t status, struct bytes whole)
{
  char name[4096];
  snprintf(name, sizeof name, "%s/%d.%s", folder, number, words[word]);
  FILE *file = fopen(name, "wb");
  if (!file || fprintf(file, "%d\n", status) < 0 || fwrite(whole.at, 1, whole.length, file) != whole.length ||
      fclose(file)) {
    perror(name);
    exit(3);
  }
}

int main(int count, char **given)
{
  if (count < 3)
    return 2;
  struct bytes prefix = moved((struct bytes){(uint8_t *)given[1], strlen(given[1])});
  for (int i = 3; i < count; i++) {
    struct bytes read = read_file(given[i]), text = moved(read);
    free(read.at);
    for (int word = 0; word < WORDS; word++) {
      uint8_t none;
      struct bytes whole = {&none, 0};
      uint8_t status = ask(word, text, prefix, whole, &whole.length);
      whole.at = malloc(whole.length + 1);
      if (!whole.at)
        return 3;
      size_t needed;
      if (ask(word, text, prefix, whole, &needed) != status || needed != whole.length)
        tell(given[i], word, whole.length, "another answer than without room");
      size_t n = whole.length, rooms[] = {0, 1, 2, n / 2, n - !!n, n, n + 1, n + 5000};
      for (size_t r = 0; r < sizeof rooms / sizeof *rooms; r++)
        judge(given[i], word, text, prefix, rooms[r], status, whole);
      write_answer(given[2], i - 3, word, status, whole);
      free(whole.at);
    }
  }
  return failed;
}
