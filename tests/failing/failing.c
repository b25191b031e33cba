/* Preloaded into a program: makes one call of the system fail, and counts the calls.
 *
 * FAIL_GROWTH=N, FAIL_READ=N, FAIL_WRITE=N: the N-th call of malloc or realloc, of read, or of write fails, counted
 * from 1 and from the first one that the program's own code makes: calls before its `main` neither fail nor count, nor do
 * calls of realloc that the block has room for, as those that give memory back: no growth is refused there.
 * FAIL_LASTING=1: each growth after the failing one fails too.
 * FAIL_COUNTS=FILE: when the program ends, the numbers of the three kinds of calls are written there.
 */
#define _GNU_SOURCE
#include <dlfcn.h>
#include <errno.h>
#include <fcntl.h>
#include <malloc.h>
#include <stdio.h>
#include <stdlib.h>
#include <unistd.h>

enum kind { GROWTH, READ, WRITE, KINDS };

static unsigned long counted[KINDS], failing[KINDS];
static int is_counting, is_lasting;
static void *(*real_malloc)(size_t);
static void *(*real_realloc)(void *, size_t);
static ssize_t (*real_read)(int, void *, size_t);
static ssize_t (*real_write)(int, const void *, size_t);

static void find(void) {
    real_malloc = dlsym(RTLD_NEXT, "malloc");
    real_realloc = dlsym(RTLD_NEXT, "realloc");
    real_read = dlsym(RTLD_NEXT, "read");
    real_write = dlsym(RTLD_NEXT, "write");
}

static int fails(enum kind kind) {
    unsigned long number = is_counting ? __atomic_add_fetch(&counted[kind], 1, __ATOMIC_SEQ_CST) : 0;
    int is_later = is_lasting && kind == GROWTH && failing[kind] > 0 && number > failing[kind];
    return number > 0 && (number == failing[kind] || is_later);
}

static void tell(void) {
    char line[100];
    const char *name = getenv("FAIL_COUNTS");
    is_counting = 0;
    int file = name ? open(name, O_WRONLY | O_CREAT | O_TRUNC, 0600) : -1;
    if (file >= 0) {
        int length = snprintf(line, sizeof line, "%lu %lu %lu\n", counted[GROWTH], counted[READ], counted[WRITE]);
        if (real_write(file, line, (size_t)length) != length) abort();
        close(file);
    }
}

__attribute__((constructor)) static void begin(void) {
    static const char *names[KINDS] = {"FAIL_GROWTH", "FAIL_READ", "FAIL_WRITE"};
    find();
    for (int kind = 0; kind < KINDS; kind++) {
        const char *number = getenv(names[kind]);
        failing[kind] = number ? strtoul(number, NULL, 10) : 0;
    }
    is_lasting = getenv("FAIL_LASTING") != NULL;
    atexit(tell);
    is_counting = 1;
}

void *malloc(size_t size) {
    if (!real_malloc) find();
    if (fails(GROWTH)) {
        errno = ENOMEM;
        return NULL;
    }
    return real_malloc(size);
}

void *realloc(void *old, size_t size) {
    if (!real_realloc) find();
    if (old && size <= malloc_usable_size(old)) return real_realloc(old, size);
    if (fails(GROWTH)) {
        errno = ENOMEM;
        return NULL;
    }
    return real_realloc(old, size);
}

ssize_t read(int file, void *to, size_t size) {
    if (!real_read) find();
    if (fails(READ)) {
        errno = EIO;
        return -1;
    }
    return real_read(file, to, size);
}

ssize_t write(int file, const void *from, size_t size) {
    if (!real_write) find();
    if (fails(WRITE)) {
        errno = EIO;
        return -1;
    }
    return real_write(file, from, size);
}

/* A program with threads ends without what stands at exit. */
void _exit(int status) {
    static void (*real_exit)(int) __attribute__((noreturn));
    if (!real_exit) *(void **)&real_exit = dlsym(RTLD_NEXT, "_exit");
    if (is_counting) tell();
    real_exit(status);
}
