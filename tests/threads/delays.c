/* Preloaded into a program with threads: now and then a thread sleeps where it asks for memory, gives it back, or waits or
 * wakes by the kernel, so that the threads of many runs meet in many ways.
 *
 * DELAYS_SEED=N: which of these calls sleep, and how long; about one of eight, up to 0.2 ms.
 */
#define _GNU_SOURCE
#include <dlfcn.h>
#include <stdarg.h>
#include <stdlib.h>
#include <time.h>
#include <unistd.h>

static void *(*real_malloc)(size_t);
static void (*real_free)(void *);
static void *(*real_realloc)(void *, size_t);
static long (*real_syscall)(long, ...);
static unsigned long seed, drawn;

static void find(void) {
    real_malloc = dlsym(RTLD_NEXT, "malloc");
    real_free = dlsym(RTLD_NEXT, "free");
    real_realloc = dlsym(RTLD_NEXT, "realloc");
    real_syscall = dlsym(RTLD_NEXT, "syscall");
}

__attribute__((constructor)) static void begin(void) {
    const char *number = getenv("DELAYS_SEED");
    find();
    seed = number ? strtoul(number, NULL, 10) : 0;
}

static void delay(void) {
    if (!seed) return;
    unsigned long number = __atomic_add_fetch(&drawn, 1, __ATOMIC_RELAXED) * 0x9E3779B97F4A7C15ul ^ seed * 0xD1B54A32D192ED03ul;
    number ^= number >> 29;
    number *= 0xBF58476D1CE4E5B9ul;
    number ^= number >> 32;
    if (number % 8) return;
    struct timespec time = {0, (long)(number >> 8) % 200000};
    nanosleep(&time, NULL);
}

void *malloc(size_t size) {
    if (!real_malloc) find();
    delay();
    return real_malloc(size);
}

void free(void *block) {
    if (!real_free) find();
    delay();
    real_free(block);
}

void *realloc(void *block, size_t size) {
    if (!real_realloc) find();
    delay();
    return real_realloc(block, size);
}

long syscall(long number, ...) {
    va_list rest;
    long a[6];
    if (!real_syscall) find();
    va_start(rest, number);
    for (int i = 0; i < 6; i++) a[i] = va_arg(rest, long);
    va_end(rest);
    delay();
    return real_syscall(number, a[0], a[1], a[2], a[3], a[4], a[5]);
}
