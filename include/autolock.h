/* autolock as a library: what its commands answer for the text of a program that lies in memory.
 *
 *     cc CALLER.c libautolock_c.a liblibc_c.a
 *
 * Each function reads the `length` bytes at `text`, and answers as the command of its name does for a file that has
 * no name: with its exit status, and what it writes, to standard output and behind that to standard error. The line
 * of a fault so begins with a colon, where the command has the file's name.
 *
 * `*needed` becomes the length of all that, in bytes. `out` gets as much of it as its `room` bytes take, without a zero
 * behind it; the bytes behind it stay as they were. Where `*needed` is more than `room`, call again with more room: the
 * same text is answered alike each time.
 *
 * Nothing is kept between calls, no file is opened, no thread is started, and nothing but malloc, realloc and free is
 * called. Threads may call side by side, each with an `out` and a `needed` of its own, and a stack of 1 MiB or more: a
 * text that is nested as deep as it may be took 640 KiB.
 *
 * A caller keeps to this: no pointer is null, also where there are no bytes; `out` and `*needed` lie apart from each
 * other and from what is read, of which nothing changes during the call; and a length is no more than PTRDIFF_MAX.
 */
#ifndef AUTOLOCK_H
#define AUTOLOCK_H

#include <stddef.h>
#include <stdint.h>

#ifdef __cplusplus
extern "C" {
#endif

/* How a call ended. */
enum {
  AUTOLOCK_DONE = 0,       /* the program is accepted */
  AUTOLOCK_REFUSED = 1,    /* the text has a fault, which is told */
  AUTOLOCK_BAD_PREFIX = 2, /* the prefix is none: *needed is 0, and out is as it was */
  AUTOLOCK_NO_MEMORY = 4   /* memory was refused: *needed is 0, and out is as it was */
};

/* `autolock check`: in which order locks are taken, and which ones before each statement; or the line of the fault. */
uint8_t autolock_check(const uint8_t *text, size_t length, uint8_t *out, size_t room, size_t *needed);

/* `autolock explain --json`: the fault, or that there is none and what is warned of, as one JSON object. */
uint8_t autolock_explain(const uint8_t *text, size_t length, uint8_t *out, size_t room, size_t *needed);

/* `autolock emit --prefix PREFIX`: the sections in C, with their locks placed; or the line of the fault. What the names
 * of C begin with has `prefix_length` bytes: a letter, then letters and digits, at most 32, and neither `AL` nor
 * `autolock`. */
uint8_t autolock_emit(const uint8_t *text, size_t length, const uint8_t *prefix, size_t prefix_length, uint8_t *out,
                      size_t room, size_t *needed);

/* `autolock emit --header --prefix PREFIX`: the header of that C text. */
uint8_t autolock_emit_header(const uint8_t *text, size_t length, const uint8_t *prefix, size_t prefix_length,
                             uint8_t *out, size_t room, size_t *needed);

#ifdef __cplusplus
}
#endif

#endif
