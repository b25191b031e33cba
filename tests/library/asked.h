/* What the callers of tests/library ask of the library: one of its four functions, by its word. */
#ifndef ASKED_H
#define ASKED_H

#include "autolock.h"

#include <stdio.h>
#include <stdlib.h>
#include <string.h>

enum { WORDS = 4 };

static const char *const words[WORDS] = {"check", "explain", "emit", "header"};

/* Bytes, and how many. */
struct bytes {
  uint8_t *at;
  size_t length;
};

static uint8_t ask(int word, struct bytes text, struct bytes prefix, struct bytes out, size_t *needed)
{
  switch (word) {
  case 0:
    return autolock_check(text.at, text.length, out.at, out.length, needed);
  case 1:
    return autolock_explain(text.at, text.length, out.at, out.length, needed);
  case 2:
    return autolock_emit(text.at, text.length, prefix.at, prefix.length, out.at, out.length, needed);
  default:
    return autolock_emit_header(text.at, text.length, prefix.at, prefix.length, out.at, out.length, needed);
  }
}

/* The bytes of a file, in a block of just that size. */
static struct bytes read_file(const char *name)
{
  FILE *file = fopen(name, "rb");
  if (!file || fseek(file, 0, SEEK_END)) {
    perror(name);
    exit(3);
  }
  struct bytes text = {NULL, (size_t)ftell(file)};
  rewind(file);
  text.at = malloc(text.length + 1);
  if (!text.at || fread(text.at, 1, text.length, file) != text.length) {
    perror(name);
    exit(3);
  }
  fclose(file);
  return text;
}

#endif
