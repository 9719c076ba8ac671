/* What the tests of calls want: a number, or the reply to a line. */
#ifndef WANT_H
#define WANT_H

#include "paris.h"

#include <stdio.h>
#include <stdlib.h>
#include <string.h>

static inline void want(const char *file, int line, uint64_t got, uint64_t wanted) {
  if (got == wanted) return;
  fprintf(stderr, "%s: line %d: got %llu, wanted %llu\n", file, line, (unsigned long long)got, (unsigned long long)wanted);
  exit(1);
}

#define WANT_AT(line, got, wanted) want(__FILE__, line, (uint64_t)(got), (uint64_t)(wanted))
#define WANT(got, wanted) WANT_AT(__LINE__, got, wanted)

static inline const uint8_t *bytes(const char *text) { return (const uint8_t *)text; }

static inline void want_reply(const char *file, int line, paris_handle *handle, const char *command, const char *wanted) {
  size_t len = 0;
  uint8_t room[128] = {0};
  want(file, line, paris_answer(handle, bytes(command), strlen(command), &len), PARIS_OK);
  want(file, line, paris_reply(handle, room, sizeof room - 1), PARIS_OK);
  if (len == strlen(wanted) && !strcmp((const char *)room, wanted)) return;
  fprintf(stderr, "%s: line %d: `%s` is answered by `%s`\n", file, line, command, (const char *)room);
  exit(1);
}

#define WANT_REPLY(handle, command, wanted) want_reply(__FILE__, __LINE__, handle, command, wanted)

#endif
