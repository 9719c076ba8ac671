/* Measures calls of the library on lines: an empty one, `release`, and `take` and `release` of a row over so many processors. It
   prints nanoseconds of a call of each, the least of the turns.
   Usage: take PROCESSORS [TURNS] */
#define _POSIX_C_SOURCE 199309L
#include "paris.h"

#include <stdio.h>
#include <stdlib.h>
#include <string.h>
#include <time.h>

enum { ROUNDS = 20000 };

static void fail(const char *line) {
  fprintf(stderr, "take: %s was not answered as it should be\n", line);
  exit(1);
}

static double now(void) {
  struct timespec time;
  clock_gettime(CLOCK_MONOTONIC, &time);
  return (double)time.tv_sec * 1e9 + (double)time.tv_nsec;
}

/* Answers a line whose reply begins with these letters. */
static void tell(paris_handle *handle, const char *line, const char *wanted) {
  size_t len = 0;
  uint8_t reply[64] = {0};
  if (paris_answer(handle, (const uint8_t *)line, strlen(line), &len) != PARIS_OK) fail(line);
  if (paris_reply(handle, reply, sizeof reply) != PARIS_OK) fail(line);
  if (strncmp((const char *)reply, wanted, strlen(wanted)) != 0) fail(line);
}

static void declare(paris_handle *handle, const char *processors) {
  char line[64];
  if (paris_open(handle) != PARIS_OK) fail("open");
  snprintf(line, sizeof line, "set S %s", processors);
  tell(handle, line, "ok");
  tell(handle, "field a S 64", "ok");
  tell(handle, "field b S 64", "ok");
  tell(handle, "field c S 64", "ok");
  tell(handle, "insert end u-add-3-1L c a b 64", "row 1");
}

/* Nanoseconds that a line takes, which is told once a round, with another one behind it where there is one. */
static double time_of(paris_handle *handle, const char *line, const char *then) {
  size_t len = 0, first = strlen(line), second = then ? strlen(then) : 0;
  double start = now();
  for (int i = 0; i < ROUNDS; i++) {
    if (paris_answer(handle, (const uint8_t *)line, first, &len) != PARIS_OK) fail(line);
    if (then && paris_answer(handle, (const uint8_t *)then, second, &len) != PARIS_OK) fail(then);
  }
  return (now() - start) / ROUNDS;
}

static double lesser(double one, double other) { return one < other ? one : other; }

int main(int count, char **words) {
  if (count < 2) return 2;
  int turns = count > 2 ? atoi(words[2]) : 15;
  paris_handle handle = {0};
  declare(&handle, words[1]);
  double empty = 1e18, release = 1e18, both = 1e18;
  for (int turn = 0; turn < turns; turn++) {
    empty = lesser(empty, time_of(&handle, "", NULL));
    release = lesser(release, time_of(&handle, "release", NULL));
    both = lesser(both, time_of(&handle, "take", "release"));
  }
  tell(&handle, "take", "order ");
  printf("%.0f %.0f %.0f\n", empty, release, both);
  return paris_close(&handle) != PARIS_OK;
}
