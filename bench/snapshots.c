/* Measures snapshots of a session with many settled rows, and rows that are put in and taken out: with no snapshot alive, and each on a
   snapshot that takes the place of its session, as a desk makes its calls. It prints lines of a name and nanoseconds, the least of the turns.
   With the row that is put in there are ROWS, since a program has no more than 4,096.
   Usage: snapshots ROWS TURNS */
#define _POSIX_C_SOURCE 199309L
#include "paris.h"

#include <stdbool.h>
#include <stdio.h>
#include <stdlib.h>
#include <string.h>
#include <time.h>

enum { ROUNDS = 20, MOST_LINE = 64 };

static const char *const TEXT = "u-move-1L z a 8";

static void want(int line, bool holds) {
  if (holds) return;
  fprintf(stderr, "snapshots: line %d\n", line);
  exit(1);
}

#define WANT(holds) want(__LINE__, holds)

static double now(void) {
  struct timespec time;
  clock_gettime(CLOCK_MONOTONIC, &time);
  return (double)time.tv_sec * 1e9 + (double)time.tv_nsec;
}

/* A session of settled rows, none of which reads z. */
static paris_handle session;

/* Answers a line, and gives the number behind the first word of its reply. */
static unsigned long tell(const char *line) {
  size_t len = 0;
  char reply[MOST_LINE] = {0};
  WANT(paris_answer(&session, (const uint8_t *)line, strlen(line), &len) == PARIS_OK && len < sizeof reply);
  WANT(paris_reply(&session, (uint8_t *)reply, len) == PARIS_OK && strncmp(reply, "refused", 7) != 0);
  const char *word = strchr(reply, ' ');
  return word ? strtoul(word, NULL, 10) : 0;
}

static void open_with(int rows) {
  uint64_t ran = 0;
  char line[MOST_LINE];
  WANT(paris_open(&session) == PARIS_OK);
  tell("set S 64");
  for (int i = 0; i < 4; i++) {
    snprintf(line, sizeof line, "field %c S 8", "abcz"[i]);
    tell(line);
  }
  for (int i = 0; i < rows; i++) tell(i % 2 ? "insert end u-add-3-1L c a b 8" : "insert end logxor-3-1L c a b 8");
  WANT(paris_settle(&session, &ran) == PARIS_OK && ran == (uint64_t)rows);
}

/* ---- what is measured: each does two calls, or a snapshot and its end */

/* A snapshot takes the session's place. */
static void take_place(void) {
  paris_handle next = {0}, old = session;
  WANT(paris_snapshot(&session, &next) == PARIS_OK);
  session = next;
  WANT(paris_close(&old) == PARIS_OK);
}

static void snapshot(int row) {
  (void)row;
  paris_handle into = {0};
  WANT(paris_snapshot(&session, &into) == PARIS_OK && paris_close(&into) == PARIS_OK);
}

static void put_in_and_out(int row, void (*before)(void)) {
  char line[MOST_LINE];
  snprintf(line, sizeof line, "insert after %d %s", row, TEXT);
  before();
  unsigned long added = tell(line);
  snprintf(line, sizeof line, "delete %lu", added);
  before();
  tell(line);
}

static void nothing(void) {}
static void row_alone(int row) { put_in_and_out(row, nothing); }
static void row_on_snapshots(int row) { put_in_and_out(row, take_place); }

static void input_on_snapshot(int row) {
  (void)row;
  take_place();
  tell("input z 0 7");
}

static void report(const char *name, void (*call)(int), int row, int turns) {
  double least = 0;
  for (int turn = 0; turn < turns; turn++) {
    double start = now();
    for (int round = 0; round < ROUNDS; round++) call(row);
    double took = (now() - start) / ROUNDS;
    least = turn == 0 || took < least ? took : least;
  }
  printf("%s %.0f\n", name, least);
}

int main(int count, char **words) {
  if (count != 3) return 2;
  int rows = atoi(words[1]) - 1, turns = atoi(words[2]);
  open_with(rows);
  report("snapshot", snapshot, 0, turns);
  report("middle", row_alone, rows / 2, turns);
  report("end", row_alone, rows, turns);
  report("middle_on_snapshots", row_on_snapshots, rows / 2, turns);
  report("end_on_snapshots", row_on_snapshots, rows, turns);
  report("input_on_snapshot", input_on_snapshot, 0, turns);
  WANT(paris_close(&session) == PARIS_OK);
  return 0;
}
