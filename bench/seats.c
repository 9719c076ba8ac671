/* Measures calls of a desk with one seat beside the same calls of a session, and what a seat looks at beside a snapshot, on a small book. It
   prints lines of a name, the nanoseconds of a session's call and those of a desk's, the least of the turns, in each of which both are made.
   Usage: seats TURNS */
#define _POSIX_C_SOURCE 199309L
#include "paris.h"

#include <stdbool.h>
#include <stdio.h>
#include <stdlib.h>
#include <string.h>
#include <time.h>

enum { ROUNDS = 200, PROCESSORS = 4, MOST_LINE = 64 };

static void want(int line, bool holds) {
  if (holds) return;
  fprintf(stderr, "seats: line %d\n", line);
  exit(1);
}

#define WANT(holds) want(__LINE__, holds)

static double now(void) {
  struct timespec time;
  clock_gettime(CLOCK_MONOTONIC, &time);
  return (double)time.tv_sec * 1e9 + (double)time.tv_nsec;
}

static paris_handle session, still;
static paris_desk desk;
static paris_seat seat;
static paris_order order;

static void tell_session(const char *line) {
  size_t len = 0;
  WANT(paris_answer(&session, (const uint8_t *)line, strlen(line), &len) == PARIS_OK && len);
}

static void tell_desk(const char *line) {
  size_t len = 0;
  uint64_t entry = 0;
  WANT(paris_desk_answer(&desk, &seat, (const uint8_t *)line, strlen(line), &len, &entry) == PARIS_OK && entry);
}

/* ---- what is measured: the same of a session and of a desk. An input takes one number and then another, so that each is an edit. */

static void list_session(int round) {
  (void)round;
  tell_session("list");
}

static void list_desk(int round) {
  (void)round;
  tell_desk("list");
}

static void show_session(int round) {
  (void)round;
  tell_session("show a end");
}

static void show_desk(int round) {
  (void)round;
  tell_desk("show a end");
}

static void input_session(int round) { tell_session(round % 2 ? "input a 0 1" : "input a 0 2"); }
static void input_desk(int round) { tell_desk(round % 2 ? "input a 0 1" : "input a 0 2"); }

static void replace_session(int round) { tell_session(round % 2 ? "replace 1 u-add-3-1L c a b 8" : "replace 1 u-max-3-1L c a b 8"); }
static void replace_desk(int round) { tell_desk(round % 2 ? "replace 1 u-add-3-1L c a b 8" : "replace 1 u-max-3-1L c a b 8"); }

static void take_session(int round) {
  (void)round;
  WANT(paris_take(&session, &order) == PARIS_OK);
  tell_session("release");
}

static void take_desk(int round) {
  uint64_t entry = 0;
  (void)round;
  WANT(paris_desk_take(&desk, &seat, &order, &entry) == PARIS_OK);
  tell_desk("release");
}

/* ---- what a seat looks at, beside a snapshot */

static void snapshot(int round) {
  (void)round;
  WANT(paris_snapshot(&session, &still) == PARIS_OK);
}

static void look(int round) {
  (void)round;
  WANT(paris_desk_look(&desk, &seat) == PARIS_OK);
}

static void get_still(int round) {
  uint64_t numbers[PROCESSORS], told = 0;
  (void)round;
  WANT(paris_get(&still, (const uint8_t *)"a", 1, PARIS_END, numbers, PROCESSORS, &told) == PARIS_OK);
}

static void get_looked(int round) {
  uint64_t numbers[PROCESSORS], told = 0;
  (void)round;
  WANT(paris_seat_get(&seat, (const uint8_t *)"a", 1, PARIS_END, numbers, PROCESSORS, &told) == PARIS_OK);
}

static double time_of(void (*call)(int)) {
  double start = now();
  for (int round = 0; round < ROUNDS; round++) call(round);
  return (now() - start) / ROUNDS;
}

static double lesser(double one, double other) { return one < other ? one : other; }

/* The history begins anew in each turn, so that it stays short. */
static void report(const char *name, void (*of_session)(int), void (*of_desk)(int), int turns) {
  double first = 1e18, second = 1e18;
  uint64_t entries = 0;
  for (int turn = 0; turn < turns; turn++) {
    first = lesser(first, time_of(of_session));
    second = lesser(second, time_of(of_desk));
    WANT(paris_desk_cut(&desk, &entries) == PARIS_OK);
  }
  printf("%s %.0f %.0f\n", name, first, second);
}

static void begin(void) {
  static const char *const lines[] = {"set s 4", "field a s 8", "field b s 8", "field c s 8", "input a 0 1 2 3 4", "insert end u-add-3-1L c a b 8"};
  uint64_t number = 0;
  WANT(paris_open(&session) == PARIS_OK);
  for (size_t i = 0; i < sizeof lines / sizeof *lines; i++) tell_session(lines[i]);
  WANT(paris_desk_open(&desk, &session, 1, UINT64_MAX) == PARIS_OK);
  WANT(paris_desk_sit(&desk, &seat, &number) == PARIS_OK);
}

int main(int count, char **words) {
  if (count != 2) return 2;
  int turns = atoi(words[1]);
  begin();
  report("list", list_session, list_desk, turns);
  report("show", show_session, show_desk, turns);
  report("input", input_session, input_desk, turns);
  report("replace", replace_session, replace_desk, turns);
  report("take", take_session, take_desk, turns);
  report("look", snapshot, look, turns);
  report("get", get_still, get_looked, turns);
  WANT(paris_order_close(&order) == PARIS_OK && paris_seat_close(&seat) == PARIS_OK && paris_desk_close(&desk) == PARIS_OK);
  WANT(paris_close(&still) == PARIS_OK && paris_close(&session) == PARIS_OK);
  return 0;
}
