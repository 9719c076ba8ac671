/* Measures the calls by which rows run while a session is edited: edits while threads execute orders, what an order costs beside a settle,
   and snapshots. It prints lines of two words, a name and a number: microseconds, and of `untouched` and `touched` bytes.
   Usage: meanwhile THREADS ROWS TURNS */
#define _GNU_SOURCE
#include "paris.h"

#include <malloc.h>
#include <pthread.h>
#include <stdio.h>
#include <stdlib.h>
#include <string.h>
#include <time.h>

enum { PROCESSORS = 65536, SLOW_ROWS = 16, MOST_EDITS = 100000, MOST_THREADS = 16 };

static void want(int line, bool holds) {
  if (holds) return;
  fprintf(stderr, "meanwhile: line %d\n", line);
  exit(1);
}

#define WANT(holds) want(__LINE__, holds)

static double now(void) {
  struct timespec time;
  clock_gettime(CLOCK_MONOTONIC, &time);
  return (double)time.tv_sec * 1e6 + (double)time.tv_nsec / 1e3;
}

static int by_time(const void *one, const void *other) {
  double a = *(const double *)one, b = *(const double *)other;
  return (a > b) - (a < b);
}

static const uint8_t *bytes(const char *text) { return (const uint8_t *)text; }

static void tell(paris_handle *handle, const char *line) {
  size_t len = 0;
  uint8_t reply[16] = {0};
  WANT(paris_answer(handle, bytes(line), strlen(line), &len) == PARIS_OK);
  WANT(paris_reply(handle, reply, sizeof reply) == PARIS_OK && memcmp(reply, "refused", 7));
}

static void give(paris_handle *handle, const char *key, const uint64_t *numbers, size_t len) {
  WANT(paris_set(handle, bytes(key), strlen(key), 0, numbers, len) == PARIS_OK);
}

/* ---- edits while threads execute orders */

static pthread_mutex_t lock = PTHREAD_MUTEX_INITIALIZER;
static pthread_cond_t news = PTHREAD_COND_INITIALIZER;
static paris_handle session;
static bool is_over;

static void bring(paris_order *order) {
  uint32_t verdict = 0;
  uint64_t edition = 0;
  WANT(paris_bring(&session, order, &verdict, &edition) == PARIS_OK);
  WANT(paris_order_close(order) == PARIS_OK);
  pthread_cond_broadcast(&news);
}

static void *work(void *none) {
  paris_order order = {0};
  pthread_mutex_lock(&lock);
  while (!is_over) {
    if (paris_take(&session, &order) == PARIS_NOTHING) {
      pthread_cond_wait(&news, &lock);
      continue;
    }
    pthread_mutex_unlock(&lock);
    WANT(paris_execute(&order) == PARIS_OK);
    pthread_mutex_lock(&lock);
    bring(&order);
  }
  pthread_mutex_unlock(&lock);
  return none;
}

/* Rows that send sums of 64 bits over all processors, some ten milliseconds each. None reads what another writes, or `n`. */
static void slow_rows(paris_handle *handle) {
  static uint64_t numbers[PROCESSORS], addresses[PROCESSORS];
  char line[96];
  for (uint64_t i = 0; i < PROCESSORS; i++) {
    numbers[i] = i * UINT64_C(0x9E3779B97F4A7C15);
    addresses[i] = (i * 7919 + 13) % PROCESSORS;
  }
  WANT(paris_open(handle) == PARIS_OK);
  tell(handle, "set s 256x256");
  tell(handle, "field a s 64");
  tell(handle, "field i s 64");
  tell(handle, "field n s 8");
  give(handle, "a", numbers, PROCESSORS);
  give(handle, "i", addresses, PROCESSORS);
  for (int row = 0; row < SLOW_ROWS; row++) {
    snprintf(line, sizeof line, "field c%d s 64", row);
    tell(handle, line);
    snprintf(line, sizeof line, "insert end send-with-u-add-1L c%d i a 64 none", row);
    tell(handle, line);
  }
}

static bool is_settled(void) {
  size_t count = 0;
  uint64_t none[1];
  pthread_mutex_lock(&lock);
  WANT(paris_unsettled(&session, none, 0, &count) == PARIS_OK);
  pthread_mutex_unlock(&lock);
  return count == 0;
}

static double edit_once(uint64_t number) {
  double start = now();
  uint64_t numbers[1] = {number % 256};
  pthread_mutex_lock(&lock);
  give(&session, "n", numbers, 1);
  pthread_mutex_unlock(&lock);
  return now() - start;
}

static size_t edit_meanwhile(double *took) {
  const struct timespec pause = {0, 1000000};
  size_t edits = 0;
  while (edits < MOST_EDITS && !is_settled()) {
    nanosleep(&pause, NULL);
    took[edits] = edit_once(edits);
    edits++;
  }
  return edits;
}

static void latency(size_t threads) {
  static double took[MOST_EDITS];
  pthread_t workers[MOST_THREADS];
  slow_rows(&session);
  double start = now();
  for (size_t i = 0; i < threads; i++) WANT(pthread_create(&workers[i], NULL, work, NULL) == 0);
  size_t edits = edit_meanwhile(took);
  printf("all %.0f\n", now() - start);
  pthread_mutex_lock(&lock);
  is_over = true;
  pthread_cond_broadcast(&news);
  pthread_mutex_unlock(&lock);
  for (size_t i = 0; i < threads; i++) pthread_join(workers[i], NULL);
  WANT(edits > 0 && paris_close(&session) == PARIS_OK);
  qsort(took, edits, sizeof *took, by_time);
  printf("edit %.1f\nslowest %.1f\n", took[edits / 2], took[edits * 99 / 100]);
}

/* What an edit waits for a settle in one call. */
static void whole(void) {
  uint64_t ran = 0;
  slow_rows(&session);
  double start = now();
  WANT(paris_settle(&session, &ran) == PARIS_OK && ran == SLOW_ROWS);
  printf("settle_slow %.0f\n", now() - start);
  WANT(paris_close(&session) == PARIS_OK);
}

/* ---- a chain of small rows */

static void chain(paris_handle *handle, int rows) {
  WANT(paris_open(handle) == PARIS_OK);
  tell(handle, "set s 16");
  tell(handle, "field a s 32");
  tell(handle, "field b s 32");
  for (int row = 0; row < rows; row++) tell(handle, "insert end u-add-3-1L a a b 32");
}

/* All rows are to run again, by a number that was not there before. */
static void unsettle(paris_handle *handle) {
  static uint64_t number = 0;
  number++;
  give(handle, "a", &number, 1);
}

static uint64_t by_settle(paris_handle *handle) {
  uint64_t ran = 0;
  WANT(paris_settle(handle, &ran) == PARIS_OK);
  return ran;
}

static uint64_t by_orders(paris_handle *handle) {
  paris_order order = {0};
  uint64_t ran = 0, edition = 0;
  uint32_t verdict = 0;
  while (paris_take(handle, &order) == PARIS_OK) {
    WANT(paris_execute(&order) == PARIS_OK);
    WANT(paris_bring(handle, &order, &verdict, &edition) == PARIS_OK && verdict == PARIS_KEPT);
    WANT(paris_order_close(&order) == PARIS_OK);
    ran++;
  }
  return ran;
}

static uint64_t by_runs(paris_handle *handle) {
  uint64_t ran = 0, all = 0;
  do {
    WANT(paris_run(handle, 64, &ran) == PARIS_OK);
    all += ran;
  } while (ran > 0);
  return all;
}

static double least(double one, double other) { return one < other ? one : other; }

static double time_of(paris_handle *handle, uint64_t (*way)(paris_handle *), int rows) {
  unsettle(handle);
  double start = now();
  WANT(way(handle) == (uint64_t)rows);
  return now() - start;
}

static void cost(int rows, int turns) {
  paris_handle handle = {0}, copy = {0};
  double settle = 1e12, orders = 1e12, runs = 1e12, snapshot = 1e12;
  chain(&handle, rows);
  by_settle(&handle);
  for (int turn = 0; turn < turns; turn++) {
    settle = least(settle, time_of(&handle, by_settle, rows));
    orders = least(orders, time_of(&handle, by_orders, rows));
    runs = least(runs, time_of(&handle, by_runs, rows));
    double start = now();
    WANT(paris_snapshot(&handle, &copy) == PARIS_OK && paris_close(&copy) == PARIS_OK);
    snapshot = least(snapshot, now() - start);
  }
  printf("settle %.1f\norders %.1f\nruns %.1f\nsnapshot %.1f\n", settle, orders, runs, snapshot);
  WANT(paris_close(&handle) == PARIS_OK);
}

/* ---- memory of snapshots */

enum { STEPS = 20 };

static size_t used(void) {
  struct mallinfo2 told = mallinfo2();
  return told.uordblks + told.hblkhd;
}

/* An edit that no row reads, and one after which all rows run again. */
static void touch_none(paris_handle *handle) {
  static uint64_t number = 0;
  number++;
  give(handle, "n", &number, 1);
}

static void touch_all(paris_handle *handle) {
  unsettle(handle);
  by_settle(handle);
}

/* Bytes that a snapshot and an edit behind it take, until the snapshot is closed. */
static double bytes_of(paris_handle *handle, void (*edit)(paris_handle *)) {
  paris_handle copies[STEPS] = {0};
  edit(handle);
  size_t before = used();
  for (int step = 0; step < STEPS; step++) {
    WANT(paris_snapshot(handle, &copies[step]) == PARIS_OK);
    edit(handle);
  }
  double each = (double)(used() - before) / STEPS;
  for (int step = 0; step < STEPS; step++) WANT(paris_close(&copies[step]) == PARIS_OK);
  return each;
}

static void memory(int rows) {
  paris_handle handle = {0};
  chain(&handle, rows);
  tell(&handle, "field n s 32");
  by_settle(&handle);
  printf("untouched %.0f\n", bytes_of(&handle, touch_none));
  printf("touched %.0f\n", bytes_of(&handle, touch_all));
  WANT(paris_close(&handle) == PARIS_OK);
}

int main(int count, char **words) {
  if (count != 4) return 2;
  int threads = atoi(words[1]);
  if (threads < 1 || threads > MOST_THREADS) return 2;
  whole();
  latency((size_t)threads);
  cost(atoi(words[2]), atoi(words[3]));
  memory(atoi(words[2]));
  return 0;
}
