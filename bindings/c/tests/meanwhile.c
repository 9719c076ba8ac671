#include <inttypes.h>
#include <pthread.h>
#include <stdio.h>
#include <string.h>

#include "paris.h"

static void answer(paris_handle *handle, const char *line) {
  size_t len = 0;
  paris_answer(handle, (const uint8_t *)line, strlen(line), &len);
}

static void *execute(void *order) {
  paris_execute(order);
  return NULL;
}

/* Takes an order and has a thread execute it. Meanwhile `edit` is made. Then the result is brought. */
static bool run_one(paris_handle *handle, const char *edit) {
  static const char *const words[] = {"", "kept", "repeated", "stale", "gone", "foreign"};
  paris_order order = {0};
  pthread_t worker;
  uint64_t row = 0, edition = 0, present = 0;
  uint32_t verdict = 0;
  bool is_run = false;
  if (paris_take(handle, &order) != PARIS_OK) return false;
  pthread_create(&worker, NULL, execute, &order);
  answer(handle, edit);
  pthread_join(worker, NULL);
  paris_order_row(&order, &row, &edition, &is_run);
  if (paris_bring(handle, &order, &verdict, &present) == PARIS_OK)
    printf("row %" PRIu64 " of edition %" PRIu64 ": %s\n", row, edition, words[verdict]);
  paris_order_close(&order);
  return true;
}

int main(void) {
  paris_handle handle = {0};
  if (paris_open(&handle) != PARIS_OK) return 1;
  answer(&handle, "set s 4");
  answer(&handle, "field a s 8");
  answer(&handle, "field b s 8");
  answer(&handle, "input a 0 1 2 3 4");
  answer(&handle, "insert end u-add-3-1L b a a 8");
  run_one(&handle, "input a 0 10");
  while (run_one(&handle, "# no edit")) {
  }
  uint64_t b[4] = {0}, told = 0;
  paris_get(&handle, (const uint8_t *)"b", 1, PARIS_END, b, 4, &told);
  printf("%" PRIu64 " %" PRIu64 " %" PRIu64 " %" PRIu64 "\n", b[0], b[1], b[2], b[3]);
  return paris_close(&handle) != PARIS_OK;
}
