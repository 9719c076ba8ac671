/* Of what a session and an order share, the session reads its part while it is edited, and drops it. Then another thread closes the order, and
   so frees the rest as the last owner. Nothing but the library's own count of owners orders the two: the flag by which the thread knows that
   the edit is done is one that the sanitizer of threads doesn't see, as it doesn't see that count. */
#include "want.h"

#include <pthread.h>
#include <sched.h>

static paris_order order;
static volatile bool is_edited = false;

__attribute__((no_sanitize("thread"), noinline)) static void tell(void) { is_edited = true; }

__attribute__((no_sanitize("thread"), noinline)) static bool is_told(void) { return is_edited; }

static void *close_last(void *none) {
  while (!is_told()) sched_yield();
  WANT(paris_order_close(&order), PARIS_OK);
  return none;
}

static void answer(paris_handle *handle, const char *said) {
  size_t len = 0;
  WANT(paris_answer(handle, bytes(said), strlen(said), &len), PARIS_OK);
}

int main(void) {
  paris_handle handle = {0};
  pthread_t thread;
  WANT(paris_open(&handle), PARIS_OK);
  answer(&handle, "set s 64");
  answer(&handle, "field a s 8");
  answer(&handle, "field b s 8");
  answer(&handle, "input a 0 1 2 3 4");
  answer(&handle, "insert end u-add-3-1L b a a 8");
  WANT(paris_take(&handle, &order), PARIS_OK);
  WANT(pthread_create(&thread, NULL, close_last, NULL), 0);
  answer(&handle, "input a 0 5");
  tell();
  WANT(pthread_join(thread, NULL), 0);
  return paris_close(&handle) == PARIS_OK ? 0 : 1;
}
