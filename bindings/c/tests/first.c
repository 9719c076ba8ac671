#include <inttypes.h>
#include <stdio.h>
#include <string.h>

#include "paris.h"

static void tell(paris_handle *handle, const char *line) {
  size_t len = 0;
  uint8_t reply[64] = {0};
  if (paris_answer(handle, (const uint8_t *)line, strlen(line), &len) == PARIS_OK) {
    paris_reply(handle, reply, sizeof reply - 1);
    printf("%-32s %s", line, (const char *)reply);
  }
}

int main(void) {
  paris_handle handle = {0};
  if (paris_open(&handle) != PARIS_OK) return 1;
  tell(&handle, "set s 4");
  tell(&handle, "field a s 8");
  tell(&handle, "field b s 8");
  tell(&handle, "field c s 8");
  tell(&handle, "insert end u-add-3-1L c a b 8");

  const uint64_t a[4] = {10, 20, 30, 250}, b[4] = {1, 2, 3, 4};
  uint64_t c[4], told = 0, ran = 0;
  paris_set(&handle, (const uint8_t *)"a", 1, 0, a, 4);
  paris_set(&handle, (const uint8_t *)"b", 1, 0, b, 4);
  paris_settle(&handle, &ran);
  if (paris_get(&handle, (const uint8_t *)"c", 1, PARIS_END, c, 4, &told) == PARIS_OK)
    printf("%" PRIu64 " %" PRIu64 " %" PRIu64 " %" PRIu64 "\n", c[0], c[1], c[2], c[3]);
  return paris_close(&handle) != PARIS_OK;
}
