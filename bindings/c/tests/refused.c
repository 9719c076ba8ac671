#include <inttypes.h>
#include <stdio.h>
#include <string.h>

#include "paris.h"

static void answer(paris_handle *handle, const char *line) {
  size_t len = 0;
  paris_answer(handle, (const uint8_t *)line, strlen(line), &len);
}

static void settle_and_tell(paris_handle *handle) {
  uint64_t ran = 0, words[3] = {0};
  size_t count = 0;
  paris_settle(handle, &ran);
  paris_faults(handle, words, 3, &count);
  printf("settled %" PRIu64 ", refused for their data %zu\n", ran, count);
  if (count == 0) return;
  uint8_t text[64] = {0};
  paris_cause_text((uint32_t)words[1], text, sizeof text - 1);
  printf("row %" PRIu64 ", processor %" PRIu64 ": %s\n", words[0], words[2], (const char *)text);
}

int main(void) {
  paris_handle handle = {0};
  if (paris_open(&handle) != PARIS_OK) return 1;
  answer(&handle, "set s 4");
  answer(&handle, "field at s 2");
  answer(&handle, "field a s 8");
  answer(&handle, "field d s 8");
  answer(&handle, "insert end send-1L d at a 8 none");

  const uint64_t at[4] = {0, 0, 1, 2};
  paris_set(&handle, (const uint8_t *)"at", 2, 0, at, 4);
  settle_and_tell(&handle);
  answer(&handle, "replace 1 send-with-u-add-1L d at a 8 none");
  settle_and_tell(&handle);
  return paris_close(&handle) != PARIS_OK;
}
