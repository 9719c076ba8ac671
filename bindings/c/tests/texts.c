/* Prints each text that the library has, with its number. */
#include "paris.h"

#include <inttypes.h>
#include <stdio.h>

enum { ROOM = 128, NUMBERS = 1000 };

static void print_all(const char *kind, size_t (*text_of)(uint32_t, uint8_t *, size_t)) {
  for (uint32_t number = 0; number < NUMBERS; number++) {
    uint8_t room[ROOM] = {0};
    size_t size = text_of(number, room, sizeof room);
    if (size) printf("%s %" PRIu32 " %.*s\n", kind, number, (int)size, (const char *)room);
  }
}

int main(void) {
  print_all("status", paris_fault_text);
  print_all("cause", paris_cause_text);
  return 0;
}
