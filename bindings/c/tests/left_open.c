/* Opens two sessions in one handle, which is made zeros between. The first is lost, and the sanitizer of leaks has to see it. */
#include "paris.h"

int main(void) {
  paris_handle handle = {0};
  if (paris_open(&handle) != PARIS_OK) return 0;
  handle = (paris_handle){0};
  if (paris_open(&handle) != PARIS_OK) return 0;
  return paris_close(&handle) != PARIS_OK;
}
