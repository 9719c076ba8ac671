/* Plays a script through the library, line by line and as a whole, and writes both transcripts.
   Usage: stored_run SCRIPT BY_LINE WHOLE */
#include "paris.h"

#include <stdio.h>
#include <stdlib.h>
#include <string.h>

static void fail(const char *what, uint32_t status) {
  fprintf(stderr, "stored_run: %s: status %u\n", what, (unsigned)status);
  exit(1);
}

static FILE *open_file(const char *path, const char *mode) {
  FILE *file = fopen(path, mode);
  if (!file) {
    perror(path);
    exit(1);
  }
  return file;
}

static void *room_for(size_t len) {
  void *room = malloc(len ? len : 1);
  if (!room) fail("malloc", PARIS_NO_MEMORY);
  return room;
}

static uint8_t *read_all(const char *path, size_t *len) {
  FILE *file = open_file(path, "rb");
  if (fseek(file, 0, SEEK_END)) fail(path, 1);
  *len = (size_t)ftell(file);
  rewind(file);
  uint8_t *bytes = room_for(*len);
  if (fread(bytes, 1, *len, file) != *len) fail(path, 1);
  fclose(file);
  return bytes;
}

static void play_line(paris_handle *handle, const uint8_t *line, size_t len, FILE *out) {
  size_t reply = 0;
  uint32_t status = paris_answer(handle, line, len, &reply);
  if (status) fail("paris_answer", status);
  uint8_t *text = room_for(reply);
  status = paris_reply(handle, text, reply);
  if (status) fail("paris_reply", status);
  fwrite(text, 1, reply, out);
  free(text);
}

static void play_lines(const uint8_t *script, size_t len, FILE *out) {
  paris_handle handle = {0};
  uint32_t status = paris_open(&handle);
  if (status) fail("paris_open", status);
  for (size_t from = 0;;) {
    const uint8_t *feed = from < len ? memchr(script + from, '\n', len - from) : NULL;
    size_t to = feed ? (size_t)(feed - script) : len;
    play_line(&handle, script + from, to - from, out);
    if (!feed) break;
    from = to + 1;
  }
  status = paris_close(&handle);
  if (status) fail("paris_close", status);
}

static void play_whole(const uint8_t *script, size_t len, FILE *out) {
  size_t need = 0;
  uint8_t none = 0;
  uint32_t status = paris_script(script, len, &none, 0, &need);
  if (status) fail("paris_script", status);
  uint8_t *text = room_for(need);
  size_t again = 0;
  status = paris_script(script, len, text, need, &again);
  if (status || again != need) fail("paris_script again", status);
  fwrite(text, 1, need, out);
  free(text);
}

int main(int count, char **words) {
  if (count != 4) return 2;
  size_t len = 0;
  uint8_t *script = read_all(words[1], &len);
  FILE *by_line = open_file(words[2], "wb");
  play_lines(script, len, by_line);
  FILE *whole = open_file(words[3], "wb");
  play_whole(script, len, whole);
  free(script);
  return fclose(by_line) || fclose(whole);
}
