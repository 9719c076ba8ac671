/* Random calls of the library in threads, each with handles of its own: `random_calls SEED STEPS THREADS`. What an array call does is
   compared with what the same command does to the line's session beside it: reply by reply, status by status, number by number. Rooms are
   as long as the call is told and no longer, so that a sanitizer sees a word past one, and what a call may not write has a mark in it.
   It ends with status 1 at the first call that answers otherwise. */
#include "paris.h"

#include <inttypes.h>
#include <pthread.h>
#include <stdio.h>
#include <stdlib.h>
#include <string.h>

enum { PAIRS = 3, LINE = 256, MOST = 40, MARK = 0xA5 };

/* Two sessions that are told the same: one by arrays where there are calls for it, and the other by lines alone. */
typedef struct pair {
  paris_handle arrays, lines;
} pair;

typedef struct player {
  uint64_t state, steps, made, calls, refused, pending;
  pair pairs[PAIRS];
} player;

static const char *const keys[] = {"a", "b", "c", "to", "S.context", "S.carry", "T.test", "t", "nothing", "S.", "", "wide"};
static const char *const instructions[] = {
    "u-add-3-1L a b c 8",      "u-add-3-1L c a b 16",   "u-multiply-3-1L a b c 4", "send-1L c to a 8 none",
    "get-1L a to b 8",         "load-context S.carry",  "store-test b",            "set-context S",
    "u-move-constant-1L b 3 8", "u-lt-1L a b 8",         "send-with-u-max-1L a to b 8 none", "my-news-coordinate-1L to 0 8",
    "get-from-news-1L b a 0 upward 8", "scan-with-u-add-1L a b 8 0 upward exclusive none", "lognot-2-1L t t 8"};
static const char *const lines[] = {"set S 4",      "set T 4x2",   "field a S 8",  "field b S 16", "field c S 64",  "field to S 8",
                                    "field t T 8",  "field wide S 64", "take",     "bring 1",      "bring 2",       "release",
                                    "settle",       "list",        "faults",       "delete 1",     "delete 3",      "show a end",
                                    "show b after 2", "# a remark", "",            "settle 1",     "input a 0 1 2", "input to 0 0 0 1 9"};

static uint64_t chance(player *p, uint64_t below) {
  p->state ^= p->state << 13;
  p->state ^= p->state >> 7;
  p->state ^= p->state << 17;
  return (p->state >> 11) % below;
}

#define PICK(p, of) of[chance(p, sizeof of / sizeof *of)]

static void wrong(const player *p, const char *what, uint64_t got, uint64_t wanted) {
  fprintf(stderr, "random_calls: step %" PRIu64 ": %s: got %" PRIu64 ", wanted %" PRIu64 "\n", p->made, what, got, wanted);
  exit(1);
}

static void want(const player *p, const char *what, uint64_t got, uint64_t wanted) {
  if (got != wanted) wrong(p, what, got, wanted);
}

/* A room of so many bytes and no more, full of the mark. */
static void *room_of(size_t size) {
  void *room = malloc(size + (size == 0));
  if (room == NULL) abort();
  memset(room, MARK, size);
  return room;
}

/* Tells a session a line. The reply is the caller's to free, with a zero behind it. */
static char *reply_to(player *p, paris_handle *handle, const char *line) {
  size_t len = 0;
  p->calls += 2;
  want(p, line, paris_answer(handle, (const uint8_t *)line, strlen(line), &len), PARIS_OK);
  const size_t size = len + chance(p, 5);
  uint8_t *room = room_of(size);
  want(p, "reply", paris_reply(handle, room, size), PARIS_OK);
  for (size_t at = len; at < size; at++) want(p, "a byte behind the reply", room[at], MARK);
  char *text = room_of(len + 1);
  memcpy(text, room, len);
  text[len] = 0;
  free(room);
  return text;
}

/* Tells both sessions of a pair a line: the replies are the same. */
static void tell(player *p, pair *it, const char *line) {
  char *of_arrays = reply_to(p, &it->arrays, line), *of_lines = reply_to(p, &it->lines, line);
  if (strcmp(of_arrays, of_lines) != 0) wrong(p, line, strlen(of_arrays), strlen(of_lines));
  p->refused += strncmp(of_lines, "refused", 7) == 0;
  free(of_arrays);
  free(of_lines);
}

/* What the reply of the session told by lines says of a call of the other: the status that it ought to have. A word that is no key is
   none of the grammar. */
static uint32_t status_of(player *p, const char *reply) {
  unsigned fault = 0;
  if (sscanf(reply, "refused %u", &fault) == 1) {
    p->refused++;
    return fault == 20 ? PARIS_NO_KEY : fault;
  }
  p->pending += strncmp(reply, "pending", 7) == 0;
  return strncmp(reply, "pending", 7) == 0 ? PARIS_PENDING : PARIS_OK;
}

/* Gives a key numbers, and the other session the same by a line. Without a number no line says it. */
static void set(player *p, pair *it) {
  const char *key = PICK(p, keys);
  const size_t len = 1 + chance(p, 6);
  const uint64_t from = chance(p, 6);
  uint64_t *numbers = room_of(len * sizeof *numbers);
  char line[LINE];
  int end = snprintf(line, sizeof line, "input %s %" PRIu64, key, from);
  for (size_t at = 0; at < len; at++) {
    numbers[at] = chance(p, 4) == 0 ? chance(p, UINT64_MAX) : chance(p, 6);
    end += snprintf(line + end, sizeof line - (size_t)end, " %" PRIu64, numbers[at]);
  }
  char *reply = reply_to(p, &it->lines, line);
  p->calls++;
  want(p, line, paris_set(&it->arrays, (const uint8_t *)key, strlen(key), from, numbers, len), status_of(p, reply));
  free(reply);
  free(numbers);
}

/* The numbers behind the first word of a reply, as many as there is room for: how many there are. */
static size_t numbers_in(const char *reply, uint64_t *room) {
  size_t count = 0;
  const char *at = strchr(reply, ' ');
  for (char *end; at != NULL && count < MOST; at = end) {
    const uint64_t number = strtoull(at, &end, 10);
    if (end == at) break;
    room[count++] = number;
  }
  return count;
}

/* Gets the numbers of a key, into a room that is often of a wrong length. */
static void get(player *p, pair *it) {
  const char *key = PICK(p, keys);
  const uint64_t row = chance(p, 5), place = row == 0 ? PARIS_START : row == 4 ? PARIS_END : row;
  char line[LINE];
  if (row == 0 || row == 4) snprintf(line, sizeof line, "show %s %s", key, row == 0 ? "start" : "end");
  else snprintf(line, sizeof line, "show %s after %" PRIu64, key, row);
  uint64_t wanted[MOST] = {0}, told = 0;
  char *reply = reply_to(p, &it->lines, line);
  uint32_t status = status_of(p, reply);
  const size_t count = numbers_in(reply, wanted), len = chance(p, 3) == 0 ? chance(p, 8) : count;
  p->calls++;
  if (status == PARIS_OK && len != count) status = PARIS_WRONG_ROOM;
  uint64_t *room = room_of(len * sizeof *room), mark;
  memset(&mark, MARK, sizeof mark);
  want(p, line, paris_get(&it->arrays, (const uint8_t *)key, strlen(key), place, room, len, &told), status);
  if (status == PARIS_OK || status == PARIS_WRONG_ROOM) want(p, "how many numbers", told, count);
  if (status == PARIS_PENDING) want(p, "the row that is pending", told, wanted[0]);
  for (size_t at = 0; at < len; at++) want(p, line, room[at], status == PARIS_OK ? wanted[at] : mark);
  free(room);
  free(reply);
}

/* The ids of the rows, and the rows that are refused for their data, beside the lines of `list` and `faults`. */
static void look(player *p, pair *it) {
  uint64_t counted[MOST] = {0};
  size_t rows = 0, faults = 0;
  char *list = reply_to(p, &it->lines, "list"), *refused = reply_to(p, &it->lines, "faults");
  p->calls += 2;
  numbers_in(list, counted);
  uint64_t *ids = room_of(counted[0] * sizeof *ids);
  want(p, "rows", paris_rows(&it->arrays, ids, counted[0], &rows), PARIS_OK);
  want(p, "how many rows", rows, counted[0]);
  const char *at = list;
  for (size_t row = 0; row < rows; row++) want(p, "an id", ids[row], strtoull((at = strchr(at, '\n') + 1), NULL, 10));
  numbers_in(refused, counted);
  const size_t len = chance(p, 3 * counted[0] + 3);
  uint64_t *words = room_of(len * sizeof *words);
  want(p, "faults", paris_faults(&it->arrays, words, len, &faults), PARIS_OK);
  want(p, "how many faults", faults, counted[0]);
  at = refused;
  for (size_t word = 0; word + 3 <= len && word < 3 * faults; word += 3) {
    char cause[16];
    uint64_t row, processor;
    sscanf((at = strchr(at, '\n') + 1), "%" SCNu64 " %15s %" SCNu64, &row, cause, &processor);
    want(p, "a refused row", words[word], row);
    want(p, "its cause", words[word + 1], strcmp(cause, "collision") == 0 ? PARIS_COLLISION : PARIS_BAD_ADDRESS);
    want(p, "its processor", words[word + 2], processor);
  }
  free(words);
  free(ids);
  free(refused);
  free(list);
}

static void settle(player *p, pair *it) {
  uint64_t ran = 0, wanted[MOST] = {0};
  char *reply = reply_to(p, &it->lines, "settle");
  numbers_in(reply, wanted);
  p->calls++;
  want(p, "settle", paris_settle(&it->arrays, &ran), PARIS_OK);
  want(p, "how many rows ran", ran, wanted[0]);
  free(reply);
}

/* A line of the grammar or near it. */
static void line(player *p, pair *it) {
  char text[LINE];
  switch (chance(p, 3)) {
    case 0: snprintf(text, sizeof text, "insert end %s", PICK(p, instructions)); break;
    case 1: snprintf(text, sizeof text, "replace %" PRIu64 " %s", 1 + chance(p, 8), PICK(p, instructions)); break;
    default: snprintf(text, sizeof text, "%s", PICK(p, lines));
  }
  tell(p, it, text);
}

static void begin(player *p, pair *it) {
  want(p, "open", paris_open(&it->arrays), PARIS_OK);
  want(p, "open", paris_open(&it->lines), PARIS_OK);
  const uint64_t refused = p->refused;
  for (size_t at = 0; at < 8; at++) tell(p, it, lines[at]);
  want(p, "a declaration that is refused", p->refused, refused);
}

static void end(player *p, pair *it) {
  want(p, "close", paris_close(&it->arrays), PARIS_OK);
  want(p, "close", paris_close(&it->lines), PARIS_OK);
  uint64_t ran = 0;
  want(p, "a closed handle", paris_settle(&it->arrays, &ran), PARIS_CLOSED);
}

static void *play(void *of) {
  player *p = of;
  for (size_t at = 0; at < PAIRS; at++) begin(p, &p->pairs[at]);
  for (p->made = 0; p->made < p->steps; p->made++) {
    pair *it = &PICK(p, p->pairs);
    switch (chance(p, 12)) {
      case 0: settle(p, it); break;
      case 1: look(p, it); break;
      case 2: case 3: set(p, it); break;
      case 4: case 5: case 6: get(p, it); break;
      case 7: if (chance(p, 40) == 0) begin(p, it); break;
      default: line(p, it);
    }
  }
  for (size_t at = 0; at < PAIRS; at++) end(p, &p->pairs[at]);
  return NULL;
}

int main(int count, char **words) {
  if (count != 4) return 2;
  const uint64_t seed = strtoull(words[1], NULL, 10), steps = strtoull(words[2], NULL, 10), threads = strtoull(words[3], NULL, 10);
  player *players = calloc(threads, sizeof *players);
  pthread_t *ids = calloc(threads, sizeof *ids);
  if (players == NULL || ids == NULL) abort();
  for (uint64_t at = 0; at < threads; at++) {
    players[at].state = (seed + at + 1) * UINT64_C(0x9E3779B97F4A7C15);
    players[at].steps = steps;
    if (pthread_create(&ids[at], NULL, play, &players[at]) != 0) abort();
  }
  uint64_t calls = 0, refused = 0, pending = 0;
  for (uint64_t at = 0; at < threads; at++) {
    pthread_join(ids[at], NULL);
    calls += players[at].calls;
    refused += players[at].refused;
    pending += players[at].pending;
  }
  printf("%" PRIu64 " calls, %" PRIu64 " refused, %" PRIu64 " pending\n", calls, refused, pending);
  free(ids);
  free(players);
  return 0;
}
