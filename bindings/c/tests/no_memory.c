/* A script of each kind of command, and each call that is no line, with each of the allocations refused, one by one, and then with all
   from each one on, until a call answers that it got no memory.
   Then the session is as it was before that call. Looks at all of it say so, and so does the rest of the script: the call is made
   again, and what it and all calls behind it tell is what they tell where no memory is refused. So the first line can choose the
   profile when it is told again. At PARIS_PARTLY some rows are settled and no order is out, and the rows that are left are settled as
   the call is made again. */
#include "paris.h"

#include <stdio.h>
#include <stdlib.h>
#include <string.h>

void *__real_malloc(size_t size);
void *__real_realloc(void *block, size_t size);

static bool watching = false;
static bool all_from_there = false;
static long seen = 0;
static long refused_from = 0;
static long refusals = 0;
static const char *step_now = "";

static bool is_refused(void) {
  if (!watching) return false;
  seen++;
  bool refused = all_from_there ? seen >= refused_from : seen == refused_from;
  refusals += refused;
  return refused;
}

void *__wrap_malloc(size_t size) { return is_refused() ? NULL : __real_malloc(size); }

void *__wrap_realloc(void *block, size_t size) { return is_refused() ? NULL : __real_realloc(block, size); }

static void want(int line, bool holds) {
  if (holds) return;
  fprintf(stderr, "no_memory: line %d, allocation %ld, at `%s`\n", line, refused_from, step_now);
  exit(1);
}

#define WANT(holds) want(__LINE__, holds)

static const uint8_t *bytes(const char *text) { return (const uint8_t *)text; }

/* What a call told: its status, bytes, and of a settle how many orders were run. */
enum { ROOM = 8192, NUMBERS = 8 };

struct told {
  uint32_t status;
  uint64_t ran;
  size_t len;
  uint8_t text[ROOM];
};

static void put(struct told *told, const void *from, size_t len) {
  WANT(told->len + len <= ROOM);
  memcpy(told->text + told->len, from, len);
  told->len += len;
}

static bool is_same(const struct told *one, const struct told *other) {
  return one->status == other->status && one->ran == other->ran && one->len == other->len && !memcmp(one->text, other->text, one->len);
}

/* The reply to the last line, which the session keeps. */
static uint8_t kept[ROOM];
static size_t kept_len = 0;

static void answer(paris_handle *handle, const char *line, struct told *told) {
  static uint8_t reply[ROOM];
  size_t len = 0;
  told->status = paris_answer(handle, bytes(line), strlen(line), &len);
  WANT(len <= ROOM && paris_reply(handle, reply, len) == PARIS_OK);
  WANT(!told->status || (len == kept_len && !memcmp(reply, kept, len)));
  if (told->status) return;
  memcpy(kept, reply, len);
  kept_len = len;
  put(told, reply, len);
}

static void settle_line(paris_handle *handle, const char *line, struct told *told) {
  answer(handle, line, told);
  if (told->status) return;
  put(told, "", 1);
  unsigned long long ran = 0;
  WANT(sscanf((const char *)told->text, "settled %llu\n", &ran) == 1);
  told->ran = ran;
  told->len = 0;
}

static void settle(paris_handle *handle, const char *none, struct told *told) {
  (void)none;
  told->status = paris_settle(handle, &told->ran);
}

static void run(paris_handle *handle, const char *none, struct told *told) {
  uint64_t room[NUMBERS];
  (void)none;
  told->status = paris_run_ids(handle, UINT64_MAX, room, NUMBERS, &told->ran);
}

static void settle_for(paris_handle *handle, const char *key, struct told *told) {
  uint64_t room[NUMBERS];
  told->status = paris_settle_for_ids(handle, bytes(key), strlen(key), PARIS_END, room, NUMBERS, &told->ran);
}

static void set(paris_handle *handle, const char *key, struct told *told) {
  static const uint64_t numbers[3] = {7, 8, 9};
  told->status = paris_set(handle, bytes(key), strlen(key), 5, numbers, 3);
}

/* Of a room that was filled with ones, and is left where the status isn't PARIS_OK. */
static void put_room(struct told *told, const uint64_t *room) {
  static const uint64_t ones[NUMBERS] = {1, 1, 1, 1, 1, 1, 1, 1};
  WANT(!told->status || !memcmp(room, ones, sizeof ones));
  if (!told->status) put(told, room, sizeof ones);
}

static void get(paris_handle *handle, const char *key, struct told *told) {
  uint64_t room[NUMBERS] = {1, 1, 1, 1, 1, 1, 1, 1}, count = 0;
  told->status = paris_get(handle, bytes(key), strlen(key), PARIS_END, room, NUMBERS, &count);
  put_room(told, room);
}

static void set_wide(paris_handle *handle, const char *key, struct told *told) {
  static const paris_wide numbers[2] = {{7, 1}, {8, 0}};
  told->status = paris_set_wide(handle, bytes(key), strlen(key), 1, numbers, 2);
}

static void get_wide(paris_handle *handle, const char *key, struct told *told) {
  paris_wide room[NUMBERS / 2] = {{1, 1}, {1, 1}, {1, 1}, {1, 1}};
  uint64_t words[NUMBERS] = {0}, count = 0;
  told->status = paris_get_wide(handle, bytes(key), strlen(key), PARIS_END, room, NUMBERS / 2, &count);
  memcpy(words, room, sizeof words);
  put_room(told, words);
}

static void rows(paris_handle *handle, const char *none, struct told *told) {
  (void)none;
  uint64_t room[NUMBERS] = {1, 1, 1, 1, 1, 1, 1, 1};
  size_t count = 0;
  told->status = paris_rows(handle, room, 5, &count);
  put_room(told, room);
}

static void faults(paris_handle *handle, const char *none, struct told *told) {
  (void)none;
  uint64_t room[NUMBERS] = {1, 1, 1, 1, 1, 1, 1, 1};
  size_t count = 0;
  told->status = paris_faults(handle, room, NUMBERS, &count);
  put_room(told, room);
  if (!told->status) put(told, &count, sizeof count);
}

static void script(paris_handle *handle, const char *text, struct told *told) {
  (void)handle;
  uint8_t room[64] = {0};
  static const uint8_t zeros[sizeof room] = {0};
  size_t len = 0;
  told->status = paris_script(bytes(text), strlen(text), room, sizeof room, &len);
  WANT(!told->status || !memcmp(room, zeros, sizeof room));
  if (!told->status) put(told, room, len);
}

static void part(paris_handle *handle, const char *key, struct told *told) {
  uint64_t room[NUMBERS] = {1, 1, 1, 1, 1, 1, 1, 1}, count = 0;
  told->status = paris_part(handle, bytes(key), strlen(key), PARIS_START, 2, room, 3, &count);
  put_room(told, room);
}

/* The order that is taken, executed and brought. */
static paris_order order = {0};

static void put_order(struct told *told) {
  uint64_t words[3] = {0};
  bool is_run = false;
  WANT(paris_order_row(&order, &words[0], &words[1], &is_run) == PARIS_OK);
  words[2] = is_run;
  put(told, words, sizeof words);
}

static void take(paris_handle *handle, const char *none, struct told *told) {
  (void)none;
  told->status = paris_take(handle, &order);
  WANT(order.is_open == !told->status);
  if (!told->status) put_order(told);
}

/* An order that isn't executed for want of memory is as it was. */
static void execute(paris_handle *handle, const char *none, struct told *told) {
  static struct told before, after;
  (void)handle, (void)none;
  before.len = after.len = 0;
  put_order(&before);
  told->status = paris_execute(&order);
  put_order(&after);
  WANT(!told->status || is_same(&before, &after));
  if (!told->status) put_order(told);
}

/* A call that takes no memory, of which nothing is refused. */
static void bring(paris_handle *handle, const char *none, struct told *told) {
  long before = seen;
  uint32_t verdict = 0;
  uint64_t edition = 0;
  (void)none;
  told->status = paris_bring(handle, &order, &verdict, &edition);
  WANT(!told->status && seen == before);
  put(told, &verdict, sizeof verdict);
  put_order(told);
}

static void release(paris_handle *handle, const char *none, struct told *told) {
  long before = seen;
  (void)none;
  told->status = paris_release(handle);
  WANT(!told->status && seen == before);
}

static void unsettled_ids(paris_handle *handle, const char *none, struct told *told) {
  long before = seen;
  uint64_t room[NUMBERS] = {1, 1, 1, 1, 1, 1, 1, 1};
  size_t count = 0;
  (void)none;
  told->status = paris_unsettled(handle, room, NUMBERS, &count);
  WANT(!told->status && seen == before);
  put_room(told, room);
  put(told, &count, sizeof count);
}

static void touched_ids(paris_handle *handle, const char *none, struct told *told) {
  long before = seen;
  uint64_t room[NUMBERS] = {1, 1, 1, 1, 1, 1, 1, 1}, edits = 0;
  size_t count = 0;
  (void)none;
  told->status = paris_touched(handle, 1, room, NUMBERS, &count, &edits);
  WANT(!told->status && seen == before);
  put_room(told, room);
  put(told, &count, sizeof count);
  put(told, &edits, sizeof edits);
}

static void origin(paris_handle *handle, const char *key, struct told *told) {
  long before = seen;
  uint64_t row = 0;
  told->status = paris_origin(handle, bytes(key), strlen(key), PARIS_END, &row);
  WANT(!told->status && seen == before);
  put(told, &row, sizeof row);
}

static void counted(paris_handle *handle, const char *key, struct told *told) {
  long before = seen;
  uint64_t count = 0;
  told->status = paris_count(handle, bytes(key), strlen(key), PARIS_START, &count);
  WANT(!told->status && seen == before);
  put(told, &count, sizeof count);
}

static void summed_up(paris_handle *handle, const char *key, struct told *told) {
  long before = seen;
  paris_stretch room[3];
  uint64_t count = 0;
  told->status = paris_summary(handle, bytes(key), strlen(key), PARIS_START, room, 3, &count);
  WANT(!told->status && seen == before);
  put(told, room, sizeof room);
}

/* A session beside its snapshot, which is made where no memory is refused. */
static void compared(paris_handle *handle, const char *key, struct told *told) {
  static paris_handle copy = {0};
  bool was_watching = watching;
  uint8_t room[3] = {9, 9, 9};
  uint64_t count = 0;
  watching = false;
  WANT(paris_snapshot(handle, &copy) == PARIS_OK);
  watching = was_watching;
  long before = seen;
  told->status = paris_differs(handle, &copy, bytes(key), strlen(key), PARIS_START, room, 3, &count);
  WANT(!told->status && seen == before);
  put(told, room, sizeof room);
  WANT(paris_close(&copy) == PARIS_OK);
}

static void look(paris_handle *handle, struct told *told);

/* A session in the same state, which is looked at and closed. Where there is no memory none is open. */
static void snapshot(paris_handle *handle, const char *none, struct told *told) {
  static struct told here, there;
  static paris_handle copy = {0};
  bool was_watching = watching;
  (void)none;
  told->status = paris_snapshot(handle, &copy);
  WANT(copy.is_open == !told->status);
  if (told->status) return;
  watching = false;
  look(handle, &here);
  look(&copy, &there);
  WANT(is_same(&here, &there));
  WANT(paris_close(&copy) == PARIS_OK);
  watching = was_watching;
}

struct step {
  const char *text;
  void (*call)(paris_handle *, const char *, struct told *);
};

static const struct step STEPS[] = {
    {"set s 4x2", answer},
    {"set t 4", answer},
    {"set s 4", answer},
    {"field a s 8", answer},
    {"field b s 8", answer},
    {"field c s 8", answer},
    {"field at s 3", answer},
    {"field d t 8", answer},
    {"field e t 65", answer},
    {"field f t 129", answer},
    {"input e 0 36893488147419103231", answer},
    {"input a 0 1 2 3 4 5 6 7 8", answer},
    {"input s.context 1 0", answer},
    {"input a 7 1 2", answer},
    {"insert end u-add-3-1L c a b 8", answer},
    {"insert start u-move-constant-1L b 5 8", answer},
    {"insert after 2 u-multiply-3-1L c a b 8", answer},
    {"insert end u-move-1L a d 8", answer},
    {"take", answer},
    {"bring 1", answer},
    {"bring 1", answer},
    {"take", answer},
    {"input a 1 200", answer},
    {"bring 2", answer},
    {"take", answer},
    {"delete 3", answer},
    {"bring 3", answer},
    {"bring 4", answer},
    {"replace 1 u-subtract-3-1L c a b 8", answer},
    {"show a start", answer},
    {"show b after 2", answer},
    {"show c end", answer},
    {"take", answer},
    {"release", answer},
    {"insert end u-max-3-1L d d d 8", answer},
    {"", take},
    {"", snapshot},
    {"", execute},
    {"", execute},
    {"", bring},
    {"", bring},
    {"", take},
    {"", release},
    {"", snapshot},
    {"b", part},
    {"a", counted},
    {"e", summed_up},
    {"a", compared},
    {"take", answer},
    {"settle", settle_line},
    {"show c end", answer},
    {"show s.carry end", answer},
    {"insert end send-1L c at a 8 none", answer},
    {"insert end scan-with-u-add-1L b a 0 8 upward inclusive none", answer},
    {"", unsettled_ids},
    {"", touched_ids},
    {"b", settle_for},
    {"c", origin},
    {"list", answer},
    {"settle", settle_line},
    {"faults", answer},
    {"", faults},
    {"# a remark", answer},
    {"no such command", answer},
    {"a", set},
    {"e", set_wide},
    {"e", get_wide},
    {"", rows},
    {"take", answer},
    {"", settle},
    {"b", get},
    {"set s 4\nfield a s 8\nshow a end\ntake", script},
    {"insert end get-1L b at a 8", answer},
    {"", settle},
    {"a", get},
    {"replace 1 u-add-3-1L c a b 8", answer},
    {"input a 2 5", answer},
    {"", unsettled_ids},
    {"", run},
    {"", unsettled_ids},
};

enum { STEP_COUNT = sizeof STEPS / sizeof *STEPS };

static void do_step(paris_handle *handle, int step, struct told *told) {
  told->status = PARIS_OK;
  told->ran = told->len = 0;
  step_now = STEPS[step].text;
  STEPS[step].call(handle, step_now, told);
}

/* Whether a step tells how many orders were run, at PARIS_PARTLY too. */
static bool tells_runs(int step) { return STEPS[step].call == settle || STEPS[step].call == run || STEPS[step].call == settle_for; }

static bool is_settle(int step) { return tells_runs(step) || STEPS[step].call == settle_line; }

/* All that a session shows, but its orders. */
static void look(paris_handle *handle, struct told *told) {
  static const char *const looks[] = {
      "list",          "faults",         "show a start",      "show a end",     "show b start",   "show b end",         "show c start",
      "show c end",    "show at end",    "show d end",        "show e end",     "show s.carry end", "show s.context end", "show s.test end",
      "show t.carry end", "show b after 1", "show c after 1", "show s.overflow end",
  };
  told->status = PARIS_OK;
  told->ran = told->len = 0;
  for (size_t i = 0; i < sizeof looks / sizeof *looks; i++) {
    answer(handle, looks[i], told);
    WANT(!told->status);
  }
}

static struct told expected[STEP_COUNT];
static struct told seen_before[STEP_COUNT + 1];
static long unchanged = 0;
static long partly = 0;

/* How many rows are unsettled. No order is out. */
static uint64_t unsettled(paris_handle *handle) {
  static struct told told;
  told.len = 0;
  answer(handle, "list", &told);
  put(&told, "", 1);
  unsigned long long count = 0;
  const char *text = (const char *)told.text;
  WANT(sscanf(text, "rows %llu\n", &count) == 1);
  for (const char *at = text; (at = strstr(at, " settled ")); at++) count--;
  WANT(!strstr(text, " out "));
  return count;
}

/* Some rows are settled. The call is made again for those that aren't, and the two run as many orders as one call would. */
static void settle_again(paris_handle *handle, int step, struct told *told) {
  uint64_t ran = told->ran, left = unsettled(handle), wanted = expected[step].ran;
  WANT(is_settle(step));
  do_step(handle, step, told);
  WANT(told->ran <= left);
  WANT(tells_runs(step) ? ran + told->ran == wanted : told->ran <= wanted);
  told->ran = wanted;
}

/* The session is as before the call, which is made again. */
static void make_again(paris_handle *handle, int step, struct told *told) {
  look(handle, told);
  WANT(is_same(told, &seen_before[step]));
  do_step(handle, step, told);
}

static void go_on(paris_handle *handle, int step, struct told *told) {
  watching = false;
  WANT(refusals > 0);
  if (told->status == PARIS_PARTLY) {
    partly++;
    settle_again(handle, step, told);
  } else {
    unchanged++;
    make_again(handle, step, told);
  }
}

static void do_steps(paris_handle *handle) {
  static struct told told;
  for (int step = 0; step < STEP_COUNT; step++) {
    do_step(handle, step, &told);
    if (told.status == PARIS_NO_MEMORY || told.status == PARIS_PARTLY) go_on(handle, step, &told);
    WANT(is_same(&told, &expected[step]));
  }
  watching = false;
  look(handle, &told);
  WANT(is_same(&told, &seen_before[STEP_COUNT]));
}

static void open_session(paris_handle *handle) {
  step_now = "paris_open";
  uint32_t status = paris_open(handle);
  if (status == PARIS_NO_MEMORY) {
    watching = false;
    WANT(refusals > 0 && !handle->is_open);
    WANT(paris_close(handle) == PARIS_CLOSED);
    status = paris_open(handle);
  }
  WANT(status == PARIS_OK);
}

/* The profile is chosen by the first line, which is the first again where it got no memory. */
static void choose_profile(paris_handle *handle) {
  static struct told told;
  step_now = "paris 2";
  told.len = 0;
  answer(handle, step_now, &told);
  if (told.status == PARIS_NO_MEMORY) {
    watching = false;
    WANT(refusals > 0);
    unchanged++;
    answer(handle, step_now, &told);
  }
  WANT(told.status == PARIS_OK && told.len == 3 && !memcmp(told.text, "ok\n", 3));
}

/* Whether a refusal came, and so whether there are further allocations to refuse. */
static bool play(void) {
  paris_handle handle = {0};
  kept_len = 0;
  seen = refusals = 0;
  watching = true;
  open_session(&handle);
  choose_profile(&handle);
  do_steps(&handle);
  WANT(paris_close(&handle) == PARIS_OK && paris_order_close(&order) == PARIS_OK);
  return refusals > 0;
}

static void play_with_memory(void) {
  paris_handle handle = {0};
  open_session(&handle);
  choose_profile(&handle);
  for (int step = 0; step < STEP_COUNT; step++) {
    look(&handle, &seen_before[step]);
    do_step(&handle, step, &expected[step]);
    WANT(expected[step].status == PARIS_OK);
  }
  look(&handle, &seen_before[STEP_COUNT]);
  WANT(paris_close(&handle) == PARIS_OK && paris_order_close(&order) == PARIS_OK);
}

int main(void) {
  play_with_memory();
  for (int way = 0; way < 2; way++) {
    all_from_there = way == 1;
    for (refused_from = 1; play(); refused_from++) {
    }
  }
  WANT(unchanged > 0 && partly > 0);
  fprintf(stderr, "no_memory: %ld allocations, each refused in two ways; %ld calls changed nothing, and %ld settled some rows\n",
          refused_from - 1, unchanged, partly);
  return 0;
}
