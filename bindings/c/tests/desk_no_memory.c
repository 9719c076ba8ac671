/* The calls of a desk and its seats, with each of the allocations refused, one by one, and then with all from each one on, until a call answers
   that it got no memory. Then the history, the seat's reply and what it knows are as they were, or a handle that was to be opened is
   closed. The call is made again, and in the end the history is what it is where no memory is refused. */
#include "want.h"

void *__real_malloc(size_t size);
void *__real_realloc(void *block, size_t size);

static bool watching = false;
static bool all_from_there = false;
static long seen = 0;
static long refused_from = 0;
static long refusals = 0;
static long unchanged = 0;

static bool is_refused(void) {
  if (!watching) return false;
  seen++;
  bool refused = all_from_there ? seen >= refused_from : seen == refused_from;
  refusals += refused;
  return refused;
}

void *__wrap_malloc(size_t size) { return is_refused() ? NULL : __real_malloc(size); }

void *__wrap_realloc(void *block, size_t size) { return is_refused() ? NULL : __real_realloc(block, size); }

enum { TEXT = 512, ENTRIES = 64 };

/* A sitting, and all that calls tell of it. */
static paris_handle from, copy;
static paris_desk desk;
static paris_seat seats[2];
static paris_order order;

typedef struct entry {
  uint64_t seat;
  uint32_t kind;
  size_t len;
  char text[TEXT];
} entry;

typedef struct state {
  uint64_t count;
  entry entries[ENTRIES];
  uint64_t fronts[2];
  char replies[2][TEXT];
} state;

static state expected, before, after;

static void look_at(state *told) {
  memset(told, 0, sizeof *told);
  for (;;) {
    entry *at = &told->entries[told->count];
    uint32_t status = paris_desk_entry(&desk, told->count + 1, &at->seat, &at->kind, (uint8_t *)at->text, TEXT - 1, &at->len);
    if (status != PARIS_OK) break;
    WANT(++told->count < ENTRIES, true);
  }
  for (int i = 0; i < 2; i++) {
    paris_seat_front(&seats[i], &told->fronts[i]);
    paris_seat_reply(&seats[i], (uint8_t *)told->replies[i], TEXT - 1);
  }
}

/* What a step is: a line of a seat, or another call. */
enum { LINE, OPEN, SIT, SET, SET_WIDE, TAKE, EXECUTE, BRING, LOOK, GET, ORDER_FOR, ENTRY, AUDIT, SNAPSHOT, SEAT_SNAPSHOT };

typedef struct step {
  int what;
  int seat;
  const char *line;
} step;

static const step steps[] = {
    {OPEN, 0, ""},
    {SIT, 0, ""},
    {SIT, 1, ""},
    {LINE, 0, "set s 4"},
    {LINE, 0, "field a s 8"},
    {LINE, 1, "field b s 8"},
    {LINE, 1, "field a s 8"},
    {LINE, 0, "input a 0 1 2 3 4"},
    {SET, 0, ""},
    {SET_WIDE, 1, ""},
    {LINE, 1, "insert end u-max-3-1L b a a 8"},
    {LINE, 0, "insert end"},
    {LINE, 0, "show b end"},
    {LOOK, 1, ""},
    {ORDER_FOR, 1, ""},
    {TAKE, 1, ""},
    {LINE, 0, "release"},
    {EXECUTE, 0, ""},
    {BRING, 1, ""},
    {LINE, 1, "show b end"},
    {LINE, 1, "list"},
    {LOOK, 0, ""},
    {GET, 0, ""},
    {ENTRY, 0, ""},
    {LINE, 0, "delete 1"},
    {AUDIT, 0, ""},
    {SNAPSHOT, 0, ""},
    {SEAT_SNAPSHOT, 0, ""},
};

enum { STEP_COUNT = sizeof steps / sizeof *steps };

static uint32_t get(paris_seat *seat) {
  uint64_t numbers[4] = {0}, told = 0;
  uint32_t status = paris_seat_get(seat, bytes("b"), 1, PARIS_END, numbers, 4, &told);
  if (status == PARIS_OK) WANT(numbers[3], 4);
  return status;
}

static uint32_t set(paris_seat *seat) {
  const uint64_t numbers[] = {2, 3};
  size_t len = 0;
  uint64_t number = 0;
  return paris_desk_set(&desk, seat, bytes("a"), 1, 1, numbers, 2, &len, &number);
}

static uint32_t set_wide(paris_seat *seat) {
  const paris_wide numbers[] = {{4, 0}};
  size_t len = 0;
  uint64_t number = 0;
  return paris_desk_set_wide(&desk, seat, bytes("a"), 1, 3, numbers, 1, &len, &number);
}

static uint32_t audit(void) {
  bool agrees = false;
  uint32_t status = paris_desk_audit(&desk, &agrees);
  if (status == PARIS_OK) WANT(agrees, true);
  return status;
}

static uint32_t do_step(const step *at) {
  size_t len = 0;
  uint64_t number = 0, edition = 0;
  uint32_t verdict = 0;
  uint8_t text[TEXT];
  paris_seat *seat = &seats[at->seat];
  switch (at->what) {
  case LINE: return paris_desk_answer(&desk, seat, bytes(at->line), strlen(at->line), &len, &number);
  case OPEN: return paris_desk_open(&desk, &from, 1, ENTRIES);
  case SIT: return paris_desk_sit(&desk, seat, &number);
  case SET: return set(seat);
  case SET_WIDE: return set_wide(seat);
  case TAKE: return paris_desk_take(&desk, seat, &order, &number);
  case EXECUTE: return paris_execute(&order);
  case BRING: return paris_desk_bring(&desk, seat, &order, &verdict, &edition, &number);
  case LOOK: return paris_desk_look(&desk, seat);
  case GET: return get(seat);
  case ORDER_FOR: return paris_seat_order_for(seat, bytes("b"), 1, PARIS_END, &order);
  case ENTRY: return paris_desk_entry(&desk, 5, &number, &verdict, text, TEXT, &len);
  case AUDIT: return audit();
  case SNAPSHOT: return paris_desk_snapshot(&desk, &copy);
  default: return paris_seat_snapshot(seat, &copy);
  }
}

/* Memory was refused at a step: all is as before. */
static void want_unchanged(const step *at) {
  watching = false;
  unchanged++;
  WANT(refusals > 0, true);
  look_at(&after);
  WANT(memcmp(&before, &after, sizeof before), 0);
  if (at->what == OPEN) WANT(desk.is_open, false);
  if (at->what == SIT) WANT(seats[at->seat].is_open, false);
  if (at->what == TAKE || at->what == ORDER_FOR) WANT(order.is_open, false);
  if (at->what == SNAPSHOT || at->what == SEAT_SNAPSHOT) WANT(copy.is_open, false);
}

/* Makes all steps, and answers whether memory was refused. */
static bool play(void) {
  seen = refusals = 0;
  WANT(paris_open(&from), PARIS_OK);
  for (int i = 0; i < STEP_COUNT; i++) {
    look_at(&before);
    watching = refused_from > 0;
    uint32_t status = do_step(&steps[i]);
    watching = false;
    if (status == PARIS_NO_MEMORY) {
      want_unchanged(&steps[i]);
      status = do_step(&steps[i]);
    }
    WANT(status, PARIS_OK);
  }
  look_at(&after);
  if (!refused_from) expected = after;
  WANT(memcmp(&expected, &after, sizeof after), 0);
  WANT(paris_close(&from) | paris_close(&copy) | paris_desk_close(&desk), PARIS_OK);
  WANT(paris_seat_close(&seats[0]) | paris_seat_close(&seats[1]) | paris_order_close(&order), PARIS_OK);
  return refusals > 0;
}

int main(void) {
  play();
  WANT(expected.count, 15);
  for (int way = 0; way < 2; way++) {
    all_from_there = way == 1;
    for (refused_from = 1; play(); refused_from++) {
    }
  }
  WANT(unchanged > 0, true);
  fprintf(stderr, "desk_no_memory: %ld allocations, each refused in two ways; %ld calls changed nothing\n", refused_from - 1, unchanged);
  return 0;
}
