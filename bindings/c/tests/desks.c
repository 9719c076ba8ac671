/* Each call of a desk and of its seats, at each status that needs no want of memory. */
#include "want.h"

/* Answers a line of a seat, whose reply and entry are these. */
static void says_at(int line, paris_desk *desk, paris_seat *seat, const char *said, const char *wanted, uint64_t number) {
  size_t len = 0;
  uint64_t entry = 99;
  uint8_t room[128] = {0};
  want(__FILE__, line, paris_desk_answer(desk, seat, bytes(said), strlen(said), &len, &entry), PARIS_OK);
  want(__FILE__, line, paris_seat_reply(seat, room, sizeof room - 1), PARIS_OK);
  want(__FILE__, line, len, strlen(wanted));
  want(__FILE__, line, strcmp((const char *)room, wanted), 0);
  want(__FILE__, line, entry, number);
}

#define SAYS(desk, seat, said, wanted, number) says_at(__LINE__, desk, seat, said, wanted, number)

static uint32_t answer(paris_desk *desk, paris_seat *seat, const char *said) {
  size_t len = 0;
  uint64_t entry = 0;
  return paris_desk_answer(desk, seat, bytes(said), strlen(said), &len, &entry);
}

/* An entry is of this seat and kind, and its reply has this text. */
static void tells_at(int line, paris_desk *desk, uint64_t number, uint64_t seat, uint32_t kind, const char *wanted) {
  uint64_t whose = 99;
  uint32_t what = 99;
  size_t len = 0;
  uint8_t room[128] = {0};
  want(__FILE__, line, paris_desk_entry(desk, number, &whose, &what, room, sizeof room - 1, &len), PARIS_OK);
  want(__FILE__, line, whose, seat);
  want(__FILE__, line, what, kind);
  want(__FILE__, line, len, strlen(wanted));
  want(__FILE__, line, strcmp((const char *)room, wanted), 0);
}

#define TELLS(desk, number, seat, kind, wanted) tells_at(__LINE__, desk, number, seat, kind, wanted)

static uint64_t front_of(paris_seat *seat) {
  uint64_t front = 99;
  WANT(paris_seat_front(seat, &front), PARIS_OK);
  return front;
}

static uint32_t get(paris_seat *seat, uint64_t numbers[4], uint64_t *told) {
  return paris_seat_get(seat, bytes("c"), 1, PARIS_END, numbers, 4, told);
}

static void want_numbers(const uint64_t *numbers, uint64_t a, uint64_t b, uint64_t c, uint64_t d) {
  WANT(numbers[0], a);
  WANT(numbers[1], b);
  WANT(numbers[2], c);
  WANT(numbers[3], d);
}

/* Two seats declare a program, each by some of its lines. */
static void declare(paris_desk *desk, paris_seat *ann, paris_seat *bob) {
  SAYS(desk, ann, "set s 4", "ok\n", 1);
  SAYS(desk, ann, "field a s 8", "ok\n", 2);
  SAYS(desk, bob, "field b s 8", "ok\n", 3);
  SAYS(desk, bob, "field a s 8", "refused 3\n", 4);
  SAYS(desk, ann, "field c s 8", "ok\n", 5);
  SAYS(desk, ann, "input a 0 1 2 3 4", "ok\n", 6);
  SAYS(desk, bob, "input b 0 10 20 30 40", "ok\n", 7);
  SAYS(desk, bob, "insert end u-add-3-1L c a b 8", "row 1\n", 8);
}

/* Lines that are no entries. */
static void say_no_event(paris_desk *desk, paris_seat *seat, uint64_t entries) {
  static const char *const no_events[] = {"", "# a comment", "settle", "take", "bring 1", "faults"};
  for (size_t i = 0; i < sizeof no_events / sizeof *no_events; i++) WANT(answer(desk, seat, no_events[i]), PARIS_NO_EVENT);
  SAYS(desk, seat, "show", "refused 20 5\n", 0);
  SAYS(desk, seat, "paris 2", "refused 20 1\n", 0);
  WANT(front_of(seat), entries);
}

/* A seat takes the one order, and the other one brings its result. */
static void run_row(paris_desk *desk, paris_seat *ann, paris_seat *bob, paris_order *order) {
  uint64_t entry = 0, edition = 0, row = 0;
  uint32_t verdict = 0;
  bool is_run = true;
  WANT(paris_desk_take(desk, ann, order, &entry), PARIS_OK);
  WANT(entry, 9);
  WANT(paris_order_row(order, &row, &edition, &is_run), PARIS_OK);
  WANT(row, 1);
  WANT(is_run, false);
  WANT(paris_desk_bring(desk, bob, order, &verdict, &edition, &entry), PARIS_NOT_RUN);
  WANT(paris_execute(order), PARIS_OK);
  WANT(paris_desk_bring(desk, bob, order, &verdict, &edition, &entry), PARIS_OK);
  WANT(verdict, PARIS_KEPT);
  WANT(entry, 10);
  WANT(paris_desk_bring(desk, ann, order, &verdict, &edition, &entry), PARIS_OK);
  WANT(verdict, PARIS_REPEATED);
  WANT(entry, 11);
  WANT(front_of(ann), 11);
  WANT(front_of(bob), 10);
  WANT(paris_desk_take(desk, ann, order, &entry), PARIS_NOTHING);
  WANT(order->is_open, false);
  WANT(front_of(ann), 11);
}

/* An order for a value is a look: no row is out by it. */
static void order_for(paris_seat *seat) {
  paris_order order = {0};
  uint64_t row = 0, edition = 0;
  bool is_run = true;
  for (int twice = 0; twice < 2; twice++) {
    WANT(paris_seat_order_for(seat, bytes("c"), 1, PARIS_END, &order), PARIS_OK);
    WANT(paris_order_row(&order, &row, &edition, &is_run), PARIS_OK);
    WANT(row, 1);
    WANT(is_run, false);
  }
  WANT(paris_seat_order_for(seat, bytes("c"), 1, PARIS_START, &order), PARIS_NOTHING);
  WANT(order.is_open, false);
  WANT(paris_seat_order_for(seat, bytes("d"), 1, PARIS_END, &order), 7);
  WANT(order.is_open, false);
  WANT(paris_seat_order_for(seat, bytes("!"), 1, PARIS_END, &order), PARIS_NO_KEY);
}

/* A session shows what a seat looks at, and goes on by itself. */
static void snapshot(paris_seat *seat) {
  paris_handle copy = {0};
  paris_seat stood = {0};
  uint64_t rows[1] = {0}, numbers[4] = {0}, told = 0, ran = 0;
  size_t count = 0;
  WANT(paris_seat_snapshot(seat, &copy), PARIS_OK);
  WANT(paris_rows(&copy, rows, 1, &count), PARIS_OK);
  WANT(rows[0], 1);
  WANT(paris_unsettled(&copy, rows, 1, &count), PARIS_OK);
  WANT(count, 1);
  WANT(paris_part(&copy, bytes("a"), 1, PARIS_END, 1, numbers, 2, &told), PARIS_OK);
  WANT(numbers[0], 2);
  WANT(numbers[1], 3);
  WANT(paris_settle(&copy, &ran), PARIS_OK);
  WANT(ran, 1);
  WANT(paris_get(&copy, bytes("c"), 1, PARIS_END, numbers, 4, &told), PARIS_OK);
  want_numbers(numbers, 15, 22, 33, 44);
  WANT(get(seat, numbers, &told), PARIS_PENDING);
  WANT(paris_seat_snapshot(&stood, &copy), PARIS_CLOSED);
  WANT(copy.is_open, false);
}

/* A look stays as it is until the seat looks again. */
static void look(paris_desk *desk, paris_seat *ann, paris_seat *bob) {
  uint64_t numbers[4] = {0}, told = 0;
  WANT(get(ann, numbers, &told), PARIS_PENDING);
  WANT(told, 1);
  WANT(paris_desk_look(desk, ann), PARIS_OK);
  WANT(get(ann, numbers, &told), PARIS_OK);
  want_numbers(numbers, 11, 22, 33, 44);
  SAYS(desk, bob, "input a 0 5", "ok\n", 12);
  WANT(get(ann, numbers, &told), PARIS_OK);
  want_numbers(numbers, 11, 22, 33, 44);
  WANT(front_of(ann), 11);
  WANT(paris_desk_look(desk, ann), PARIS_OK);
  WANT(get(ann, numbers, &told), PARIS_PENDING);
  WANT(front_of(ann), 12);
  order_for(ann);
  snapshot(ann);
  /* (the other seat looks at the book as it was when it sat down, with no field yet) */
  WANT(get(bob, numbers, &told), 7);
  WANT(paris_seat_get(ann, bytes("a"), 1, PARIS_END, numbers, 3, &told), PARIS_WRONG_ROOM);
  WANT(told, 4);
  WANT(paris_seat_get(ann, bytes("d"), 1, PARIS_END, numbers, 4, &told), 7);
  WANT(paris_seat_get(ann, bytes("!"), 1, PARIS_END, numbers, 4, &told), PARIS_NO_KEY);
}

/* Numbers are given as by the line that gives them: accepted, refused by the machine, or to no key. */
static void set(paris_desk *desk, paris_seat *seat) {
  const uint64_t numbers[] = {7, 8}, big[] = {256};
  const paris_wide wide[] = {{9, 0}}, bigger[] = {{0, 1}};
  size_t len = 0;
  uint64_t entry = 0;
  uint8_t room[16] = {0};
  WANT(paris_desk_set(desk, seat, bytes("b"), 1, 1, numbers, 2, &len, &entry), PARIS_OK);
  WANT(entry, 2);
  WANT(len, 3);
  WANT(front_of(seat), 2);
  WANT(paris_desk_set(desk, seat, bytes("b"), 1, 1, big, 1, &len, &entry), PARIS_OK);
  WANT(entry, 3);
  WANT(paris_seat_reply(seat, room, sizeof room - 1), PARIS_OK);
  WANT(strcmp((const char *)room, "refused 9 1\n"), 0);
  WANT(paris_desk_set_wide(desk, seat, bytes("b"), 1, 3, wide, 1, &len, &entry), PARIS_OK);
  WANT(entry, 4);
  WANT(paris_desk_set_wide(desk, seat, bytes("b"), 1, 3, bigger, 1, &len, &entry), PARIS_OK);
  WANT(paris_desk_set_wide(desk, seat, bytes("d"), 1, 3, wide, 1, &len, &entry), PARIS_OK);
  TELLS(desk, 2, 0, PARIS_EDIT, "ok\n");
  TELLS(desk, 4, 0, PARIS_EDIT, "ok\n");
  TELLS(desk, 5, 0, PARIS_EDIT, "refused 9 3\n");
  TELLS(desk, 6, 0, PARIS_EDIT, "refused 7\n");
  SAYS(desk, seat, "show b end", "values 10 7 8 9\n", 7);
  WANT(paris_desk_set(desk, seat, bytes("!"), 1, 1, numbers, 2, &len, &entry), PARIS_NO_KEY);
  WANT(paris_desk_set_wide(desk, seat, bytes("!"), 1, 1, wide, 1, &len, &entry), PARIS_NO_KEY);
  WANT(front_of(seat), 7);
}

static void want_entries(paris_desk *desk) {
  uint64_t seat = 0;
  uint32_t kind = 0;
  size_t len = 0;
  uint8_t room[1] = {0};
  TELLS(desk, 1, 0, PARIS_EDIT, "ok\n");
  TELLS(desk, 4, 1, PARIS_EDIT, "refused 3\n");
  TELLS(desk, 8, 1, PARIS_EDIT, "row 1\n");
  TELLS(desk, 10, 1, PARIS_BRING, "kept\n");
  TELLS(desk, 11, 0, PARIS_BRING, "repeated\n");
  TELLS(desk, 13, 0, PARIS_SHOW, "pending 1\n");
  TELLS(desk, 14, 1, PARIS_RELEASE, "ok\n");
  WANT(paris_desk_entry(desk, 9, &seat, &kind, room, 1, &len), PARIS_OK);
  WANT(kind, PARIS_TAKE);
  WANT(room[0], 'o');
  WANT(paris_desk_entry(desk, 15, &seat, &kind, room, 1, &len), PARIS_OK);
  WANT(kind, PARIS_LIST);
  WANT(paris_desk_entry(desk, 0, &seat, &kind, room, 1, &len), PARIS_NO_ENTRY);
  WANT(paris_desk_entry(desk, 16, &seat, &kind, room, 1, &len), PARIS_NO_ENTRY);
  WANT(paris_desk_entry(desk, UINT64_MAX, &seat, &kind, room, 1, &len), PARIS_NO_ENTRY);
}

/* The history is full. A new chapter has room, and the same book. */
static void fill(paris_desk *desk, paris_seat *ann, paris_order *order) {
  uint64_t entries = 0, entry = 0, edition = 0;
  uint32_t verdict = 0;
  bool agrees = false;
  paris_handle copy = {0};
  uint64_t numbers[4] = {0}, told = 0;
  WANT(paris_desk_take(desk, ann, order, &entry), PARIS_OK);
  WANT(entry, 16);
  WANT(paris_execute(order), PARIS_OK);
  WANT(answer(desk, ann, "list"), PARIS_FULL);
  WANT(paris_desk_bring(desk, ann, order, &verdict, &edition, &entry), PARIS_FULL);
  WANT(paris_desk_audit(desk, &agrees), PARIS_OK);
  WANT(agrees, true);
  WANT(paris_desk_cut(desk, &entries), PARIS_OK);
  WANT(entries, 16);
  WANT(paris_desk_bring(desk, ann, order, &verdict, &edition, &entry), PARIS_OK);
  WANT(verdict, PARIS_KEPT);
  WANT(entry, 1);
  WANT(paris_desk_snapshot(desk, &copy), PARIS_OK);
  WANT(paris_get(&copy, bytes("c"), 1, PARIS_END, numbers, 4, &told), PARIS_OK);
  want_numbers(numbers, 15, 22, 33, 44);
  WANT(paris_close(&copy), PARIS_OK);
  set(desk, ann);
  WANT(paris_desk_audit(desk, &agrees), PARIS_OK);
}

/* A seat of another desk, and handles that are closed. */
static void refuse(paris_desk *desk, paris_handle *from, paris_seat *ann, paris_order *order) {
  paris_desk other = {0}, closed = {0};
  paris_seat stood = {0};
  uint64_t number = 0, entry = 0, edition = 0;
  uint32_t verdict = 0, kind = 0;
  size_t len = 0;
  uint8_t room[1] = {0};
  bool agrees = false;
  WANT(paris_desk_open(&other, from, 8, 1), PARIS_OK);
  WANT(answer(&other, ann, "list"), PARIS_STRANGE);
  WANT(paris_desk_set(&other, ann, bytes("b"), 1, 0, &number, 1, &len, &entry), PARIS_STRANGE);
  WANT(paris_desk_look(&other, ann), PARIS_STRANGE);
  WANT(paris_desk_bring(&other, ann, order, &verdict, &edition, &entry), PARIS_STRANGE);
  WANT(paris_desk_take(&other, ann, order, &entry), PARIS_STRANGE);
  WANT(order->is_open, false);
  WANT(answer(desk, &stood, "list"), PARIS_CLOSED);
  WANT(answer(&closed, ann, "list"), PARIS_CLOSED);
  WANT(paris_desk_set(desk, &stood, bytes("b"), 1, 0, &number, 1, &len, &entry), PARIS_CLOSED);
  WANT(paris_desk_set_wide(&closed, ann, bytes("b"), 1, 0, NULL, 0, &len, &entry), PARIS_CLOSED);
  WANT(paris_desk_take(&closed, ann, order, &entry), PARIS_CLOSED);
  WANT(paris_desk_bring(desk, ann, order, &verdict, &edition, &entry), PARIS_CLOSED);
  WANT(paris_desk_look(&closed, ann), PARIS_CLOSED);
  WANT(paris_desk_sit(&closed, &stood, &number), PARIS_CLOSED);
  WANT(paris_desk_entry(&closed, 1, &number, &kind, room, 1, &len), PARIS_CLOSED);
  WANT(paris_desk_audit(&closed, &agrees), PARIS_CLOSED);
  WANT(paris_desk_cut(&closed, &number), PARIS_CLOSED);
  WANT(paris_seat_reply(&stood, room, 1), PARIS_CLOSED);
  WANT(paris_seat_get(&stood, bytes("a"), 1, PARIS_END, &number, 1, &entry), PARIS_CLOSED);
  WANT(paris_seat_front(&stood, &number), PARIS_CLOSED);
  WANT(paris_seat_order_for(&stood, bytes("a"), 1, PARIS_END, order), PARIS_CLOSED);
  WANT(paris_seat_close(&stood), PARIS_CLOSED);
  WANT(paris_desk_close(&other), PARIS_OK);
  WANT(paris_desk_close(&other), PARIS_CLOSED);
}

int main(void) {
  paris_handle from = {0}, none = {0};
  paris_desk desk = {0};
  paris_seat ann = {0}, bob = {0};
  paris_order order = {0};
  uint64_t number = 99, numbers[4] = {0}, told = 0;
  WANT(paris_desk_open(&desk, &from, 7, 16), PARIS_CLOSED);
  WANT(paris_open(&from), PARIS_OK);
  WANT(paris_desk_open(&desk, &from, 7, 16), PARIS_OK);
  WANT(paris_desk_sit(&desk, &ann, &number), PARIS_OK);
  WANT(number, 0);
  WANT(paris_desk_sit(&desk, &bob, &number), PARIS_OK);
  WANT(number, 1);
  declare(&desk, &ann, &bob);
  say_no_event(&desk, &ann, 6);
  WANT(paris_desk_look(&desk, &ann), PARIS_OK);
  run_row(&desk, &ann, &bob, &order);
  look(&desk, &ann, &bob);
  SAYS(&desk, &ann, "show c end", "pending 1\n", 13);
  SAYS(&desk, &bob, "release", "ok\n", 14);
  WANT(answer(&desk, &bob, "list"), PARIS_OK);
  want_entries(&desk);
  fill(&desk, &ann, &order);
  refuse(&desk, &from, &ann, &order);
  WANT(paris_desk_snapshot(&desk, &none), PARIS_OK);
  WANT(paris_close(&none), PARIS_OK);
  WANT(paris_desk_close(&desk), PARIS_OK);
  WANT(paris_desk_look(&desk, &ann), PARIS_CLOSED);
  WANT(paris_desk_snapshot(&desk, &none), PARIS_CLOSED);
  WANT(get(&ann, numbers, &told), PARIS_PENDING);
  WANT(paris_seat_close(&ann), PARIS_OK);
  WANT(paris_seat_close(&bob), PARIS_OK);
  WANT(paris_close(&from), PARIS_OK);
  return 0;
}
