/* Each call of the library but those of orders, at each status that needs no want of memory. */
#include "want.h"

static void closed_handles(void) {
  paris_handle handle = {0};
  size_t len = 7;
  uint64_t told = 7, room[4] = {7, 7, 7, 7};
  uint8_t text[1] = {7};
  paris_wide wide[2] = {{7, 7}, {7, 7}};
  paris_handle other = {0};
  paris_stretch stretches[1] = {{{7, 7}, {7, 7}, {7, 7, 7}, 7}};
  WANT(paris_close(&handle), PARIS_CLOSED);
  WANT(paris_answer(&handle, bytes("list"), 4, &len), PARIS_CLOSED);
  WANT(paris_reply(&handle, text, 1), PARIS_CLOSED);
  WANT(paris_set(&handle, bytes("a"), 1, 0, room, 4), PARIS_CLOSED);
  WANT(paris_get(&handle, bytes("a"), 1, PARIS_END, room, 4, &told), PARIS_CLOSED);
  WANT(paris_set_wide(&handle, bytes("a"), 1, 0, wide, 2), PARIS_CLOSED);
  WANT(paris_get_wide(&handle, bytes("a"), 1, PARIS_END, wide, 2, &told), PARIS_CLOSED);
  WANT(paris_part(&handle, bytes("a"), 1, PARIS_END, 0, room, 4, &told), PARIS_CLOSED);
  WANT(paris_count(&handle, bytes("a"), 1, PARIS_END, &told), PARIS_CLOSED);
  WANT(paris_summary(&handle, bytes("a"), 1, PARIS_END, stretches, 1, &told), PARIS_CLOSED);
  WANT(paris_differs(&handle, &other, bytes("a"), 1, PARIS_END, text, 1, &told), PARIS_CLOSED);
  WANT(paris_rows(&handle, room, 4, &len), PARIS_CLOSED);
  WANT(paris_settle(&handle, &told), PARIS_CLOSED);
  WANT(paris_faults(&handle, room, 4, &len), PARIS_CLOSED);
  WANT(len, 7);
  WANT(told, 7);
  WANT(room[0], 7);
  WANT(wide[0].high, 7);
  WANT(stretches[0].others, 7);
  WANT(text[0], 7);
}

static void open_twice_and_close_twice(void) {
  paris_handle handle = {0};
  WANT(paris_open(&handle), PARIS_OK);
  WANT_REPLY(&handle, "set s 4", "ok\n");
  WANT(paris_open(&handle), PARIS_OK);
  WANT_REPLY(&handle, "set s 4", "ok\n");
  WANT_REPLY(&handle, "set s 4", "refused 3\n");
  WANT_REPLY(&handle, "# a remark", "");
  WANT(paris_close(&handle), PARIS_OK);
  WANT(paris_close(&handle), PARIS_CLOSED);
}

static void profiles(void) {
  paris_handle handle = {0};
  uint64_t ran = 0;
  WANT(paris_open_profile(&handle, 0), PARIS_NO_PROFILE);
  WANT(paris_open_profile(&handle, UINT32_MAX), PARIS_NO_PROFILE);
  WANT(paris_close(&handle), PARIS_CLOSED);
  WANT(paris_open_profile(&handle, 1), PARIS_OK);
  WANT_REPLY(&handle, "set s 4", "ok\n");
  WANT_REPLY(&handle, "field a s 65", "refused 6\n");
  WANT(paris_open_profile(&handle, 3), PARIS_NO_PROFILE);
  WANT_REPLY(&handle, "field a s 64", "ok\n");
  WANT(paris_open_profile(&handle, 2), PARIS_OK);
  WANT_REPLY(&handle, "paris 2", "refused 20 1\n");
  WANT_REPLY(&handle, "set s 4", "ok\n");
  WANT_REPLY(&handle, "field a s 129", "refused 6\n");
  WANT_REPLY(&handle, "field a s 128", "ok\n");
  WANT(paris_open(&handle), PARIS_OK);
  WANT_REPLY(&handle, "# a remark", "");
  WANT_REPLY(&handle, "paris 2", "ok\n");
  WANT_REPLY(&handle, "paris 1", "refused 20 1\n");
  WANT_REPLY(&handle, "set s 4", "ok\n");
  WANT_REPLY(&handle, "field a s 65", "ok\n");
  WANT(paris_open(&handle), PARIS_OK);
  WANT_REPLY(&handle, "paris 3", "refused 20 7\n");
  WANT_REPLY(&handle, "paris 2", "refused 20 1\n");
  WANT(paris_open(&handle), PARIS_OK);
  WANT(paris_settle(&handle, &ran), PARIS_OK);
  WANT_REPLY(&handle, "paris 2", "refused 20 1\n");
  WANT(paris_close(&handle), PARIS_OK);
}

static void want_wide(int line, paris_handle *handle, const char *key, uint64_t place, const paris_wide *wanted) {
  paris_wide room[2] = {{9, 9}, {9, 9}};
  uint64_t told = 0;
  WANT_AT(line, paris_get_wide(handle, bytes(key), strlen(key), place, room, 2, &told), PARIS_OK);
  WANT_AT(line, told, 2);
  for (size_t i = 0; i < 2; i++) {
    WANT_AT(line, room[i].low, wanted[i].low);
    WANT_AT(line, room[i].high, wanted[i].high);
  }
}

#define WANT_WIDE(handle, key, place, wanted) want_wide(__LINE__, handle, key, place, wanted)

static void wide_numbers(void) {
  paris_handle handle = {0};
  static const uint64_t words[2] = {UINT64_MAX, 7};
  static const paris_wide of_words[2] = {{UINT64_MAX, 0}, {7, 0}}, a[2] = {{UINT64_MAX, UINT64_MAX}, {0, 1}}, a_again[2] = {{3, 5}, {0, 1}};
  static const paris_wide sum[2] = {{UINT64_MAX - 1, 1}, {0, 0}}, small[2] = {{1, 0}, {255, 0}}, too_wide[1] = {{0, 2}};
  uint64_t room[2] = {9, 9}, told = 0, ran = 0;
  WANT(paris_open_profile(&handle, 2), PARIS_OK);
  WANT_REPLY(&handle, "set s 2", "ok\n");
  WANT_REPLY(&handle, "field a s 128", "ok\n");
  WANT_REPLY(&handle, "field b s 65", "ok\n");
  WANT_REPLY(&handle, "field c s 8", "ok\n");
  WANT(paris_set(&handle, bytes("a"), 1, 0, words, 2), PARIS_OK);
  WANT_REPLY(&handle, "show a end", "values 18446744073709551615 7\n");
  WANT_WIDE(&handle, "a", PARIS_END, of_words);
  WANT(paris_get(&handle, bytes("a"), 1, PARIS_END, room, 2, &told), PARIS_TOO_WIDE);
  WANT(paris_get(&handle, bytes("b"), 1, PARIS_END, room, 2, &told), PARIS_TOO_WIDE);
  WANT(room[0], 9);
  WANT(room[1], 9);
  WANT(paris_set_wide(&handle, bytes("a"), 1, 0, a, 2), PARIS_OK);
  WANT_WIDE(&handle, "a", PARIS_START, a);
  WANT_REPLY(&handle, "show a start", "values 340282366920938463463374607431768211455 18446744073709551616\n");
  WANT_REPLY(&handle, "input a 0 92233720368547758083", "ok\n");
  WANT_WIDE(&handle, "a", PARIS_START, a_again);
  WANT(paris_set_wide(&handle, bytes("a"), 1, 0, a, 1), PARIS_OK);
  WANT(paris_set_wide(&handle, bytes("b"), 1, 0, too_wide, 1), 9);
  WANT(paris_set_wide(&handle, bytes("b"), 1, 1, a, 2), 8);
  WANT(paris_set_wide(&handle, bytes("d"), 1, 0, a, 2), 7);
  WANT(paris_set_wide(&handle, bytes("1"), 1, 0, a, 2), PARIS_NO_KEY);
  WANT_REPLY(&handle, "insert end u-add-3-1L b a a 65", "row 1\n");
  paris_wide left[2] = {{9, 9}, {9, 9}};
  WANT(paris_get_wide(&handle, bytes("b"), 1, PARIS_END, left, 2, &told), PARIS_PENDING);
  WANT(told, 1);
  WANT(paris_get_wide(&handle, bytes("b"), 1, PARIS_START, left, 1, &told), PARIS_WRONG_ROOM);
  WANT(told, 2);
  WANT(paris_get_wide(&handle, bytes("b"), 1, 2, left, 2, &told), 10);
  WANT(paris_get_wide(&handle, bytes("d"), 1, PARIS_END, left, 2, &told), 7);
  WANT(paris_get_wide(&handle, bytes("s.c"), 3, PARIS_END, left, 2, &told), PARIS_NO_KEY);
  WANT(left[0].low, 9);
  WANT(left[1].high, 9);
  WANT(paris_settle(&handle, &ran), PARIS_OK);
  WANT_WIDE(&handle, "b", PARIS_END, sum);
  WANT(paris_set_wide(&handle, bytes("c"), 1, 0, small, 2), PARIS_OK);
  WANT_WIDE(&handle, "c", PARIS_END, small);
  WANT(paris_get(&handle, bytes("c"), 1, PARIS_END, room, 2, &told), PARIS_OK);
  WANT(room[1], 255);
  WANT(paris_close(&handle), PARIS_OK);
}

static void declare(paris_handle *handle) {
  WANT(paris_open(handle), PARIS_OK);
  WANT_REPLY(handle, "set s 4", "ok\n");
  WANT_REPLY(handle, "field a s 64", "ok\n");
  WANT_REPLY(handle, "field b s 64", "ok\n");
  WANT_REPLY(handle, "field c s 64", "ok\n");
}

static void sums_of_arrays(void) {
  paris_handle handle = {0};
  declare(&handle);
  const uint64_t a[4] = {10, 20, 30, UINT64_MAX}, b[4] = {1, 2, 3, 1}, flags[4] = {1, 0, 1, 1}, wide[1] = {2};
  uint64_t room[4] = {0}, told = 0, ran = 0;
  size_t count = 0;
  WANT(paris_set(&handle, bytes("a"), 1, 0, a, 4), PARIS_OK);
  WANT(paris_set(&handle, bytes("b"), 1, 0, b, 2), PARIS_OK);
  WANT(paris_set(&handle, bytes("b"), 1, 2, b + 2, 2), PARIS_OK);
  WANT(paris_set(&handle, bytes("s.context"), 9, 0, flags, 4), PARIS_OK);
  WANT(paris_set(&handle, bytes("s.context"), 9, 0, wide, 1), 9);
  WANT(paris_set(&handle, bytes("b"), 1, 2, b, 4), 8);
  WANT(paris_set(&handle, bytes("d"), 1, 0, b, 4), 7);
  WANT(paris_set(&handle, bytes("1"), 1, 0, b, 4), PARIS_NO_KEY);
  WANT_REPLY(&handle, "insert end u-add-3-1L c a b 64", "row 1\n");
  WANT(paris_get(&handle, bytes("c"), 1, PARIS_END, room, 4, &told), PARIS_PENDING);
  WANT(told, 1);
  WANT(paris_get(&handle, bytes("c"), 1, PARIS_START, room, 3, &told), PARIS_WRONG_ROOM);
  WANT(told, 4);
  WANT(paris_settle(&handle, &ran), PARIS_OK);
  WANT(ran, 1);
  WANT(paris_settle(&handle, &ran), PARIS_OK);
  WANT(ran, 0);
  WANT(paris_get(&handle, bytes("c"), 1, PARIS_END, room, 4, &told), PARIS_OK);
  WANT(told, 4);
  WANT(room[0], 11);
  WANT(room[1], 0);
  WANT(room[2], 33);
  WANT(room[3], 0);
  WANT(paris_get(&handle, bytes("c"), 1, 1, room, 4, &told), PARIS_OK);
  WANT(room[2], 33);
  WANT(paris_get(&handle, bytes("c"), 1, 2, room, 4, &told), 10);
  WANT(paris_get(&handle, bytes("d"), 1, PARIS_END, room, 4, &told), 7);
  WANT(paris_get(&handle, bytes("s.c"), 3, PARIS_END, room, 4, &told), PARIS_NO_KEY);
  WANT(paris_rows(&handle, room, 4, &count), PARIS_WRONG_ROOM);
  WANT(count, 1);
  WANT(paris_rows(&handle, room, 1, &count), PARIS_OK);
  WANT(room[0], 1);
  WANT(paris_close(&handle), PARIS_OK);
}

static void want_part(int line, paris_handle *handle, uint64_t place, uint64_t from, size_t len, const uint64_t *wanted) {
  uint64_t room[5] = {9, 9, 9, 9, 9}, told = 0;
  WANT_AT(line, paris_part(handle, bytes("a"), 1, place, from, room, len, &told), PARIS_OK);
  WANT_AT(line, told, 4);
  for (size_t i = 0; i < 5; i++) WANT_AT(line, room[i], i < len ? wanted[from + i] : 9);
}

static void parts_of_arrays(void) {
  static const uint64_t a[4] = {10, 20, 30, UINT64_MAX};
  paris_handle handle = {0};
  uint64_t room[5] = {9, 9, 9, 9, 9}, told = 0;
  declare(&handle);
  WANT(paris_set(&handle, bytes("a"), 1, 0, a, 4), PARIS_OK);
  for (uint64_t from = 0; from <= 4; from++) {
    for (size_t len = 0; from + len <= 4; len++) want_part(__LINE__, &handle, PARIS_END, from, len, a);
    WANT(paris_part(&handle, bytes("a"), 1, PARIS_START, from, room, 5 - from, &told), PARIS_WRONG_ROOM);
    WANT(told, 4);
  }
  WANT(paris_part(&handle, bytes("a"), 1, PARIS_START, 5, room, 0, &told), PARIS_WRONG_ROOM);
  WANT(paris_part(&handle, bytes("a"), 1, PARIS_START, UINT64_MAX, room, 5, &told), PARIS_WRONG_ROOM);
  WANT(paris_part(&handle, bytes("d"), 1, PARIS_END, 0, room, 4, &told), 7);
  WANT(paris_part(&handle, bytes("a"), 1, 1, 0, room, 4, &told), 10);
  WANT(paris_part(&handle, bytes("1"), 1, PARIS_END, 0, room, 4, &told), PARIS_NO_KEY);
  WANT_REPLY(&handle, "insert end u-add-3-1L a a b 64", "row 1\n");
  WANT(paris_part(&handle, bytes("a"), 1, PARIS_END, 0, room, 4, &told), PARIS_PENDING);
  WANT(told, 1);
  want_part(__LINE__, &handle, PARIS_START, 1, 2, a);
  WANT(paris_open_profile(&handle, 2), PARIS_OK);
  WANT_REPLY(&handle, "set s 4", "ok\n");
  WANT_REPLY(&handle, "field a s 65", "ok\n");
  WANT(paris_part(&handle, bytes("a"), 1, PARIS_END, 0, room, 4, &told), PARIS_TOO_WIDE);
  WANT(paris_part(&handle, bytes("a"), 1, PARIS_END, 4, room, 1, &told), PARIS_WRONG_ROOM);
  for (size_t i = 0; i < 5; i++) WANT(room[i], 9);
  WANT(paris_close(&handle), PARIS_OK);
}

static void counts_of_numbers(void) {
  static const uint64_t a[4] = {0, 20, 0, UINT64_MAX}, flags[4] = {1, 0, 0, 0};
  paris_handle handle = {0};
  uint64_t count = 9;
  declare(&handle);
  WANT(paris_count(&handle, bytes("a"), 1, PARIS_START, &count), PARIS_OK);
  WANT(count, 0);
  WANT(paris_count(&handle, bytes("s.context"), 9, PARIS_END, &count), PARIS_OK);
  WANT(count, 4);
  WANT(paris_set(&handle, bytes("a"), 1, 0, a, 4), PARIS_OK);
  WANT(paris_set(&handle, bytes("s.context"), 9, 0, flags, 4), PARIS_OK);
  WANT(paris_count(&handle, bytes("a"), 1, PARIS_END, &count), PARIS_OK);
  WANT(count, 2);
  WANT(paris_count(&handle, bytes("s.context"), 9, PARIS_END, &count), PARIS_OK);
  WANT(count, 1);
  WANT(paris_count(&handle, bytes("d"), 1, PARIS_END, &count), 7);
  WANT(paris_count(&handle, bytes("a"), 1, 1, &count), 10);
  WANT(paris_count(&handle, bytes("1"), 1, PARIS_END, &count), PARIS_NO_KEY);
  WANT_REPLY(&handle, "insert end u-add-3-1L c a b 64", "row 1\n");
  WANT(paris_count(&handle, bytes("c"), 1, PARIS_END, &count), PARIS_PENDING);
  WANT(count, 1);
  WANT(paris_close(&handle), PARIS_OK);
}

enum { WIDE_ONES = 128 };

static bool is_less(paris_wide one, paris_wide other) { return one.high < other.high || (one.high == other.high && one.low < other.low); }

/* What wide numbers come to, by their words. */
static paris_stretch summed_up(const paris_wide *numbers, size_t len) {
  paris_stretch all = {numbers[0], numbers[0], {0, 0, 0}, 0};
  for (size_t i = 0; i < len; i++) {
    paris_sum *sum = &all.sum;
    if (is_less(numbers[i], all.least)) all.least = numbers[i];
    if (is_less(all.greatest, numbers[i])) all.greatest = numbers[i];
    sum->low += numbers[i].low;
    uint64_t carry = sum->low < numbers[i].low;
    sum->middle += carry;
    sum->high += carry && !sum->middle;
    sum->middle += numbers[i].high;
    sum->high += sum->middle < numbers[i].high;
    all.others += numbers[i].low || numbers[i].high;
  }
  return all;
}

static bool is_stretch(const paris_stretch *one, const paris_stretch *other) { return !memcmp(one, other, sizeof *one); }

/* A session with numbers of 128 bits: small ones, great ones and zeros. */
static void declare_wide(paris_handle *handle, paris_wide *numbers) {
  WANT(paris_open_profile(handle, 2), PARIS_OK);
  WANT_REPLY(handle, "set s 128", "ok\n");
  WANT_REPLY(handle, "field a s 128", "ok\n");
  for (uint64_t i = 0; i < WIDE_ONES; i++) {
    paris_wide small = {(i * 37) % 101, 0}, great = {UINT64_MAX - i, UINT64_MAX - (i * 53) % 97}, none = {0, 0};
    numbers[i] = i % 3 == 0 ? great : i % 7 == 0 ? none : small;
  }
  WANT(paris_set_wide(handle, bytes("a"), 1, 0, numbers, WIDE_ONES), PARIS_OK);
}

static void summaries_of_stretches(void) {
  static paris_wide numbers[WIDE_ONES];
  static paris_stretch room[WIDE_ONES + 1];
  paris_handle handle = {0};
  uint64_t told = 0;
  declare_wide(&handle, numbers);
  for (size_t parts = 1; parts <= WIDE_ONES; parts++) {
    memset(room, 9, sizeof room);
    paris_stretch after = room[parts];
    WANT(paris_summary(&handle, bytes("a"), 1, PARIS_END, room, parts, &told), PARIS_OK);
    WANT(told, WIDE_ONES);
    for (size_t i = 0; i < parts; i++) {
      size_t start = i * WIDE_ONES / parts, stop = (i + 1) * WIDE_ONES / parts;
      paris_stretch wanted = summed_up(numbers + start, stop - start);
      WANT(is_stretch(&room[i], &wanted), true);
    }
    WANT(is_stretch(&room[parts], &after), true);
  }
  paris_stretch before = room[0];
  WANT(paris_summary(&handle, bytes("a"), 1, PARIS_END, room, 0, &told), PARIS_WRONG_ROOM);
  WANT(told, WIDE_ONES);
  told = 0;
  WANT(paris_summary(&handle, bytes("a"), 1, PARIS_END, room, WIDE_ONES + 1, &told), PARIS_WRONG_ROOM);
  WANT(told, WIDE_ONES);
  WANT(paris_summary(&handle, bytes("d"), 1, PARIS_END, room, 1, &told), 7);
  WANT(paris_summary(&handle, bytes("a"), 1, 1, room, 1, &told), 10);
  WANT(paris_summary(&handle, bytes("1"), 1, PARIS_END, room, 1, &told), PARIS_NO_KEY);
  WANT_REPLY(&handle, "insert end lognot-2-1L a a 128", "row 1\n");
  WANT(paris_summary(&handle, bytes("a"), 1, PARIS_END, room, 1, &told), PARIS_PENDING);
  WANT(told, 1);
  WANT(is_stretch(&room[0], &before), true);
  WANT(paris_close(&handle), PARIS_OK);
}

/* However many the stretches are, the one that has the processor differs and no other. */
static void want_difference(int line, paris_handle *handle, paris_handle *other, size_t processor) {
  for (size_t parts = 1; parts <= WIDE_ONES; parts++) {
    uint8_t room[WIDE_ONES + 1] = {0};
    uint64_t told = 0;
    memset(room, 9, sizeof room);
    WANT_AT(line, paris_differs(handle, other, bytes("a"), 1, PARIS_END, room, parts, &told), PARIS_OK);
    WANT_AT(line, told, WIDE_ONES);
    for (size_t i = 0; i < parts; i++) {
      bool has_it = i * WIDE_ONES / parts <= processor && processor < (i + 1) * WIDE_ONES / parts;
      WANT_AT(line, room[i], has_it);
    }
    WANT_AT(line, room[parts], 9);
  }
}

static void differences_of_sessions(void) {
  static paris_wide numbers[WIDE_ONES];
  static const paris_wide two[1] = {{2, 0}}, top[1] = {{0, UINT64_C(1) << 63}};
  paris_handle handle = {0}, other = {0};
  uint8_t room[2] = {9, 9};
  uint64_t told = 0;
  declare_wide(&handle, numbers);
  WANT(paris_differs(&handle, &other, bytes("a"), 1, PARIS_END, room, 2, &told), PARIS_CLOSED);
  WANT(paris_differs(&other, &handle, bytes("a"), 1, PARIS_END, room, 2, &told), PARIS_CLOSED);
  WANT(paris_snapshot(&handle, &other), PARIS_OK);
  want_difference(__LINE__, &handle, &other, WIDE_ONES);
  for (size_t at = 0; at < WIDE_ONES; at += 21) {
    WANT(paris_set_wide(&other, bytes("a"), 1, at, at % 2 ? two : top, 1), PARIS_OK);
    want_difference(__LINE__, &handle, &other, at);
    want_difference(__LINE__, &other, &handle, at);
    WANT(paris_set_wide(&other, bytes("a"), 1, at, numbers + at, 1), PARIS_OK);
  }
  want_difference(__LINE__, &handle, &other, WIDE_ONES);
  WANT(paris_differs(&handle, &other, bytes("a"), 1, PARIS_END, room, 0, &told), PARIS_WRONG_ROOM);
  WANT(told, WIDE_ONES);
  WANT(paris_differs(&handle, &other, bytes("1"), 1, PARIS_END, room, 2, &told), PARIS_NO_KEY);
  WANT(paris_differs(&handle, &other, bytes("d"), 1, PARIS_END, room, 2, &told), 7);
  WANT_REPLY(&other, "insert end lognot-2-1L a a 128", "row 1\n");
  WANT(paris_differs(&handle, &other, bytes("a"), 1, PARIS_END, room, 2, &told), PARIS_PENDING);
  WANT(told, 1);
  WANT(paris_differs(&other, &handle, bytes("a"), 1, PARIS_END, room, 2, &told), PARIS_PENDING);
  WANT(told, 1);
  WANT(paris_differs(&handle, &other, bytes("a"), 1, 1, room, 2, &told), 10);
  WANT(paris_open(&other), PARIS_OK);
  WANT_REPLY(&other, "set s 128", "ok\n");
  WANT(paris_differs(&handle, &other, bytes("a"), 1, PARIS_END, room, 2, &told), 7);
  WANT_REPLY(&other, "field a s 64", "ok\n");
  WANT(paris_differs(&handle, &other, bytes("a"), 1, PARIS_END, room, 2, &told), PARIS_UNLIKE);
  WANT(paris_open_profile(&other, 2), PARIS_OK);
  WANT_REPLY(&other, "set s 64", "ok\n");
  WANT_REPLY(&other, "field a s 128", "ok\n");
  WANT(paris_differs(&handle, &other, bytes("a"), 1, PARIS_END, room, 2, &told), PARIS_UNLIKE);
  WANT(room[0], 9);
  WANT(room[1], 9);
  WANT(paris_close(&other), PARIS_OK);
  WANT(paris_close(&handle), PARIS_OK);
}

/* A session with two sends on four processors: the first one's addresses are 0 0 1 1, so messages meet at the processors 0 and 1, and
   the second one's 2 4 2 0, so processor 1 holds an address outside the set. */
static void send_twice(paris_handle *handle) {
  WANT(paris_open(handle), PARIS_OK);
  WANT_REPLY(handle, "set s 4", "ok\n");
  WANT_REPLY(handle, "field d s 8", "ok\n");
  WANT_REPLY(handle, "field v s 8", "ok\n");
  WANT_REPLY(handle, "field near s 3", "ok\n");
  WANT_REPLY(handle, "field far s 3", "ok\n");
  const uint64_t numbers[4] = {5, 6, 7, 8}, meet[4] = {0, 0, 1, 1}, outside[4] = {2, 4, 2, 0};
  WANT(paris_set(handle, bytes("v"), 1, 0, numbers, 4), PARIS_OK);
  WANT(paris_set(handle, bytes("near"), 4, 0, meet, 4), PARIS_OK);
  WANT(paris_set(handle, bytes("far"), 3, 0, outside, 4), PARIS_OK);
  WANT_REPLY(handle, "insert end send-1L d near v 8 none", "row 1\n");
  WANT_REPLY(handle, "insert end send-1L d far v 8 none", "row 2\n");
}

static void want_faults(int line, paris_handle *handle, size_t words, size_t wanted_count, const uint64_t *wanted) {
  uint64_t room[8] = {9, 9, 9, 9, 9, 9, 9, 9};
  size_t count = 99;
  WANT_AT(line, paris_faults(handle, room, words, &count), PARIS_OK);
  WANT_AT(line, count, wanted_count);
  for (size_t i = 0; i < 8; i++) WANT_AT(line, room[i], i < words && i < 3 * wanted_count ? wanted[i] : 9);
}

static void rows_that_are_refused(void) {
  static const uint64_t both[6] = {1, PARIS_COLLISION, 0, 2, PARIS_BAD_ADDRESS, 1};
  paris_handle handle = {0};
  uint64_t ran = 0, told = 0, d[4] = {9, 9, 9, 9};
  send_twice(&handle);
  want_faults(__LINE__, &handle, 8, 0, both);
  WANT(paris_settle(&handle, &ran), PARIS_OK);
  WANT(ran, 2);
  for (size_t words = 0; words <= 8; words++) want_faults(__LINE__, &handle, words, 2, both);
  WANT_REPLY(&handle, "faults", "faults 2\n1 collision 0\n2 bad-address 1\n");
  WANT(paris_get(&handle, bytes("d"), 1, PARIS_END, d, 4, &told), PARIS_OK);
  for (size_t i = 0; i < 4; i++) WANT(d[i], 0);
  WANT_REPLY(&handle, "replace 1 send-with-u-add-1L d near v 8 none", "ok\n");
  WANT(paris_settle(&handle, &ran), PARIS_OK);
  want_faults(__LINE__, &handle, 8, 1, both + 3);
  WANT(paris_get(&handle, bytes("d"), 1, 1, d, 4, &told), PARIS_OK);
  WANT(d[0], 5 + 6);
  WANT(d[1], 7 + 8);
  WANT(paris_close(&handle), PARIS_OK);
}

static void texts_and_short_rooms(void) {
  uint8_t room[32] = {0};
  WANT(paris_fault_text(PARIS_CLOSED, room, sizeof room), strlen("the handle is closed"));
  WANT(strcmp((const char *)room, "the handle is closed"), 0);
  memset(room, 'x', sizeof room);
  WANT(paris_fault_text(PARIS_NO_KEY, room, 8), strlen("the word is no key"));
  WANT(memcmp(room, "the wordxxxx", 12), 0);
  WANT(paris_cause_text(PARIS_COLLISION, room, 3), strlen("two messages meet at a processor"));
  WANT(memcmp(room, "two wordxxxx", 12), 0);
  WANT(paris_fault_text(PARIS_OK, room, sizeof room), 0);
  WANT(paris_fault_text(UINT32_MAX, room, sizeof room), 0);
  WANT(paris_cause_text(0, room, sizeof room), 0);
  WANT(memcmp(room, "two wordxxxx", 12), 0);
}

static void scripts_and_short_rooms(void) {
  uint8_t room[8] = "xxxxxxx";
  size_t len = 0;
  WANT(paris_script(bytes("set s 4\ntake"), 12, room, 5, &len), PARIS_OK);
  WANT(len, 11);
  WANT(memcmp(room, "ok\nnoxx", 7), 0);
  paris_handle handle = {0};
  WANT(paris_open(&handle), PARIS_OK);
  WANT(paris_answer(&handle, bytes("take"), 4, &len), PARIS_OK);
  WANT(len, 8);
  WANT(paris_reply(&handle, room, 3), PARIS_OK);
  WANT(memcmp(room, "notnoxx", 7), 0);
  WANT(paris_close(&handle), PARIS_OK);
}

static void a_thousand_handles(void) {
  for (int i = 0; i < 1000; i++) {
    paris_handle handle = {0};
    declare(&handle);
    WANT(paris_close(&handle), PARIS_OK);
  }
}

static void a_thousand_handles_at_once(void) {
  static paris_handle handles[1000];
  for (uint64_t i = 0; i < 1000; i++) {
    declare(&handles[i]);
    const uint64_t numbers[1] = {i};
    WANT(paris_set(&handles[i], bytes("a"), 1, 2, numbers, 1), PARIS_OK);
  }
  for (uint64_t i = 0; i < 1000; i++) {
    uint64_t room[4] = {0}, told = 0;
    WANT(paris_get(&handles[i], bytes("a"), 1, PARIS_END, room, 4, &told), PARIS_OK);
    WANT(room[2], i);
    WANT(paris_close(&handles[i]), PARIS_OK);
  }
}

int main(void) {
  closed_handles();
  open_twice_and_close_twice();
  profiles();
  wide_numbers();
  sums_of_arrays();
  parts_of_arrays();
  counts_of_numbers();
  summaries_of_stretches();
  differences_of_sessions();
  rows_that_are_refused();
  texts_and_short_rooms();
  scripts_and_short_rooms();
  a_thousand_handles();
  a_thousand_handles_at_once();
  return 0;
}
