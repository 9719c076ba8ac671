/* Each call of orders, snapshots and unsettled rows, at each status and each verdict that needs no want of memory, and a session whose
   rows are run by four threads. */
#include "want.h"

#include <pthread.h>

/* A session with three rows on four processors: the second reads what the first writes, and the third reads neither's. */
static void three_rows(paris_handle *handle) {
  static const uint64_t a[4] = {10, 20, 30, 40}, b[4] = {1, 2, 3, 4};
  WANT(paris_open(handle), PARIS_OK);
  WANT_REPLY(handle, "set s 4", "ok\n");
  WANT_REPLY(handle, "field a s 8", "ok\n");
  WANT_REPLY(handle, "field b s 8", "ok\n");
  WANT_REPLY(handle, "field c s 8", "ok\n");
  WANT_REPLY(handle, "field d s 8", "ok\n");
  WANT(paris_set(handle, bytes("a"), 1, 0, a, 4), PARIS_OK);
  WANT(paris_set(handle, bytes("b"), 1, 0, b, 4), PARIS_OK);
  WANT_REPLY(handle, "insert end u-move-1L c a 8", "row 1\n");
  WANT_REPLY(handle, "insert end u-max-3-1L c c b 8", "row 2\n");
  WANT_REPLY(handle, "insert end u-max-3-1L d a b 8", "row 3\n");
}

/* The id, the edition and the status of each row that `list` lists. */
static void want_rows(int line, paris_handle *handle, const char *wanted) {
  uint8_t room[512] = {0};
  char rows[128] = {0};
  size_t len = 0;
  WANT_AT(line, paris_answer(handle, bytes("list"), 4, &len), PARIS_OK);
  WANT_AT(line, paris_reply(handle, room, sizeof room - 1), PARIS_OK);
  for (const char *at = strchr((const char *)room, '\n'); at[1]; at = strchr(at + 1, '\n')) {
    unsigned long long id = 0, edition = 0;
    char status[16] = {0};
    size_t used = strlen(rows);
    WANT_AT(line, sscanf(at, "%llu edition %llu %15s", &id, &edition, status), 3);
    snprintf(rows + used, sizeof rows - used, "%s%llu %llu %s", used ? ", " : "", id, edition, status);
  }
  if (!strcmp(rows, wanted)) return;
  fprintf(stderr, "%s: line %d: the rows are %s\n", __FILE__, line, rows);
  exit(1);
}

#define WANT_ROWS(handle, wanted) want_rows(__LINE__, handle, wanted)

static void want_order(int line, paris_order *order, uint64_t wanted_row, uint64_t wanted_edition, bool wanted_run) {
  uint64_t row = 0, edition = 0;
  bool is_run = !wanted_run;
  WANT_AT(line, paris_order_row(order, &row, &edition, &is_run), PARIS_OK);
  WANT_AT(line, row, wanted_row);
  WANT_AT(line, edition, wanted_edition);
  WANT_AT(line, is_run, wanted_run);
}

#define WANT_ORDER(order, row, edition, is_run) want_order(__LINE__, order, row, edition, is_run)

static uint64_t want_brought(int line, paris_handle *handle, paris_order *order, uint32_t wanted) {
  uint32_t verdict = 0;
  uint64_t edition = 0;
  WANT_AT(line, paris_bring(handle, order, &verdict, &edition), PARIS_OK);
  WANT_AT(line, verdict, wanted);
  return edition;
}

#define WANT_BROUGHT(handle, order, verdict) want_brought(__LINE__, handle, order, verdict)

static void closed_ones(void) {
  paris_handle handle = {0}, other = {0};
  paris_order order = {0};
  uint64_t row = 7, edition = 7;
  uint32_t verdict = 7;
  bool is_run = true;
  WANT(paris_take(&handle, &order), PARIS_CLOSED);
  WANT(paris_execute(&order), PARIS_CLOSED);
  WANT(paris_bring(&handle, &order, &verdict, &edition), PARIS_CLOSED);
  WANT(paris_order_row(&order, &row, &edition, &is_run), PARIS_CLOSED);
  WANT(paris_order_close(&order), PARIS_CLOSED);
  WANT(paris_snapshot(&handle, &other), PARIS_CLOSED);
  WANT(paris_release(&handle), PARIS_CLOSED);
  three_rows(&other);
  WANT(paris_take(&other, &order), PARIS_OK);
  WANT(paris_bring(&handle, &order, &verdict, &edition), PARIS_CLOSED);
  WANT_ORDER(&order, 1, 8, false);
  WANT(paris_take(&handle, &order), PARIS_CLOSED);
  WANT(paris_order_close(&order), PARIS_CLOSED);
  WANT(paris_bring(&other, &order, &verdict, &edition), PARIS_CLOSED);
  WANT(paris_snapshot(&handle, &other), PARIS_CLOSED);
  WANT(paris_close(&other), PARIS_CLOSED);
  WANT(verdict, 7);
  WANT(edition, 7);
}

static void orders_are_taken_and_brought(void) {
  paris_handle handle = {0};
  paris_order first = {0}, third = {0};
  uint32_t verdict = 7;
  uint64_t edition = 7, c[4] = {0}, told = 0, ran = 0;
  three_rows(&handle);
  WANT(paris_take(&handle, &first), PARIS_OK);
  WANT_ORDER(&first, 1, 8, false);
  WANT(paris_bring(&handle, &first, &verdict, &edition), PARIS_NOT_RUN);
  WANT(verdict, 7);
  WANT(paris_take(&handle, &third), PARIS_OK);
  WANT_ORDER(&third, 3, 10, false);
  WANT_ROWS(&handle, "1 8 out, 2 9 waiting, 3 10 out");
  WANT(paris_execute(&first), PARIS_OK);
  WANT_ORDER(&first, 1, 8, true);
  WANT(paris_execute(&first), PARIS_OK);
  WANT_BROUGHT(&handle, &first, PARIS_KEPT);
  WANT_BROUGHT(&handle, &first, PARIS_REPEATED);
  WANT_ORDER(&first, 1, 8, true);
  WANT_ROWS(&handle, "1 8 settled, 2 9 waiting, 3 10 out");
  WANT(paris_take(&handle, &first), PARIS_OK);
  WANT_ORDER(&first, 2, 9, false);
  WANT(paris_take(&handle, &third), PARIS_NOTHING);
  WANT(paris_order_close(&third), PARIS_CLOSED);
  WANT(paris_execute(&first), PARIS_OK);
  WANT_BROUGHT(&handle, &first, PARIS_KEPT);
  WANT(paris_get(&handle, bytes("c"), 1, PARIS_END, c, 4, &told), PARIS_OK);
  WANT(c[3], 40);
  WANT(paris_settle(&handle, &ran), PARIS_OK);
  WANT(ran, 1);
  WANT(paris_take(&handle, &first), PARIS_NOTHING);
  WANT(paris_close(&handle), PARIS_OK);
}

static void late_results(void) {
  paris_handle handle = {0}, other = {0};
  paris_order order = {0}, again = {0};
  uint64_t seven[1] = {7};
  three_rows(&handle);
  three_rows(&other);
  WANT(paris_take(&handle, &order), PARIS_OK);
  WANT(paris_execute(&order), PARIS_OK);
  WANT(paris_set(&other, bytes("a"), 1, 0, seven, 1), PARIS_OK);
  WANT_ROWS(&other, "1 11 waiting, 2 11 waiting, 3 11 waiting");
  WANT(WANT_BROUGHT(&other, &order, PARIS_STALE), 11);
  WANT_BROUGHT(&handle, &order, PARIS_KEPT);
  WANT_REPLY(&handle, "delete 1", "ok\n");
  WANT_BROUGHT(&handle, &order, PARIS_GONE);
  three_rows(&handle);
  WANT_BROUGHT(&handle, &order, PARIS_KEPT);
  WANT(paris_open(&handle), PARIS_OK);
  WANT_REPLY(&handle, "set s 4", "ok\n");
  WANT_REPLY(&handle, "field a s 8", "ok\n");
  WANT_REPLY(&handle, "field b s 8", "ok\n");
  WANT_REPLY(&handle, "field c s 8", "ok\n");
  WANT_REPLY(&handle, "field d s 8", "ok\n");
  WANT_REPLY(&handle, "input a 0 1", "ok\n");
  WANT_REPLY(&handle, "input a 0 2", "ok\n");
  WANT_REPLY(&handle, "insert end u-move-1L c a 8", "row 1\n");
  WANT_BROUGHT(&handle, &order, PARIS_FOREIGN);
  WANT(paris_take(&handle, &again), PARIS_OK);
  WANT_ORDER(&again, 1, 8, false);
  WANT(paris_close(&handle), PARIS_OK);
  WANT(paris_execute(&again), PARIS_OK);
  WANT(paris_order_close(&again), PARIS_OK);
  WANT(paris_order_close(&again), PARIS_CLOSED);
  WANT(paris_order_close(&order), PARIS_OK);
  WANT(paris_close(&other), PARIS_OK);
}

static void released_rows_wait(void) {
  paris_handle handle = {0};
  paris_order order = {0}, again = {0};
  three_rows(&handle);
  WANT(paris_take(&handle, &order), PARIS_OK);
  WANT_ROWS(&handle, "1 8 out, 2 9 waiting, 3 10 waiting");
  WANT(paris_release(&handle), PARIS_OK);
  WANT_ROWS(&handle, "1 8 waiting, 2 9 waiting, 3 10 waiting");
  WANT(paris_take(&handle, &again), PARIS_OK);
  WANT_ORDER(&again, 1, 8, false);
  WANT(paris_execute(&order), PARIS_OK);
  WANT_BROUGHT(&handle, &order, PARIS_KEPT);
  WANT(paris_execute(&again), PARIS_OK);
  WANT_BROUGHT(&handle, &again, PARIS_REPEATED);
  WANT(paris_order_close(&order), PARIS_OK);
  WANT(paris_order_close(&again), PARIS_OK);
  WANT(paris_close(&handle), PARIS_OK);
}

static void snapshots(void) {
  paris_handle handle = {0}, copy = {0};
  paris_order order = {0};
  uint64_t ran = 0;
  uint8_t room[4] = "xxx";
  three_rows(&handle);
  WANT_REPLY(&handle, "take", "order 1 row 1 edition 8\n");
  WANT(paris_take(&handle, &order), PARIS_OK);
  WANT(paris_open(&copy), PARIS_OK);
  WANT(paris_snapshot(&handle, &copy), PARIS_OK);
  WANT(paris_reply(&copy, room, 3), PARIS_OK);
  WANT(memcmp(room, "xxx", 3), 0);
  WANT_ROWS(&copy, "1 8 out, 2 9 waiting, 3 10 out");
  WANT(paris_execute(&order), PARIS_OK);
  WANT_BROUGHT(&copy, &order, PARIS_KEPT);
  WANT_REPLY(&copy, "bring 1", "kept\n");
  WANT_REPLY(&copy, "bring 2", "refused 22\n");
  WANT_REPLY(&copy, "delete 2", "ok\n");
  WANT_ROWS(&copy, "1 8 settled, 3 10 settled");
  WANT_ROWS(&handle, "1 8 out, 2 9 waiting, 3 10 out");
  WANT_BROUGHT(&handle, &order, PARIS_KEPT);
  WANT(paris_settle(&handle, &ran), PARIS_OK);
  WANT(ran, 2);
  WANT(paris_close(&handle), PARIS_OK);
  WANT_REPLY(&copy, "show d end", "values 10 20 30 40\n");
  WANT(paris_order_close(&order), PARIS_OK);
  WANT(paris_close(&copy), PARIS_OK);
}

/* Neither the counts of commands nor the orders of lines nor the reply that is kept are of these calls. */
static void no_commands(void) {
  paris_handle handle = {0}, copy = {0};
  paris_order order = {0};
  uint8_t room[8] = {0};
  WANT(paris_open(&handle), PARIS_OK);
  WANT(paris_take(&handle, &order), PARIS_NOTHING);
  WANT(paris_snapshot(&handle, &copy), PARIS_OK);
  WANT_REPLY(&handle, "paris 2", "ok\n");
  WANT_REPLY(&copy, "paris 2", "ok\n");
  WANT(paris_close(&copy), PARIS_OK);
  three_rows(&handle);
  WANT_REPLY(&handle, "# a remark", "");
  WANT_REPLY(&handle, "show b 1", "refused 20 8\n");
  WANT(paris_take(&handle, &order), PARIS_OK);
  WANT(paris_execute(&order), PARIS_OK);
  WANT_BROUGHT(&handle, &order, PARIS_KEPT);
  WANT(paris_release(&handle), PARIS_OK);
  WANT(paris_reply(&handle, room, 7), PARIS_OK);
  WANT(strcmp((const char *)room, "refused"), 0);
  WANT_REPLY(&handle, "take", "order 1 row 2 edition 9\n");
  WANT(paris_order_close(&order), PARIS_OK);
  WANT(paris_close(&handle), PARIS_OK);
}

static void want_unsettled(int line, paris_handle *handle, size_t wanted, uint64_t first, uint64_t second) {
  uint64_t room[2] = {7, 7};
  size_t count = 0;
  WANT_AT(line, paris_unsettled(handle, room, 2, &count), PARIS_OK);
  WANT_AT(line, count, wanted);
  WANT_AT(line, room[0], first);
  WANT_AT(line, room[1], second);
}

#define WANT_UNSETTLED(handle, count, first, second) want_unsettled(__LINE__, handle, count, first, second)

static void rows_are_run(void) {
  static const uint64_t nine[1] = {9};
  paris_handle handle = {0};
  uint64_t ran = 7;
  three_rows(&handle);
  WANT_UNSETTLED(&handle, 3, 1, 2);
  WANT(paris_run(&handle, 0, &ran), PARIS_OK);
  WANT(ran, 0);
  WANT(paris_run(&handle, 2, &ran), PARIS_OK);
  WANT(ran, 2);
  WANT_UNSETTLED(&handle, 1, 3, 7);
  WANT(paris_run(&handle, 5, &ran), PARIS_OK);
  WANT(ran, 1);
  WANT(paris_run(&handle, UINT64_MAX, &ran), PARIS_OK);
  WANT(ran, 0);
  WANT_UNSETTLED(&handle, 0, 7, 7);
  WANT(paris_set(&handle, bytes("b"), 1, 0, nine, 1), PARIS_OK);
  WANT_UNSETTLED(&handle, 2, 2, 3);
  WANT(paris_close(&handle), PARIS_OK);
}

/* Rows 2 and 3 read b. A room of one word has the first id, and the count is of all. */
static void rows_that_ran_are_told(void) {
  static const uint64_t nine[1] = {9};
  paris_handle handle = {0};
  uint64_t ran = 7, room[3] = {7, 7, 7};
  WANT(paris_run_ids(&handle, 2, room, 3, &ran), PARIS_CLOSED);
  WANT(paris_settle_for_ids(&handle, bytes("d"), 1, PARIS_END, room, 3, &ran), PARIS_CLOSED);
  three_rows(&handle);
  WANT(paris_run_ids(&handle, 2, room, 3, &ran), PARIS_OK);
  WANT(ran, 2);
  WANT(room[0], 1);
  WANT(room[1], 2);
  WANT(room[2], 7);
  WANT(paris_set(&handle, bytes("b"), 1, 0, nine, 1), PARIS_OK);
  WANT(paris_settle_for_ids(&handle, bytes("d"), 1, PARIS_END, room, 3, &ran), PARIS_OK);
  WANT(ran, 1);
  WANT(room[0], 3);
  WANT(room[1], 2);
  WANT(paris_settle_for_ids(&handle, bytes("d"), 1, PARIS_END, room, 3, &ran), PARIS_OK);
  WANT(ran, 0);
  WANT(room[0], 3);
  WANT(paris_set(&handle, bytes("a"), 1, 0, nine, 1), PARIS_OK);
  WANT(paris_run_ids(&handle, UINT64_MAX, room, 1, &ran), PARIS_OK);
  WANT(ran, 3);
  WANT(room[0], 1);
  WANT(room[1], 2);
  WANT(paris_settle_for_ids(&handle, bytes("1"), 1, PARIS_END, room, 3, &ran), PARIS_NO_KEY);
  WANT(paris_close(&handle), PARIS_OK);
}

static void want_touched(int line, paris_handle *handle, uint64_t since, size_t wanted, uint64_t first, uint64_t second, uint64_t accepted) {
  uint64_t room[2] = {7, 7}, edits = 0;
  size_t count = 0;
  WANT_AT(line, paris_touched(handle, since, room, 2, &count, &edits), PARIS_OK);
  WANT_AT(line, count, wanted);
  WANT_AT(line, room[0], first);
  WANT_AT(line, room[1], second);
  WANT_AT(line, edits, accepted);
}

#define WANT_TOUCHED(handle, since, count, first, second, edits) want_touched(__LINE__, handle, since, count, first, second, edits)

/* Seven edits declare, give data and put in no row. Then three rows are put in. */
static void touched_rows_are_told(void) {
  static const uint64_t nine[1] = {9};
  paris_handle handle = {0};
  uint64_t ran = 7;
  three_rows(&handle);
  WANT_TOUCHED(&handle, 0, 3, 1, 2, 10);
  WANT_TOUCHED(&handle, 8, 2, 2, 3, 10);
  WANT_TOUCHED(&handle, 10, 0, 7, 7, 10);
  WANT(paris_settle(&handle, &ran), PARIS_OK);
  WANT_TOUCHED(&handle, 8, 2, 2, 3, 10);
  WANT(paris_set(&handle, bytes("b"), 1, 0, nine, 1), PARIS_OK);
  WANT_TOUCHED(&handle, 10, 2, 2, 3, 11);
  WANT(paris_settle(&handle, &ran), PARIS_OK);
  WANT_REPLY(&handle, "delete 2", "ok\n");
  WANT_TOUCHED(&handle, 11, 0, 7, 7, 12);
  WANT_TOUCHED(&handle, 10, 1, 3, 7, 12);
  WANT(paris_close(&handle), PARIS_OK);
}

/* A run gives up no order that is out: it runs the rows beside it. */
static void runs_beside_orders(void) {
  paris_handle handle = {0};
  paris_order order = {0};
  uint64_t ran = 7;
  three_rows(&handle);
  WANT(paris_take(&handle, &order), PARIS_OK);
  WANT(paris_run(&handle, 9, &ran), PARIS_OK);
  WANT(ran, 1);
  WANT_ROWS(&handle, "1 8 out, 2 9 waiting, 3 10 settled");
  WANT(paris_execute(&order), PARIS_OK);
  WANT_BROUGHT(&handle, &order, PARIS_KEPT);
  WANT(paris_run(&handle, 9, &ran), PARIS_OK);
  WANT(ran, 1);
  WANT(paris_order_close(&order), PARIS_OK);
  WANT(paris_close(&handle), PARIS_OK);
}

static void one_value_is_settled(void) {
  paris_handle handle = {0};
  paris_order order = {0};
  uint64_t ran = 7, told = 0, room[4] = {0};
  three_rows(&handle);
  WANT(paris_settle_for(&handle, bytes("a"), 1, PARIS_END, &ran), PARIS_OK);
  WANT(ran, 0);
  WANT(paris_settle_for(&handle, bytes("d"), 1, PARIS_END, &ran), PARIS_OK);
  WANT(ran, 1);
  WANT_UNSETTLED(&handle, 2, 1, 2);
  WANT(paris_get(&handle, bytes("d"), 1, PARIS_END, room, 4, &told), PARIS_OK);
  WANT(room[3], 40);
  WANT(paris_get(&handle, bytes("c"), 1, PARIS_END, room, 4, &told), PARIS_PENDING);
  WANT(told, 2);
  WANT(paris_settle_for(&handle, bytes("c"), 1, 1, &ran), PARIS_OK);
  WANT(ran, 1);
  WANT_UNSETTLED(&handle, 1, 2, 7);
  WANT(paris_settle_for(&handle, bytes("c"), 1, PARIS_END, &ran), PARIS_OK);
  WANT(ran, 1);
  WANT(paris_settle_for(&handle, bytes("c"), 1, PARIS_END, &ran), PARIS_OK);
  WANT(ran, 0);
  three_rows(&handle);
  WANT(paris_take(&handle, &order), PARIS_OK);
  WANT(paris_settle_for(&handle, bytes("c"), 1, PARIS_END, &ran), PARIS_OK);
  WANT(ran, 2);
  WANT_ROWS(&handle, "1 8 settled, 2 9 settled, 3 10 waiting");
  WANT(paris_execute(&order), PARIS_OK);
  WANT_BROUGHT(&handle, &order, PARIS_REPEATED);
  WANT(paris_order_close(&order), PARIS_OK);
  WANT(paris_close(&handle), PARIS_OK);
}

static void origins(void) {
  paris_handle handle = {0};
  uint64_t row = 7;
  three_rows(&handle);
  WANT(paris_origin(&handle, bytes("c"), 1, PARIS_END, &row), PARIS_OK);
  WANT(row, 2);
  WANT(paris_origin(&handle, bytes("c"), 1, 1, &row), PARIS_OK);
  WANT(row, 1);
  WANT(paris_origin(&handle, bytes("c"), 1, PARIS_START, &row), PARIS_OK);
  WANT(row, 0);
  WANT(paris_origin(&handle, bytes("s.context"), 9, PARIS_END, &row), PARIS_OK);
  WANT(row, 0);
  WANT(paris_close(&handle), PARIS_OK);
}

/* What `show` refuses is refused, by the same fault, and nothing else has changed. */
static void refused_looks(void) {
  paris_handle handle = {0};
  uint64_t row = 7, ran = 7, edits = 7, room[2] = {7, 7};
  size_t count = 7;
  WANT(paris_touched(&handle, 0, room, 2, &count, &edits), PARIS_CLOSED);
  WANT(paris_run(&handle, 1, &ran), PARIS_CLOSED);
  WANT(paris_settle_for(&handle, bytes("c"), 1, PARIS_END, &ran), PARIS_CLOSED);
  WANT(paris_unsettled(&handle, room, 2, &count), PARIS_CLOSED);
  WANT(paris_origin(&handle, bytes("c"), 1, PARIS_END, &row), PARIS_CLOSED);
  three_rows(&handle);
  WANT_REPLY(&handle, "show e end", "refused 7\n");
  WANT(paris_settle_for(&handle, bytes("e"), 1, PARIS_END, &ran), 7);
  WANT(paris_origin(&handle, bytes("e"), 1, PARIS_END, &row), 7);
  WANT_REPLY(&handle, "show c after 9", "refused 10\n");
  WANT(paris_settle_for(&handle, bytes("c"), 1, 9, &ran), 10);
  WANT(paris_origin(&handle, bytes("c"), 1, 9, &row), 10);
  WANT(paris_settle_for(&handle, bytes("1"), 1, PARIS_END, &ran), PARIS_NO_KEY);
  WANT(paris_origin(&handle, bytes("1"), 1, PARIS_END, &row), PARIS_NO_KEY);
  WANT(ran, 7);
  WANT(row, 7);
  WANT(count, 7);
  WANT(room[0], 7);
  WANT_UNSETTLED(&handle, 3, 1, 2);
  WANT(paris_close(&handle), PARIS_OK);
}

/* Four threads run the rows of one session, and call it by a mutex. */
enum { ROWS = 64 };

static pthread_mutex_t lock = PTHREAD_MUTEX_INITIALIZER;
static paris_handle shared = {0};
static int kept = 0;

static bool run_one(void) {
  paris_order order = {0};
  uint32_t verdict = 0;
  uint64_t edition = 0;
  pthread_mutex_lock(&lock);
  bool done = kept == ROWS;
  uint32_t status = paris_take(&shared, &order);
  pthread_mutex_unlock(&lock);
  if (status == PARIS_NOTHING) return !done;
  WANT(status, PARIS_OK);
  WANT(paris_execute(&order), PARIS_OK);
  pthread_mutex_lock(&lock);
  WANT(paris_bring(&shared, &order, &verdict, &edition), PARIS_OK);
  kept += verdict == PARIS_KEPT;
  pthread_mutex_unlock(&lock);
  WANT(paris_order_close(&order), PARIS_OK);
  return true;
}

static void *run_all(void *none) {
  while (run_one()) {
  }
  return none;
}

static void four_threads(void) {
  pthread_t threads[4];
  uint64_t wanted[64], got[64], told = 0, ran = 0;
  paris_handle alone = {0};
  WANT(paris_open(&shared), PARIS_OK);
  WANT_REPLY(&shared, "set s 64", "ok\n");
  WANT_REPLY(&shared, "field a s 32", "ok\n");
  WANT_REPLY(&shared, "field b s 32", "ok\n");
  WANT_REPLY(&shared, "field c s 32", "ok\n");
  WANT_REPLY(&shared, "insert end my-send-address-1L a 6", "row 1\n");
  WANT_REPLY(&shared, "insert end my-send-address-1L b 5", "row 2\n");
  for (int row = 3; row <= ROWS; row++) {
    char line[64], reply[32];
    snprintf(line, sizeof line, "insert end u-max-3-1L %s %s %s 32", row % 3 ? "c" : "a", row % 2 ? "a" : "c", row % 5 ? "b" : "a");
    snprintf(reply, sizeof reply, "row %d\n", row);
    WANT_REPLY(&shared, line, reply);
  }
  WANT(paris_snapshot(&shared, &alone), PARIS_OK);
  for (int i = 0; i < 4; i++) WANT(pthread_create(&threads[i], NULL, run_all, NULL), 0);
  WANT(paris_settle(&alone, &ran), PARIS_OK);
  for (int i = 0; i < 4; i++) WANT(pthread_join(threads[i], NULL), 0);
  WANT(kept, ROWS);
  WANT(ran, ROWS);
  for (const char *key = "abc"; *key; key++) {
    WANT(paris_get(&alone, bytes(key), 1, PARIS_END, wanted, 64, &told), PARIS_OK);
    WANT(paris_get(&shared, bytes(key), 1, PARIS_END, got, 64, &told), PARIS_OK);
    WANT(memcmp(got, wanted, sizeof got), 0);
  }
  WANT(paris_close(&alone), PARIS_OK);
  WANT(paris_close(&shared), PARIS_OK);
}

int main(void) {
  closed_ones();
  orders_are_taken_and_brought();
  late_results();
  released_rows_wait();
  snapshots();
  no_commands();
  rows_are_run();
  rows_that_ran_are_told();
  touched_rows_are_told();
  runs_beside_orders();
  one_value_is_settled();
  origins();
  refused_looks();
  four_threads();
  return 0;
}
