/* Random schedules. A session is edited while threads take orders of it and of snapshots, execute them and bring their results: at once,
   late, twice, to another session, before they are executed, and after they are closed. Whatever comes when, each number that a session
   shows as settled is the one that a new session shows, which is given the same rows and input data and is settled.
   Usage: schedules SEED RUNS THREADS */
#include "want.h"

#include <pthread.h>
#include <sched.h>

enum { PROCESSORS = 4, KEYS = 8, MOST_ROWS = 64, MOST_LATE = 64, SESSIONS = 3, MOST_THREADS = 8, LINE = 160, LIST = 8192 };

static const char *const keys[KEYS] = {"a", "b", "c", "i", "s.context", "s.test", "s.carry", "s.overflow"};
/* So many numbers may be given to a key. Addresses may be outside the set, and rows refused for them. */
static const uint64_t limits[KEYS] = {256, 256, 256, 8, 2, 2, 2, 2};

/* What the lock is for: the present session, a snapshot that an undo makes the present one, and another snapshot; and orders that are
   brought late. */
static pthread_mutex_t lock = PTHREAD_MUTEX_INITIALIZER;
static paris_handle handles[SESSIONS];
static paris_handle *sessions[SESSIONS];
static paris_order *late[MOST_LATE];
static size_t late_count = 0;
static bool is_over = false;
static unsigned long verdicts[PARIS_FOREIGN + 1], settled_looks, pending_looks, undone, not_brought;

static _Thread_local uint64_t seed = 1;

static uint64_t below(uint64_t limit) {
  seed ^= seed << 13;
  seed ^= seed >> 7;
  seed ^= seed << 17;
  return (seed >> 11) % limit;
}

static void ask(paris_handle *handle, const char *line, char *reply) {
  size_t len = 0;
  WANT(paris_answer(handle, bytes(line), strlen(line), &len), PARIS_OK);
  WANT(len < LIST, true);
  WANT(paris_reply(handle, (uint8_t *)reply, len), PARIS_OK);
  reply[len] = 0;
}

static void tell(paris_handle *handle, const char *line) {
  char reply[LIST];
  ask(handle, line, reply);
}

static void declare(paris_handle *handle) {
  WANT(paris_open(handle), PARIS_OK);
  WANT_REPLY(handle, "set s 4", "ok\n");
  WANT_REPLY(handle, "field a s 8", "ok\n");
  WANT_REPLY(handle, "field b s 8", "ok\n");
  WANT_REPLY(handle, "field c s 8", "ok\n");
  WANT_REPLY(handle, "field i s 8", "ok\n");
}

static void some_instruction(char *into) {
  char to = "abc"[below(3)], left = "abc"[below(3)], right = "abc"[below(3)];
  switch (below(8)) {
  case 0: snprintf(into, LINE, "u-add-3-1L %c %c %c 8", to, left, right); break;
  case 1: snprintf(into, LINE, "u-multiply-3-1L %c %c %c 8", to, left, right); break;
  case 2: snprintf(into, LINE, "u-move-1L %c %c 8", to, left); break;
  case 3: snprintf(into, LINE, "u-move-constant-1L %c %d 8", to, (int)below(256)); break;
  case 4: snprintf(into, LINE, "send-1L %c i %c 8 none", to, left); break;
  case 5: snprintf(into, LINE, "u-lt-1L %c %c 8", left, right); break;
  case 6: snprintf(into, LINE, "logand-context-with-test s"); break;
  default: snprintf(into, LINE, "set-context s"); break;
  }
}

static size_t rows_of(paris_handle *handle, uint64_t *ids) {
  size_t count = 0;
  uint32_t status = paris_rows(handle, ids, 0, &count);
  if (status == PARIS_WRONG_ROOM) status = paris_rows(handle, ids, count, &count);
  WANT(status, PARIS_OK);
  return count;
}

static void give_numbers(paris_handle *handle) {
  size_t key = below(KEYS);
  uint64_t numbers[PROCESSORS];
  for (size_t i = 0; i < PROCESSORS; i++) numbers[i] = below(limits[key]);
  WANT(paris_set(handle, bytes(keys[key]), strlen(keys[key]), 0, numbers, PROCESSORS), PARIS_OK);
}

static void edit(paris_handle *handle) {
  char instruction[LINE], line[2 * LINE];
  uint64_t ids[MOST_ROWS];
  size_t count = rows_of(handle, ids);
  unsigned long long id = count ? ids[below(count)] : 0;
  some_instruction(instruction);
  uint64_t kind = count ? below(count > 10 ? 3 : 5) : 3;
  if (kind == 0) give_numbers(handle);
  if (kind == 1) snprintf(line, sizeof line, "delete %llu", id);
  if (kind == 2) snprintf(line, sizeof line, "replace %llu %s", id, instruction);
  if (kind == 3) snprintf(line, sizeof line, "insert end %s", instruction);
  if (kind == 4) snprintf(line, sizeof line, "insert after %llu %s", id, instruction);
  if (kind != 0) tell(handle, line);
}

/* A new session with the same input data and rows, which is settled. */
static void open_alike(paris_handle *handle, paris_handle *alike) {
  char list[LIST], line[LINE + 16];
  uint64_t numbers[PROCESSORS], told = 0, ran = 0;
  declare(alike);
  for (size_t key = 0; key < KEYS; key++) {
    WANT(paris_get(handle, bytes(keys[key]), strlen(keys[key]), PARIS_START, numbers, PROCESSORS, &told), PARIS_OK);
    WANT(paris_set(alike, bytes(keys[key]), strlen(keys[key]), 0, numbers, PROCESSORS), PARIS_OK);
  }
  ask(handle, "list", list);
  for (char *row = strchr(list, '\n') + 1; *row; row = strchr(row, 0) + 1) {
    *strchr(row, '\n') = 0;
    const char *instruction = row;
    for (int word = 0; word < 4; word++) instruction = strchr(instruction, ' ') + 1;
    snprintf(line, sizeof line, "insert end %s", instruction);
    tell(alike, line);
  }
  WANT(paris_settle(alike, &ran), PARIS_OK);
}

/* Rows of the new session are numbered from 1. */
static void compare_at(paris_handle *handle, uint64_t place, paris_handle *alike, uint64_t row) {
  uint64_t numbers[PROCESSORS], wanted[PROCESSORS], told = 0;
  for (size_t key = 0; key < KEYS; key++) {
    uint32_t status = paris_get(handle, bytes(keys[key]), strlen(keys[key]), place, numbers, PROCESSORS, &told);
    pending_looks += status == PARIS_PENDING;
    if (status == PARIS_PENDING) continue;
    WANT(status, PARIS_OK);
    WANT(paris_get(alike, bytes(keys[key]), strlen(keys[key]), row, wanted, PROCESSORS, &told), PARIS_OK);
    WANT(memcmp(numbers, wanted, sizeof wanted), 0);
    settled_looks++;
  }
}

static void compare(paris_handle *handle) {
  uint64_t ids[MOST_ROWS];
  size_t count = rows_of(handle, ids);
  paris_handle alike = {0};
  open_alike(handle, &alike);
  compare_at(handle, PARIS_START, &alike, PARIS_START);
  for (size_t row = 0; row < count; row++) compare_at(handle, ids[row], &alike, row + 1);
  WANT(paris_close(&alike), PARIS_OK);
}

static void bring(paris_order *order, size_t session) {
  uint32_t verdict = 0;
  uint64_t edition = 0;
  uint32_t status = paris_bring(sessions[session], order, &verdict, &edition);
  if (status == PARIS_OK) {
    WANT(verdict >= PARIS_KEPT && verdict <= PARIS_FOREIGN, true);
    verdicts[verdict]++;
  } else {
    WANT(status == PARIS_CLOSED || status == PARIS_NOT_RUN, true);
    not_brought++;
  }
}

static void close_order(paris_order *order) {
  paris_order_close(order);
  free(order);
}

/* Brings an order of those that are late, and closes it or leaves it for later. */
static void bring_late(void) {
  if (!late_count) return;
  size_t at = below(late_count);
  bring(late[at], below(SESSIONS));
  if (below(2)) return;
  close_order(late[at]);
  late[at] = late[--late_count];
}

/* What becomes of an order that was executed. It is not to be closed if it is kept for later. */
static bool is_kept_for_later(paris_order *order) {
  uint64_t fate = below(8);
  if (fate >= 5 && late_count < MOST_LATE) {
    late[late_count++] = order;
    return true;
  }
  bring(order, 0);
  if (fate < SESSIONS) bring(order, fate);
  return false;
}

static bool work_once(paris_order *order) {
  pthread_mutex_lock(&lock);
  bool ended = is_over;
  uint32_t status = ended ? PARIS_NOTHING : paris_take(sessions[!below(8)], order);
  if (status == PARIS_OK && !below(6)) bring(order, 0);
  pthread_mutex_unlock(&lock);
  if (status != PARIS_OK) {
    close_order(order);
    sched_yield();
    return !ended;
  }
  WANT(paris_execute(order), PARIS_OK);
  if (!below(4)) WANT(paris_execute(order), PARIS_OK);
  pthread_mutex_lock(&lock);
  bool is_kept = is_kept_for_later(order);
  if (!below(3)) bring_late();
  pthread_mutex_unlock(&lock);
  if (!is_kept) close_order(order);
  return true;
}

static void *work(void *own_seed) {
  seed = (uintptr_t)own_seed;
  while (work_once(calloc(1, sizeof(paris_order)))) {
  }
  return NULL;
}

/* The snapshot is the present session from now on. */
static void undo(void) {
  paris_handle *now = sessions[0];
  if (!sessions[1]->is_open) return;
  sessions[0] = sessions[1];
  sessions[1] = now;
  WANT(paris_release(sessions[0]), PARIS_OK);
  undone++;
}

/* Some orders are run in one call, or one value is settled, which is shown then. Each order that was run settled a row at least. */
static void turn(void) {
  uint64_t ran = 0, told = 0, most = below(4), ids[MOST_ROWS], numbers[PROCESSORS];
  size_t before = 0, after = 0;
  const char *key = keys[below(KEYS)];
  WANT(paris_unsettled(sessions[0], ids, MOST_ROWS, &before), PARIS_OK);
  if (below(2)) {
    WANT(paris_run(sessions[0], most, &ran), PARIS_OK);
    WANT(ran <= most, true);
  } else {
    WANT(paris_settle_for(sessions[0], bytes(key), strlen(key), PARIS_END, &ran), PARIS_OK);
    WANT(paris_get(sessions[0], bytes(key), strlen(key), PARIS_END, numbers, PROCESSORS, &told), PARIS_OK);
  }
  WANT(paris_unsettled(sessions[0], ids, MOST_ROWS, &after), PARIS_OK);
  WANT(ran + after <= before, true);
}

static void step(void) {
  uint64_t ran = 0;
  switch (below(12)) {
  case 0:
    WANT(paris_snapshot(sessions[0], sessions[1]), PARIS_OK);
    compare(sessions[1]);
    break;
  case 1: WANT(paris_snapshot(sessions[0], sessions[2]), PARIS_OK); break;
  case 2: undo(); break;
  case 3: paris_close(sessions[1 + below(2)]); break;
  case 4: WANT(below(4) ? paris_release(sessions[0]) : paris_settle(sessions[0], &ran), PARIS_OK); break;
  case 5: compare(sessions[0]); break;
  case 6:
    if (sessions[1]->is_open) edit(sessions[1]);
    break;
  case 7: turn(); break;
  default: edit(sessions[0]); break;
  }
}

/* Each session that is open gets all results that are late, and is settled. */
static void end_all(void) {
  for (size_t session = 0; session < SESSIONS; session++) {
    if (!sessions[session]->is_open) continue;
    uint64_t ran = 0;
    for (size_t at = 0; at < late_count; at++) bring(late[at], session);
    compare(sessions[session]);
    WANT(paris_settle(sessions[session], &ran), PARIS_OK);
    unsigned long before = pending_looks;
    compare(sessions[session]);
    WANT(pending_looks, before);
    WANT(paris_close(sessions[session]), PARIS_OK);
  }
  while (late_count) {
    bring(late[--late_count], 0);
    close_order(late[late_count]);
  }
}

static void run(uint64_t number, size_t threads) {
  pthread_t workers[MOST_THREADS];
  seed = number * UINT64_C(0x9E3779B97F4A7C15) | 1;
  is_over = false;
  for (size_t session = 0; session < SESSIONS; session++) sessions[session] = &handles[session];
  declare(sessions[0]);
  for (int i = 0; i < 8; i++) edit(sessions[0]);
  for (size_t i = 0; i < threads; i++) WANT(pthread_create(&workers[i], NULL, work, (void *)(uintptr_t)(below(1 << 30) * 2 + 1)), 0);
  for (uint64_t steps = 8 + below(12); steps; steps--) {
    pthread_mutex_lock(&lock);
    step();
    pthread_mutex_unlock(&lock);
    if (below(2)) sched_yield();
  }
  pthread_mutex_lock(&lock);
  is_over = true;
  pthread_mutex_unlock(&lock);
  for (size_t i = 0; i < threads; i++) WANT(pthread_join(workers[i], NULL), 0);
  end_all();
}

int main(int argc, char **argv) {
  if (argc != 4) return 2;
  uint64_t first = strtoull(argv[1], NULL, 10), runs = strtoull(argv[2], NULL, 10);
  size_t threads = strtoull(argv[3], NULL, 10);
  if (threads > MOST_THREADS) return 2;
  for (uint64_t number = first; number < first + runs; number++) run(number, threads);
  printf("schedules: %llu, by %zu threads; %lu results kept, %lu repeated, %lu stale, %lu gone, %lu foreign, %lu of closed ones or of none; "
         "%lu looks settled, %lu pending; %lu edits taken back\n",
         (unsigned long long)runs, threads, verdicts[PARIS_KEPT], verdicts[PARIS_REPEATED], verdicts[PARIS_STALE], verdicts[PARIS_GONE],
         verdicts[PARIS_FOREIGN], not_brought, settled_looks, pending_looks, undone);
  return 0;
}
