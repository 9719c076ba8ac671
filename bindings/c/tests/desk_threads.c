/* Threads sit at one desk behind a mutex, and edit, look and work. Then the history has each call once, as its thread kept it, and is audited.

   Usage: desk_threads SEED CALLS THREADS [CHAPTERS]: so many calls in all, by so many threads, in as many chapters, 1 where nothing is said.
   Each chapter is compared and audited, and then cut, so that memory is that of one chapter. */
#include "want.h"

#include <pthread.h>

enum { TEXT = 256, FIELDS = 8, PROCESSORS = 4 };

/* What a thread keeps of a call: the entry's number, its kind, and how the reply begins. */
typedef struct receipt {
  uint64_t entry;
  uint32_t kind;
  size_t len;
  char text[TEXT];
} receipt;

typedef struct person {
  paris_seat seat;
  uint64_t number;
  uint64_t random;
  size_t calls;
  receipt *receipts;
  size_t count;
  uint64_t looks;
  uint64_t row; /* that it has put in, or 0 */
} person;

static paris_desk desk;
static pthread_mutex_t mutex = PTHREAD_MUTEX_INITIALIZER;

static uint64_t next(person *who, uint64_t below) {
  who->random = who->random * UINT64_C(6364136223846793005) + UINT64_C(1442695040888963407);
  return (who->random >> 33) % below;
}

static void keep(person *who, uint64_t entry, uint32_t kind, const char *text, size_t len) {
  receipt *kept = &who->receipts[who->count++];
  kept->entry = entry;
  kept->kind = kind;
  kept->len = len;
  strncpy(kept->text, text, TEXT - 1);
}

/* Says a line, and returns the number behind the first word of the reply. */
static uint64_t say(person *who, const char *line, uint32_t kind) {
  uint8_t text[TEXT] = {0};
  size_t len = 0;
  uint64_t entry = 0, front = 0;
  pthread_mutex_lock(&mutex);
  WANT(paris_desk_answer(&desk, &who->seat, bytes(line), strlen(line), &len, &entry), PARIS_OK);
  pthread_mutex_unlock(&mutex);
  WANT(paris_seat_reply(&who->seat, text, TEXT - 1), PARIS_OK);
  WANT(paris_seat_front(&who->seat, &front), PARIS_OK);
  WANT(front, entry);
  keep(who, entry, kind, (const char *)text, len);
  const char *word = strchr((const char *)text, ' ');
  return word ? strtoull(word, NULL, 10) : 0;
}

/* A look at what no row writes is settled, whoever edits meanwhile. It is told twice the same. */
static void look(person *who) {
  uint64_t first[PROCESSORS] = {0}, second[PROCESSORS] = {0}, told = 0;
  pthread_mutex_lock(&mutex);
  WANT(paris_desk_look(&desk, &who->seat), PARIS_OK);
  pthread_mutex_unlock(&mutex);
  WANT(paris_seat_get(&who->seat, bytes("f0"), 2, PARIS_START, first, PROCESSORS, &told), PARIS_OK);
  WANT(paris_seat_get(&who->seat, bytes("f0"), 2, PARIS_START, second, PROCESSORS, &told), PARIS_OK);
  WANT(memcmp(first, second, sizeof first), 0);
  who->looks++;
}

/* Takes an order, executes it with no lock, and brings its result. */
static void work(person *who) {
  static const char *const verdicts[] = {"", "kept\n", "repeated\n", "stale ", "gone\n", "foreign\n"};
  paris_order order = {0};
  uint64_t entry = 0, edition = 0, row = 0;
  uint32_t verdict = 0;
  bool is_run = false;
  char text[TEXT] = {0};
  pthread_mutex_lock(&mutex);
  uint32_t status = paris_desk_take(&desk, &who->seat, &order, &entry);
  pthread_mutex_unlock(&mutex);
  if (status == PARIS_NOTHING) return;
  WANT(status, PARIS_OK);
  WANT(paris_order_row(&order, &row, &edition, &is_run), PARIS_OK);
  snprintf(text, sizeof text, "order 1 row %llu edition %llu\n", (unsigned long long)row, (unsigned long long)edition);
  keep(who, entry, PARIS_TAKE, text, strlen(text));
  WANT(paris_execute(&order), PARIS_OK);
  pthread_mutex_lock(&mutex);
  WANT(paris_desk_bring(&desk, &who->seat, &order, &verdict, &edition, &entry), PARIS_OK);
  pthread_mutex_unlock(&mutex);
  snprintf(text, sizeof text, "%s", verdicts[verdict]);
  if (verdict == PARIS_STALE) snprintf(text, sizeof text, "stale %llu\n", (unsigned long long)edition);
  keep(who, entry, PARIS_BRING, text, strlen(text));
  WANT(paris_order_close(&order), PARIS_OK);
}

/* Puts a row in, or takes out the one that it has put in. So a thread has one row at most beside the first thirty. */
static void put_in_or_out(person *who) {
  char line[TEXT];
  int a = (int)next(who, FIELDS), b = (int)next(who, FIELDS), c = (int)next(who, FIELDS);
  if (who->row) {
    snprintf(line, sizeof line, "delete %llu", (unsigned long long)who->row);
    say(who, line, PARIS_EDIT);
    who->row = 0;
    return;
  }
  snprintf(line, sizeof line, "insert end u-max-3-1L f%d f%d f%d 8", a, b, c);
  who->row = say(who, line, PARIS_EDIT);
}

/* A row above the first thirty may be there or not, and a number above 255 is refused. */
static void edit(person *who) {
  char line[TEXT];
  int a = (int)next(who, FIELDS), b = (int)next(who, FIELDS), c = (int)next(who, FIELDS), row = 1 + (int)next(who, 40);
  switch (next(who, 40)) {
  case 0: case 1: put_in_or_out(who); return;
  case 2: case 3: case 4: case 5: snprintf(line, sizeof line, "replace %d u-max-3-1L f%d f%d f%d 8", row, a, b, c); break;
  default: snprintf(line, sizeof line, "input f%d %d %d", a, (int)next(who, PROCESSORS), (int)next(who, 300)); break;
  }
  say(who, line, PARIS_EDIT);
}

static void *sit(void *at) {
  person *who = at;
  char line[TEXT];
  who->count = 0;
  while (who->count + 2 <= who->calls) {
    switch (next(who, 8)) {
    case 0: look(who); break;
    case 1: snprintf(line, sizeof line, "show f%d end", (int)next(who, FIELDS)); say(who, line, PARIS_SHOW); break;
    case 2: say(who, next(who, 20) ? "show f9 end" : "release", 0); break;
    case 3: case 4: edit(who); break;
    default: work(who); break;
    }
    /* A worker that finds no row has somebody change one. */
    if (!next(who, 4)) edit(who);
  }
  return NULL;
}

static void begin(paris_handle *from) {
  char line[TEXT];
  size_t len = 0;
  WANT(paris_open(from), PARIS_OK);
  WANT_REPLY(from, "set s 4", "ok\n");
  for (int i = 0; i < FIELDS; i++) {
    snprintf(line, sizeof line, "field f%d s 8", i);
    WANT(paris_answer(from, bytes(line), strlen(line), &len), PARIS_OK);
  }
  for (int i = 0; i < 30; i++) {
    snprintf(line, sizeof line, "insert end u-max-3-1L f%d f%d f%d 8", i % FIELDS, (i * 3 + 1) % FIELDS, (i * 5 + 2) % FIELDS);
    WANT(paris_answer(from, bytes(line), strlen(line), &len), PARIS_OK);
  }
}

/* The entry of each receipt is what was kept, and each entry has one receipt. Returns how many there are. */
static uint64_t compare(person *people, size_t threads) {
  uint64_t count = 0, seat = 0;
  uint32_t kind = 0;
  size_t len = 0;
  for (size_t i = 0; i < threads; i++) count += people[i].count;
  uint8_t *seen = calloc(count + 1, 1), last[1];
  for (size_t i = 0; i < threads; i++)
    for (size_t k = 0; k < people[i].count; k++) {
      const receipt *kept = &people[i].receipts[k];
      char text[TEXT] = {0};
      WANT(paris_desk_entry(&desk, kept->entry, &seat, &kind, (uint8_t *)text, TEXT - 1, &len), PARIS_OK);
      WANT(seat, people[i].number);
      if (kept->kind) WANT(kind, kept->kind);
      WANT(len, kept->len);
      WANT(strcmp(text, kept->text), 0);
      WANT(kept->entry <= count && !seen[kept->entry]++, true);
      if (k) WANT(people[i].receipts[k - 1].entry < kept->entry, true);
    }
  WANT(paris_desk_entry(&desk, count + 1, &seat, &kind, last, 1, &len), PARIS_NO_ENTRY);
  free(seen);
  return count;
}

/* Has all threads make a chapter's calls, compares what they kept, audits and cuts. Returns how many entries there are. */
static uint64_t play_chapter(person *people, pthread_t *ids, size_t threads) {
  bool agrees = false;
  uint64_t cut = 0;
  for (size_t i = 0; i < threads; i++) WANT(pthread_create(&ids[i], NULL, sit, &people[i]), 0);
  for (size_t i = 0; i < threads; i++) WANT(pthread_join(ids[i], NULL), 0);
  uint64_t entries = compare(people, threads);
  WANT(paris_desk_audit(&desk, &agrees), PARIS_OK);
  WANT(agrees, true);
  WANT(paris_desk_cut(&desk, &cut), PARIS_OK);
  WANT(cut, entries);
  fprintf(stderr, "a chapter of %llu entries, each kept once\n", (unsigned long long)entries);
  return entries;
}

static void sit_down(person *who, uint64_t random, size_t calls) {
  who->random = random;
  who->calls = calls;
  who->receipts = calloc(calls + 4, sizeof *who->receipts);
  WANT(paris_desk_sit(&desk, &who->seat, &who->number), PARIS_OK);
}

/* Returns how often the seat looked. */
static uint64_t stand_up(person *who) {
  WANT(paris_seat_close(&who->seat), PARIS_OK);
  free(who->receipts);
  return who->looks;
}

int main(int count, char **words) {
  if (count != 4 && count != 5) return 2;
  uint64_t seed = strtoull(words[1], NULL, 10), calls = strtoull(words[2], NULL, 10), entries = 0, looks = 0;
  size_t threads = strtoull(words[3], NULL, 10), chapters = count == 5 ? strtoull(words[4], NULL, 10) : 1;
  paris_handle from = {0};
  person *people = calloc(threads, sizeof *people);
  pthread_t *ids = calloc(threads, sizeof *ids);
  begin(&from);
  WANT(paris_desk_open(&desk, &from, 1, UINT64_MAX), PARIS_OK);
  WANT(paris_close(&from), PARIS_OK);
  for (size_t i = 0; i < threads; i++) sit_down(&people[i], seed * 1000 + i, calls / chapters / threads + 3);
  for (size_t i = 0; i < chapters; i++) entries += play_chapter(people, ids, threads);
  for (size_t i = 0; i < threads; i++) looks += stand_up(&people[i]);
  WANT(paris_desk_close(&desk), PARIS_OK);
  printf("%llu calls of %zu threads in %zu chapters: %llu entries, each kept once, and %llu looks\n", (unsigned long long)(entries + looks), threads,
         chapters, (unsigned long long)entries, (unsigned long long)looks);
  free(people);
  free(ids);
  return 0;
}
