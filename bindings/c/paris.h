/* Sessions of Paris programs, for C and C++.

   A handle is two words that the caller keeps, of a session or of an order. All zeros is a closed one: `paris_handle handle = {0};`. The
   caller reads and writes neither word, and copies a handle nowhere. An open handle owns memory of malloc until paris_close or
   paris_order_close, and nothing else does: what a call writes is the caller's own.

   A handle may go to another thread, and is in one call at a time. The caller orders the calls of a handle by a mutex, or by the start or
   the join of a thread. A look counts as a call: it takes the session out of the handle's words and puts it back. Calls of other handles
   may be made at the same time, also of a snapshot and of the session that it was made of, and of an order and of the session that gave
   it.

   Bytes, words and rooms are a pointer and a number of items; with 0 items it may be any pointer that isn't null. No two arguments of a
   call overlap. At a status other than PARIS_OK a call leaves its room and the session as they were, and what it says by a pointer to
   one number says nothing, where it isn't told otherwise here. Every call returns. */
#ifndef PARIS_H
#define PARIS_H

#include <stdbool.h>
#include <stddef.h>
#include <stdint.h>

/* The version of this header and of the library. The soname of libparis.so ends in its first number. */
#define PARIS_VERSION "0.1.0"

#ifdef __cplusplus
extern "C" {
#endif

typedef struct paris_handle {
  void *at;
  bool is_open;
} paris_handle;

/* An order: what a row computes, with all that it reads. Once it is executed, what came of it stands there too. It belongs to no session:
   it may be brought to any, more than once, and outlives the one that gave it. */
typedef struct paris_order {
  void *at;
  bool is_open;
} paris_order;

/* A desk: a book that seats call, with its history, in which each call of a seat is an entry, numbered from 1. A desk is in one call at a
   time: the caller orders its calls by a mutex. A call of a desk with a seat is one of both. */
typedef struct paris_desk {
  void *at;
  bool is_open;
} paris_desk;

/* A seat of a desk, for one thread: the reply to its last line, and the book as it was when the seat looked last. The calls of a seat with no
   desk need no lock, and what other seats do meanwhile changes nothing of what they show. */
typedef struct paris_seat {
  void *at;
  bool is_open;
} paris_seat;

/* What became of a call. A status from 1 to 23 is the number of the fault by which it was refused, as scripts name it. */
enum paris_status {
  PARIS_OK = 0,
  PARIS_FULL = 18,      /* the history has as many entries as it may have */
  PARIS_NO_MEMORY = 19, /* there is no memory left */
  PARIS_NO_ENTRY = 23,  /* a look found no entry */
  PARIS_CLOSED = 101,   /* the handle is closed */
  PARIS_NO_KEY = 102,   /* the word is no key */
  PARIS_PENDING = 103,  /* a row has to be settled first */
  PARIS_WRONG_ROOM = 104, /* the room has another number of words than what is to be put there */
  PARIS_TOO_MANY = 105, /* the script is too long, or the session has answered as many lines as it can count */
  PARIS_TOO_WIDE = 106, /* a number is wider than a word */
  PARIS_PARTLY = 107,   /* there was no memory left while rows were settled: those that ran are settled */
  PARIS_NO_PROFILE = 108, /* no profile has this number */
  PARIS_NOTHING = 109,  /* no row is ready */
  PARIS_NOT_RUN = 110,  /* the order is not executed */
  PARIS_UNLIKE = 111,   /* the two values differ in width or in the number of their processors */
  PARIS_NO_EVENT = 112, /* the line is no event of a desk */
  PARIS_STRANGE = 113   /* the seat is of another desk */
};

/* Why a row is refused for its data: paris_faults tells of these rows. Such a row is settled, and changes nothing. */
enum paris_cause {
  PARIS_COLLISION = 1, /* two messages meet at a processor */
  PARIS_BAD_ADDRESS = 2 /* a processor holds an address outside its set */
};

/* What becomes of a result that is brought. At PARIS_KEPT alone rows change. */
enum paris_verdict {
  PARIS_KEPT = 1,     /* its row is settled by it */
  PARIS_REPEATED = 2, /* its row is settled */
  PARIS_STALE = 3,    /* its row has another edition */
  PARIS_GONE = 4,     /* no row has its id */
  PARIS_FOREIGN = 5   /* the row's instruction or what it reads is another one, or isn't settled */
};

/* What an entry of a history is of: an edit, an order that was taken, a result that was brought, orders that were given up, a look at a key,
   or a look at the rows. */
enum paris_kind {
  PARIS_EDIT = 1,    /* the lines `set`, `field`, `input`, `insert`, `delete` and `replace` */
  PARIS_TAKE = 2,    /* paris_desk_take */
  PARIS_BRING = 3,   /* paris_desk_bring */
  PARIS_RELEASE = 4, /* the line `release` */
  PARIS_SHOW = 5,    /* the line `show` */
  PARIS_LIST = 6     /* the line `list` */
};

/* A number in two words: high * 2^64 + low. */
typedef struct paris_wide {
  uint64_t low;
  uint64_t high;
} paris_wide;

/* A sum in three words: (high * 2^64 + middle) * 2^64 + low. */
typedef struct paris_sum {
  uint64_t low;
  uint64_t middle;
  uint64_t high;
} paris_sum;

/* What some numbers come to: the least, the greatest, their sum, and how many are other than 0. */
typedef struct paris_stretch {
  paris_wide least;
  paris_wide greatest;
  paris_sum sum;
  uint64_t others;
} paris_stretch;

/* A place of the program: its start, its end, or, by any other number, the place just after the row with that id. */
#define PARIS_START UINT64_C(0)
#define PARIS_END UINT64_MAX

/* Opens a session with nothing in it, and closes the one that the handle held. Where memory is refused the handle is closed. Fields have
   1 to 64 bits, and 1 to 128 in a session that begins by the line `paris 2`. */
uint32_t paris_open(paris_handle *handle);

/* The same in a profile, which no line changes: fields have 1 to 64 bits in profile 1, and 1 to 128 in profile 2. At PARIS_NO_PROFILE
   the handle is as it was. */
uint32_t paris_open_profile(paris_handle *handle, uint32_t profile);

/* Closes a handle, and frees what it owned. A closed handle stays closed, and PARIS_CLOSED says so. */
uint32_t paris_close(paris_handle *handle);

/* Answers a line of a script, without its line feed. At PARIS_OK the session is the one after the line, its reply, which may be
   empty, is kept until the next such call, and *reply is how many bytes it has. That a command is refused stands in the reply.
   At another status but PARIS_CLOSED the kept reply is as it was, and *reply is how many bytes it has. At PARIS_PARTLY, which only
   the line `settle` comes to, the session is left as by paris_settle; the line can be told again. Neither this nor PARIS_NO_MEMORY
   is met at an empty line or a comment. */
uint32_t paris_answer(paris_handle *handle, const uint8_t *line, size_t len, size_t *reply);

/* Copies the reply that is kept, or its first bytes where the room has fewer. */
uint32_t paris_reply(paris_handle *handle, uint8_t *room, size_t len);

/* Runs a whole script in a session of its own. *transcript is how many bytes its transcript has, and the room has it, or its first
   bytes where the room has fewer. */
uint32_t paris_script(const uint8_t *script, size_t len, uint8_t *room, size_t room_len, size_t *transcript);

/* Gives the key that a word names, as `a` or `S.context`, these numbers, from a processor on. What `input` refuses is refused, by
   the same fault, and PARIS_NO_MEMORY comes only where it isn't. */
uint32_t paris_set(paris_handle *handle, const uint8_t *key, size_t key_len, uint64_t from, const uint64_t *numbers, size_t len);

/* The same with numbers of two words, as fields of more than 64 bits may have. */
uint32_t paris_set_wide(paris_handle *handle, const uint8_t *key, size_t key_len, uint64_t from, const paris_wide *numbers, size_t len);

/* Puts the numbers that a key holds at a place into a room of as many words: what `show` shows. *told is how many they are, at
   PARIS_WRONG_ROOM too, and the id of the row that has to be settled first at PARIS_PENDING. What `show` refuses is refused, by the
   same fault. A field of more than 64 bits is PARIS_TOO_WIDE, whatever it holds, where the room is right. PARIS_NO_MEMORY comes only
   where a value is shown. */
uint32_t paris_get(paris_handle *handle, const uint8_t *key, size_t key_len, uint64_t place, uint64_t *room, size_t len, uint64_t *told);

/* The same with numbers of two words, of keys of any width, so that none is PARIS_TOO_WIDE. */
uint32_t paris_get_wide(paris_handle *handle, const uint8_t *key, size_t key_len, uint64_t place, paris_wide *room, size_t len, uint64_t *told);

/* Puts the numbers that a key holds at a place into a room of words, from a processor on, as many as there is room for. *told is how many
   numbers the key has, and the id of the row that has to be settled first at PARIS_PENDING. Where the room reaches past the last number
   the call is PARIS_WRONG_ROOM, and *told is how many the key has. For all else it is as paris_get. It takes no memory. */
uint32_t paris_part(paris_handle *handle, const uint8_t *key, size_t key_len, uint64_t place, uint64_t from, uint64_t *room, size_t len, uint64_t *told);

/* *count is of how many processors the number that a key holds at a place is other than 0, so of a flag on how many it is set, and the id of
   the row that has to be settled first at PARIS_PENDING. What `show` refuses is refused, by the same fault. A key may have any width. It
   takes no memory. */
uint32_t paris_count(paris_handle *handle, const uint8_t *key, size_t key_len, uint64_t place, uint64_t *count);

/* Puts what the numbers that a key holds at a place come to into a room, in as many stretches of the processors as the room has places: of
   n processors and k places, stretch i is of those from i * n / k on, up to before (i + 1) * n / k, both rounded down. *told is how many
   numbers there are, at PARIS_WRONG_ROOM too, and the id of the row that has to be settled first at PARIS_PENDING. A room with no place,
   or with more places than there are processors, is PARIS_WRONG_ROOM. What `show` refuses is refused, by the same fault. A key may have
   any width. It takes no memory. */
uint32_t paris_summary(paris_handle *handle, const uint8_t *key, size_t key_len, uint64_t place, paris_stretch *room, size_t len, uint64_t *told);

/* Puts a 1 into a room for each stretch, as paris_summary cuts them, in which what a key holds at a place differs from what it holds there in
   another session, and a 0 for each other stretch. *told is how many processors there are. Rooms and statuses are as in paris_summary,
   of the first session, and where that shows a value, of the other one. Where the two values haven't the same width and as many
   processors, the call is PARIS_UNLIKE. Either session that is closed is PARIS_CLOSED. It takes no memory. */
uint32_t paris_differs(paris_handle *handle, paris_handle *other, const uint8_t *key, size_t key_len, uint64_t place, uint8_t *room, size_t len, uint64_t *told);

/* Puts the ids of the rows in program order into a room of as many words. *count is how many they are, at PARIS_WRONG_ROOM too. */
uint32_t paris_rows(paris_handle *handle, uint64_t *room, size_t len, size_t *count);

/* Settles every row. *ran is how many orders were run: a row that would compute again what it computed last isn't run. PARIS_OK
   doesn't say that every row did its work: a settled row may be refused for its data, and then it changes nothing. paris_faults tells
   which rows these are. At PARIS_PARTLY, which comes only where a row is left that must be run, at least so many rows more are settled,
   those that were settled stay so, orders that were out are given up, and the call can be made again. */
uint32_t paris_settle(paris_handle *handle, uint64_t *ran);

/* Runs at most `most` orders, one after another, and fewer where no row is ready any more. *ran is how many. Orders that are out stay so.
   At PARIS_PARTLY memory was refused once *ran were run, and a row is ready. Nothing else has changed, and the call can be made again. */
uint32_t paris_run(paris_handle *handle, uint64_t most, uint64_t *ran);

/* Runs orders as paris_run does, and puts the ids of their rows into a room, one after another, or the first ones where the room has fewer
   words than *ran. After paris_release, with UINT64_MAX, it settles every row, and tells which ones were run. */
uint32_t paris_run_ids(paris_handle *handle, uint64_t most, uint64_t *room, size_t len, uint64_t *ran);

/* Settles what the value of a key at a place stands on: the unsettled rows that it is made by, in program order, and no other. *ran is how
   many orders were run. Then paris_get has the value. A row that is out is run here too, and what is brought of it later is
   PARIS_REPEATED. What `show` refuses is refused, by the same fault. At PARIS_PARTLY so many orders were run, and paris_get hasn't the
   value yet. Settled rows stay so, rows that are still unsettled wait or are out as they were, and the call can be made again. */
uint32_t paris_settle_for(paris_handle *handle, const uint8_t *key, size_t key_len, uint64_t place, uint64_t *ran);

/* Settles a value as paris_settle_for does, and puts the ids of the rows that are run into a room, in program order, or the first ones
   where the room has fewer words than *ran. */
uint32_t paris_settle_for_ids(paris_handle *handle, const uint8_t *key, size_t key_len, uint64_t place, uint64_t *room, size_t len, uint64_t *ran);

/* Puts the ids of the unsettled rows into a room, in program order, or the first ones where the room has fewer words. *count is how many
   rows are unsettled. What became unsettled by an edit is what is here after it and wasn't before. It takes no memory. */
uint32_t paris_unsettled(paris_handle *handle, uint64_t *room, size_t len, size_t *count);

/* Puts the ids of the rows that an edit behind the first `since` touched into a room, in program order, or the first ones where the room
   has fewer words: rows that were put in or replaced, and those that got other inputs, settled by now or not. *count is how many
   these rows are. *edits is how many edits were accepted, which is `since` of the next call. Where a snapshot took an edit back, editions
   come again, so ask from 0 on. It takes no memory. */
uint32_t paris_touched(paris_handle *handle, uint64_t since, uint64_t *room, size_t len, size_t *count, uint64_t *edits);

/* *row is the id of the row that gives a key its value at a place, settled or not, and 0 where that is the input data. What `show` refuses
   is refused, by the same fault. It takes no memory. */
uint32_t paris_origin(paris_handle *handle, const uint8_t *key, size_t key_len, uint64_t place, uint64_t *row);

/* Puts the settled rows that are refused for their data, as the command `faults` lists them, into a room, in program order: three
   words for each row, which are its id, its cause and a processor. The processor is the least one at which two messages meet, or the
   least one that holds an address outside its set. Where the room has fewer words it has the first ones. *count is how many rows
   these are, so 3 times as many words hold them all. */
uint32_t paris_faults(paris_handle *handle, uint64_t *room, size_t len, size_t *count);

/* Closes the order, and then opens one for the first row that is ready: it waits, and all that it reads is settled. The row is out then.
   At PARIS_NOTHING no row is ready, and at PARIS_NO_MEMORY one is. At each status but PARIS_OK the order stays closed. It gets no number,
   and the line `take` no other one. */
uint32_t paris_take(paris_handle *handle, paris_order *order);

/* Executes an order, in its handle. It needs no session and no lock, and may take as long as the order's row. At PARIS_NO_MEMORY the order
   is as it was, and can be executed again. One that is executed stays as it is, and takes no memory. */
uint32_t paris_execute(paris_order *order);

/* Brings the result of an order to a session, and leaves the order as it is. *verdict is one of enum paris_verdict, and *edition the row's
   present edition at PARIS_STALE. At PARIS_KEPT its row is settled, and later rows that would compute again what they computed last are
   settled with it. An order that isn't executed is PARIS_NOT_RUN. A closed order is PARIS_CLOSED, and so is a closed session. It takes no
   memory: PARIS_NO_MEMORY comes only where a result has as many owners as can be counted. */
uint32_t paris_bring(paris_handle *handle, paris_order *order, uint32_t *verdict, uint64_t *edition);

/* *row is the id of the row that an order is for, *edition the edition that the row had, and *is_run whether the order is executed. */
uint32_t paris_order_row(paris_order *order, uint64_t *row, uint64_t *edition, bool *is_run);

/* Closes an order, and frees what it owned. No session sees it: a row that is out stays out. A closed order stays closed, and PARIS_CLOSED
   says so. */
uint32_t paris_order_close(paris_order *order);

/* Gives up the orders that are out: their rows wait, with their editions, and are ready again. So does the line `release`. Results of
   these orders can still be brought. It takes no memory. */
uint32_t paris_release(paris_handle *handle);

/* Closes `into`, and opens there a session in the same state, with the orders that lines took and the counts of lines, and with no reply.
   The two share values, and what is done with either leaves the other as it is. Rows that are out are out in both: paris_release has them
   wait. At another status than PARIS_OK `into` stays closed. */
uint32_t paris_snapshot(paris_handle *handle, paris_handle *into);

/* Closes the desk, and then opens one whose history begins, with no entry, at the present state of a session, which stays as it was. There may
   be `limit` entries. `name` is the caller's, one for each desk: a seat of a desk of another name is PARIS_STRANGE. Two desks of one name
   take each other's seats for their own. */
uint32_t paris_desk_open(paris_desk *desk, paris_handle *from, uint64_t name, uint64_t limit);

/* Closes the seat, and then opens the next one of the desk. *number is its number: 0 for the first one. It looks at the book as it is. The desk
   may be closed before its seats are. PARIS_TOO_MANY says that seats can't be counted any further. */
uint32_t paris_desk_sit(paris_desk *desk, paris_seat *seat, uint64_t *number);

/* Answers a line of a seat, without its line feed: `set`, `field`, `input`, `insert`, `delete`, `replace`, `release`, `show` or `list`. At
   PARIS_OK it is the history's next entry, whose number is *entry, the seat keeps the reply until its next such call, and *reply is how many
   bytes that has. That a command is refused stands in the reply, and it is an entry too. A line that isn't in the grammar is answered by
   `refused 20`, and is no entry: *entry is 0. Any other line, as `take`, `settle` or a comment, is PARIS_NO_EVENT. An empty line and a comment
   need no memory. At a status other than PARIS_OK the desk and the seat are as they were, here and in the next five calls. */
uint32_t paris_desk_answer(paris_desk *desk, paris_seat *seat, const uint8_t *line, size_t len, size_t *reply, uint64_t *entry);

/* Gives a key numbers from a processor on, as the line `input` of a seat does, with no text of the numbers. It is the history's next entry, and
   its reply is kept and counted as that of a line: `ok`, or `refused` with the fault. */
uint32_t paris_desk_set(paris_desk *desk, paris_seat *seat, const uint8_t *key, size_t key_len, uint64_t from, const uint64_t *numbers, size_t len, size_t *reply, uint64_t *entry);

/* The same with numbers of two words each. */
uint32_t paris_desk_set_wide(paris_desk *desk, paris_seat *seat, const uint8_t *key, size_t key_len, uint64_t from, const paris_wide *numbers, size_t len, size_t *reply, uint64_t *entry);

/* Closes the order, and then has a seat take one for the first row that is ready, as paris_take does. It is the history's next entry. Where no
   row is ready the call is PARIS_NOTHING, and no entry, and needs no memory. At each status but PARIS_OK the order stays closed. */
uint32_t paris_desk_take(paris_desk *desk, paris_seat *seat, paris_order *order, uint64_t *entry);

/* Has a seat bring the result of an order, as paris_bring does, whoever took it. It is the history's next entry. */
uint32_t paris_desk_bring(paris_desk *desk, paris_seat *seat, paris_order *order, uint32_t *verdict, uint64_t *edition, uint64_t *entry);

/* Has a seat look at the book as it is: the calls of the seat alone show that from then on. It is no entry, and copies no value.
   PARIS_NO_MEMORY comes only where the book has as many owners as can be counted. */
uint32_t paris_desk_look(paris_desk *desk, paris_seat *seat);

/* Copies the reply that a seat keeps, or its first bytes where the room has fewer. */
uint32_t paris_seat_reply(paris_seat *seat, uint8_t *room, size_t len);

/* As paris_get, of the book that a seat looks at. */
uint32_t paris_seat_get(paris_seat *seat, const uint8_t *key, size_t key_len, uint64_t place, uint64_t *room, size_t len, uint64_t *told);

/* Closes the order, and then opens one for the first row that is ready of those that the value of a key at a place stands on, in the book that a
   seat looks at. It is a look, and no entry: the row waits as before, may be taken too, and is settled by the first result that is brought
   while it is as it was. At PARIS_NOTHING none of these rows is ready, as where the value is shown. Where `show` refuses, so does this call. At
   each status but PARIS_OK the order stays closed. */
uint32_t paris_seat_order_for(paris_seat *seat, const uint8_t *key, size_t key_len, uint64_t place, paris_order *order);

/* Closes `into`, and opens there a session with the book that a seat looks at, and with no order that a line took and no reply. So all that
   tells of a session tells of what a seat looks at. The two share values. */
uint32_t paris_seat_snapshot(paris_seat *seat, paris_handle *into);

/* *front is the number of the last entry that a seat knows: that of its last call or, where it looked since, of the last entry then. A new
   chapter leaves it. */
uint32_t paris_seat_front(paris_seat *seat, uint64_t *front);

/* Tells who did what, by the number of an entry: *seat is the seat's number, *kind one of enum paris_kind, and *reply how many bytes the text of
   the reply has. The room has that text, or its first bytes where the room has fewer. An order has the number 1 there. Where the history
   has no such entry the call is PARIS_NO_ENTRY. */
uint32_t paris_desk_entry(paris_desk *desk, uint64_t entry, uint64_t *seat, uint32_t *kind, uint8_t *room, size_t len, size_t *reply);

/* Makes all events of the history again, from the state at which it begins, and compares the replies. *agrees is true: the call is a check of
   what no proof says, as that memory holds what was written. */
uint32_t paris_desk_audit(paris_desk *desk, bool *agrees);

/* Begins a new chapter: the history has no entry, and begins at the present state. *entries is how many the last one had. Seats stay. What an
   audit says is of one chapter. */
uint32_t paris_desk_cut(paris_desk *desk, uint64_t *entries);

/* Closes `into`, and opens there a session with the desk's book, and with no order that a line took and no reply. */
uint32_t paris_desk_snapshot(paris_desk *desk, paris_handle *into);

/* Closes a seat, and frees what it owned. The history keeps its entries. A closed seat stays closed, and PARIS_CLOSED says so. */
uint32_t paris_seat_close(paris_seat *seat);

/* Closes a desk, and frees what it owned. A closed desk stays closed, and PARIS_CLOSED says so. */
uint32_t paris_desk_close(paris_desk *desk);

/* Puts the text of a status into a room, or its first bytes where the room has fewer, and answers how many bytes the text has: what
   the fault of this number is, or what stands above beside a status of the library. The text is ASCII, with no zero behind it. Any
   other number, PARIS_OK too, has the empty text. */
size_t paris_fault_text(uint32_t status, uint8_t *room, size_t len);

/* The same of a cause. */
size_t paris_cause_text(uint32_t cause, uint8_t *room, size_t len);

#ifdef __cplusplus
}
#endif

#endif
