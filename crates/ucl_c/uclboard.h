/* The table board of one group of the UEFA Champions League, for C and C++. docs/LIBRARY.md has programs,
 * docs/RULES.md the rules.
 *
 * Every call returns a status, 0 (UCLBOARD_DONE) on success; but uclboard_version returns a number, and
 * uclboard_pass_drop nothing. At any other status a call has written nothing, except what its comment says.
 * Errors are listed in order of precedence: if several apply, the first is returned. Only where a list ends with 'or
 * UCLBOARD_OUT_OF_MEMORY' may that come in place of another; not of those about handles.
 *
 * What a caller owes: a pointer points to as many elements as the number beside it says, to one if there is none,
 * and is aligned as their type is. It is never null, not even if that number is 0; uclboard_screen_length returns a
 * length without a buffer. What a call writes to overlaps nothing else that it is given. Any other input has its
 * status. No call keeps a pointer to the caller's memory.
 *
 * Any thread may make any call at any time, but a handle is in one call at a time. Make no call in a signal handler,
 * or in the forked child of a process with threads. A call has to return: do not leave it by longjmp, and do not cancel
 * a thread in it by pthread_cancel with PTHREAD_CANCEL_ASYNCHRONOUS, or the pass of its handle is lost. No call is a
 * cancellation point of the deferred type. uclboard_script takes up to 64 KiB of stack, each other call less than 8
 * (measured).
 *
 * uclboard_screen, uclboard_screen_length, uclboard_screen_json and uclboard_script ask malloc for memory, and give
 * back all of it. uclboard_open, uclboard_pass_split and uclboard_pass_enlist ask for what a board and a pass take,
 * and uclboard_pass_drop gives it back. These eight may block in malloc and free, which have to be of one allocator
 * with realloc, aligned to 16. No other call asks for memory or blocks.
 *
 * The library is for Linux on x86-64 processors of level x86-64-v2 or later.
 */
#ifndef UCLBOARD_H
#define UCLBOARD_H

#include <stddef.h>
#include <stdint.h>

#ifdef __cplusplus
extern "C" {
#endif

#if defined(__GNUC__) || defined(__clang__)
#define UCLBOARD_NEEDS_LOOK __attribute__((warn_unused_result))
#else
#define UCLBOARD_NEEDS_LOOK
#endif

/* The version of this header: the first number times 1,000,000, the second times 1,000, and the third. Structs and
   numbers do not change while the first number stays. More may be added: give a switch over statuses a default. */
#define UCLBOARD_VERSION_NUMBER 1000000

/* The status of a call. 1 to 9 are the refusals of an event by the rules, tested in the order 1, 2, 9, 3, 4, 5, 6,
   7, 8. */
typedef uint32_t uclboard_status;
enum {
    UCLBOARD_DONE = 0,
    UCLBOARD_STALE = 1,           /* the expected number is not the match's, which is returned: look at the match, and
                                     if your event is missing enter it with that number. Whether a goal that came in
                                     between is yours, only a person can say */
    UCLBOARD_FINISHED = 2,        /* the match is finished, and the event is no reopening */
    UCLBOARD_NOT_STARTED = 3,     /* the match has not kicked off */
    UCLBOARD_ALREADY_STARTED = 4, /* a kick-off of a match in play */
    UCLBOARD_NUMBER_FULL = 5,     /* the event number is 4094 or more, and the event is not full time */
    UCLBOARD_NO_GOAL = 6,         /* a goal is disallowed for a side that has none */
    UCLBOARD_NO_CAUTION = 7,      /* a second yellow for a side with no standing yellow */
    UCLBOARD_LIMIT_REACHED = 8,   /* goals or yellows would pass 63, or expulsions 31 */
    UCLBOARD_NOT_FINISHED = 9,    /* a reopening of a match that is not finished */
    UCLBOARD_BAD_WORD = 10,       /* a word of no valid record; of twelve, the first such word is returned, 1 to 12 */
    UCLBOARD_BAD_ROW = 20,        /* a row of a script is missing, or is not what its place demands: the first such row
                                     is returned, counted from 1 */
    UCLBOARD_BAD_ROSTER = 21,     /* a name that is not 1 to 20 bytes from 0x20 to 0x7e, or a coefficient over 999,999:
                                     the lowest such slot is returned */
    UCLBOARD_OUT_OF_MEMORY = 23,  /* malloc refused memory; or, for a split and an enlistment, a board has more handles
                                     than can be counted */
    UCLBOARD_TOO_LONG = 24,       /* a script of more than 4,194,304 bytes */
    UCLBOARD_FULL_BOARD = 30,     /* 255 reporters were enlisted, as many as there are numbers; dropped ones count too */
    UCLBOARD_NO_REPORTER = 50,    /* not the number of a reporter, 1 to 255 */
    UCLBOARD_NO_KIND = 51,        /* no kind of event has this number */
    UCLBOARD_NO_PROFILE = 52,     /* no order has this number */
    UCLBOARD_NO_GROUP = 53,       /* not a letter from 'A' to 'H' */
    UCLBOARD_NOT_TWELVE = 54,     /* not twelve words */
    UCLBOARD_NOT_FOUR = 55,       /* not four clubs, or coefficients */
    UCLBOARD_NO_ROOM = 56,        /* too small for the text and its zero, or for the replies: the length of the text, or
                                     the number of replies, is returned */
    UCLBOARD_NOT_FOUR_ROWS = 57,  /* not room for exactly four rows */
    UCLBOARD_NO_STATUS = 58,      /* no status has this number */
    UCLBOARD_IN_USE = 59,         /* the handle that was to be given a pass is not null */
    UCLBOARD_NO_PASS = 60,        /* the handle is null: it holds no pass */
    UCLBOARD_NOT_A_READER = 61,   /* a reporter's pass is neither split nor enlisted */
    UCLBOARD_NO_MATCH = 62,       /* not the number of a match, 1 to 12 */
    UCLBOARD_NOT_A_REPORTER = 63  /* a reader's pass reports nothing, and has no number */
};

/* The kind of an event. */
enum {
    UCLBOARD_KICK_OFF = 0,
    UCLBOARD_GOAL_HOME = 1,
    UCLBOARD_GOAL_AWAY = 2,
    UCLBOARD_DISALLOW_HOME = 3,
    UCLBOARD_DISALLOW_AWAY = 4,
    UCLBOARD_YELLOW_HOME = 5,
    UCLBOARD_YELLOW_AWAY = 6,
    UCLBOARD_SECOND_YELLOW_HOME = 7, /* takes one standing yellow of the side and adds an expulsion; enter the first as a yellow */
    UCLBOARD_SECOND_YELLOW_AWAY = 8,
    UCLBOARD_RED_HOME = 9,
    UCLBOARD_RED_AWAY = 10,
    UCLBOARD_FULL_TIME = 11,
    UCLBOARD_REOPEN = 12
};

/* The order of clubs that are level on points: that of the Regulations, or with away goals after goals scored in the
   matches among them. */
enum { UCLBOARD_UEFA = 0, UCLBOARD_AWAY_IN_TIE = 1 };

/* The state of a match. */
enum { UCLBOARD_SCHEDULED = 0, UCLBOARD_IN_PLAY = 1, UCLBOARD_ENDED = 2 };

/* The mark of a club: none, certain to be among the first two, certain not to be. */
enum { UCLBOARD_BLANK = 0, UCLBOARD_PLUS = 1, UCLBOARD_MINUS = 2 };

/* The word of a match before its kick-off. A new board is twelve of them. */
#define UCLBOARD_SCHEDULED_WORD UINT64_C(0x2000000000000000)

/* A board of twelve zeros: each is the word of the first layout of a match before its kick-off. Calls on twelve words
   read it so; uclboard_next_word and uclboard_match_of refuse a zero as UCLBOARD_BAD_WORD, until uclboard_read_word
   has read it. */

/* How many words a board has, how many clubs a group, and how many bytes a name at most. */
#define UCLBOARD_WORDS 12
#define UCLBOARD_CLUBS 4
#define UCLBOARD_NAME 20

/* Room for each screen, each line of JSON and each name of a status, with its zero. A screen has at most 296 bytes,
   and a line of JSON 1,423 with its line feed: a buffer with this room never gets UCLBOARD_NO_ROOM. */
#define UCLBOARD_SCREEN_ROOM 320
#define UCLBOARD_JSON_ROOM 1536
#define UCLBOARD_NAME_ROOM 32

/* The record of a match. */
typedef struct uclboard_match {
    uint32_t number;                          /* the event number: how many events were accepted, 0 to 4095 */
    uint32_t state;                           /* UCLBOARD_SCHEDULED, UCLBOARD_IN_PLAY or UCLBOARD_ENDED */
    uint32_t home_goals, away_goals;          /* 0 to 63 */
    uint32_t home_yellows, away_yellows;      /* yellow cards that stand, 0 to 63 */
    uint32_t home_expulsions, away_expulsions; /* 0 to 31 */
    uint32_t reporter;                        /* who entered the last event, 1 to 255; 0 before the kick-off */
} uclboard_match;

/* A club of a group. Its slot is its place in an array of four, counted from 1. Two clubs may have one name. */
typedef struct uclboard_club {
    char name[UCLBOARD_NAME]; /* the name in its first bytes, with no zero */
    uint32_t length;          /* how many bytes of it are the name, 1 to 20 */
    uint32_t coefficient;     /* in whole thousandths, 0 to 999,999 */
} uclboard_club;

/* A club at its place of the table. All numbers but the first three are of matches in play and finished. */
typedef struct uclboard_row {
    uint32_t slot;                      /* 1 to 4 */
    uint32_t place;                     /* 1 to 4 */
    uint32_t mark;                      /* UCLBOARD_BLANK, UCLBOARD_PLUS or UCLBOARD_MINUS */
    uint32_t played, wins, draws, losses; /* 0 to 6 */
    uint32_t goals_for, goals_against;  /* 0 to 378 */
    uint32_t points;                    /* 0 to 18 */
} uclboard_row;

/* What became of an event of a script. */
typedef struct uclboard_reply {
    uint32_t row;          /* the row of the event, counted from 1: 5 for the first event */
    uint32_t match_number; /* the match, 1 to 12 */
    uint32_t status;       /* UCLBOARD_DONE if the event was entered, otherwise the rule that refuses it, 1 to 9 */
    uint32_t event_number; /* the match's event number after it, 1 to 4095; if it is stale the number found; or 0 */
    uint32_t version;      /* how many events were entered by then */
} uclboard_reply;

/* Returns the version of the library. It fits this header if its millions are those of UCLBOARD_VERSION_NUMBER. */
uint32_t uclboard_version(void);

/* Gives the word of a match after an event, in `next`, or the rule that refuses the event. `word` is of today's
   layout. `expected` is the event number of the match that the reporter last saw.
   Errors: UCLBOARD_NO_REPORTER, UCLBOARD_NO_KIND, UCLBOARD_BAD_WORD, and the rules in their order.
   UCLBOARD_STALE gives the match's event number in `found`, and no other status writes there. Neither `next` nor
   `found` may be null. */
UCLBOARD_NEEDS_LOOK uclboard_status uclboard_next_word(uint64_t word, uint32_t reporter, uint32_t expected, uint32_t kind, uint64_t *next,
                                                       uint32_t *found);

/* Reads a word that was saved, of today's layout or of the first: the word of the same record in today's goes to
   `read`, which may not be null. Errors: UCLBOARD_BAD_WORD. */
UCLBOARD_NEEDS_LOOK uclboard_status uclboard_read_word(uint64_t word, uint64_t *read);

/* Gives the record of a word of today's layout, in `match`, which may not be null. Errors: UCLBOARD_BAD_WORD. */
UCLBOARD_NEEDS_LOOK uclboard_status uclboard_match_of(uint64_t word, uclboard_match *match);

/* Gives the version of a board, in `version`: the sum of the event numbers of its twelve words, which may be of both
   layouts. Errors: UCLBOARD_NOT_TWELVE, UCLBOARD_BAD_WORD, which gives the word in `at`. Neither `version` nor `at`
   may be null. */
UCLBOARD_NEEDS_LOOK uclboard_status uclboard_board_version(const uint64_t *words, size_t words_length, uint32_t *version, uint32_t *at);

/* Gives the table of twelve words, which may be of both layouts, and of the coefficients of four clubs, by slots:
   four `rows`, by places. Names change no table.
   Errors: UCLBOARD_NO_PROFILE, UCLBOARD_NOT_TWELVE, UCLBOARD_BAD_WORD, UCLBOARD_NOT_FOUR, UCLBOARD_BAD_ROSTER,
   UCLBOARD_NOT_FOUR_ROWS. A bad word and a bad roster give the word or the slot in `at`; no other status writes
   there. Neither `rows` nor `at` may be null. */
UCLBOARD_NEEDS_LOOK uclboard_status uclboard_standings(const uint64_t *words, size_t words_length, const uint32_t *coefficients,
                                                       size_t coefficients_length, uint32_t profile, uclboard_row *rows, size_t rows_length,
                                                       uint32_t *at);

/* Writes the screen of twelve words, which may be of both layouts, and of four clubs: six lines of ASCII and a zero
   at the front of `out`, and the number of bytes before the zero in `length`. `group` is a letter from 'A' to 'H'.
   Errors: UCLBOARD_NO_PROFILE, UCLBOARD_NO_GROUP, UCLBOARD_NOT_TWELVE, UCLBOARD_BAD_WORD, UCLBOARD_NOT_FOUR,
   UCLBOARD_BAD_ROSTER (`at` as above), UCLBOARD_NO_ROOM, which gives `length` too; or UCLBOARD_OUT_OF_MEMORY.
   None of `out`, `length` and `at` may be null. */
UCLBOARD_NEEDS_LOOK uclboard_status uclboard_screen(const uint64_t *words, size_t words_length, const uclboard_club *clubs, size_t clubs_length,
                                                    uint32_t group, uint32_t profile, char *out, size_t out_length, size_t *length,
                                                    uint32_t *at);

/* Gives the length of that screen, without the zero. Errors: those of uclboard_screen, but UCLBOARD_NO_ROOM. Neither
   `length` nor `at` may be null. */
UCLBOARD_NEEDS_LOOK uclboard_status uclboard_screen_length(const uint64_t *words, size_t words_length, const uclboard_club *clubs,
                                                           size_t clubs_length, uint32_t group, uint32_t profile, size_t *length, uint32_t *at);

/* Writes that screen as one line of JSON, with its line feed and a zero: the line by which `ucl_live --format json`
   answers a row `screen,,,` of this number, but without the members `edition` and `matches`. Output and errors are
   those of uclboard_screen. None of `out`, `length` and `at` may be null. */
UCLBOARD_NEEDS_LOOK uclboard_status uclboard_screen_json(uint64_t row, const uint64_t *words, size_t words_length, const uclboard_club *clubs,
                                                         size_t clubs_length, uint32_t group, uint32_t profile, char *out, size_t out_length,
                                                         size_t *length, uint32_t *at);

/* Plays a whole script, the bytes of rows as docs/REFERENCE.md has them: enters its events in turn on a new board. The
   four clubs go to `clubs`, with zeros behind a name of fewer than 20 bytes, the twelve words after the last event to
   `words`, what became of each event to the front of `replies`, and how many events there are to `count`. A script has
   at most one event more than it has line feeds and carriage returns.
   Errors: UCLBOARD_NOT_TWELVE and UCLBOARD_NOT_FOUR, the room for words and for clubs; UCLBOARD_TOO_LONG;
   UCLBOARD_BAD_ROW of rows 1 to 4; UCLBOARD_BAD_ROSTER; UCLBOARD_BAD_ROW of rows from 5 on; UCLBOARD_NO_ROOM, which
   gives `count` too; or UCLBOARD_OUT_OF_MEMORY. A bad row and a bad roster give the row or the slot in `at`; no other
   status writes there. None of `clubs`, `words`, `replies`, `count` and `at` may be null. */
UCLBOARD_NEEDS_LOOK uclboard_status uclboard_script(const char *script, size_t script_length, uclboard_club *clubs, size_t clubs_length,
                                                    uint64_t *words, size_t words_length, uclboard_reply *replies, size_t replies_length,
                                                    size_t *count, uint32_t *at);

/* Writes the name of a status and a zero at the front of `out`, and the number of bytes before the zero in `length`.
   The name of a refusal is that which ucl_night prints. Errors: UCLBOARD_NO_STATUS, UCLBOARD_NO_ROOM, which gives the
   length in `length`. Neither `out` nor `length` may be null. */
UCLBOARD_NEEDS_LOOK uclboard_status uclboard_text_of_status(uint32_t status, char *out, size_t out_length, size_t *length);

/* A board that threads share, behind handles. A handle is a pointer that begins as NULL and then holds a pass: a
   reader's or a reporter's permission on a board. Each call is given the address of the handle. The board exists as
   long as one of its handles does. No call waits for another thread, except in malloc and free. A report is one load
   and at most one compare and exchange, an enlistment at most 255 of these, and a reading that k events overtake at
   most k + 1 tries of 24 loads. The loop by which a split and an enlistment count one handle more has no such bound. A
   reading that begins after a report has returned has its event. A board is of one process: after a fork parent and
   child have one each.

   What a caller owes: a handle that is not NULL was given by this library and not yet dropped. It is kept in one
   variable, it is in one call at a time, and the caller neither reads nor writes what it points to. A call takes the
   pass out of its variable while it runs, so no other thread may read the variable then. A handle may go to another
   thread, by that thread's start or end, by a lock, or by an atomic, with release and acquire or stronger. Several
   handles of one board are used at once, each in a thread of its own. */
typedef struct uclboard_pass uclboard_pass;

/* Opens a new board, and puts its first pass, a reader's, into the handle at `pass`, which was NULL. Errors:
   UCLBOARD_IN_USE, or UCLBOARD_OUT_OF_MEMORY. `pass` itself, where the handle is, may not be null. */
UCLBOARD_NEEDS_LOOK uclboard_status uclboard_open(uclboard_pass **pass);

/* Puts a second reader's pass of the same board into the handle at `other`, which was NULL. It has seen all that the
   first has seen. Errors: UCLBOARD_IN_USE, UCLBOARD_NO_PASS, UCLBOARD_NOT_A_READER, or UCLBOARD_OUT_OF_MEMORY.
   Neither `pass` nor `other`, where the handles are, may be null. */
UCLBOARD_NEEDS_LOOK uclboard_status uclboard_pass_split(uclboard_pass **pass, uclboard_pass **other);

/* Puts a reporter's pass of the same board into the handle at `other`, which was NULL; `pass` stays a reader's. No other
   pass of the board has its number, 1 to 255, or ever gets it. Errors: UCLBOARD_IN_USE, UCLBOARD_NO_PASS,
   UCLBOARD_NOT_A_READER, UCLBOARD_OUT_OF_MEMORY, which spends no number, UCLBOARD_FULL_BOARD, after which `pass` can do
   what it could. Neither `pass` nor `other`, where the handles are, may be null. */
UCLBOARD_NEEDS_LOOK uclboard_status uclboard_pass_enlist(uclboard_pass **pass, uclboard_pass **other);

/* Enters an event of a match, 1 to 12, under the number of a reporter's pass. `expected` is the event number of the
   match that the reporter last saw. `number` is the match's event number after the event, at UCLBOARD_STALE the number
   found; no other status writes there. Errors: UCLBOARD_NO_KIND, UCLBOARD_NO_MATCH, UCLBOARD_NO_PASS,
   UCLBOARD_NOT_A_REPORTER, and the rules in their order. Neither `pass` nor `number` may be null. */
UCLBOARD_NEEDS_LOOK uclboard_status uclboard_pass_report(uclboard_pass **pass, uint32_t match, uint32_t expected, uint32_t kind, uint32_t *number);

/* Gives the number of a reporter's pass, 1 to 255, in `number`: words have it as the reporter of its events. Errors:
   UCLBOARD_NO_PASS, UCLBOARD_NOT_A_REPORTER. Neither `pass` nor `number` may be null. */
UCLBOARD_NEEDS_LOOK uclboard_status uclboard_pass_number(uclboard_pass **pass, uint32_t *number);

/* Reads the board by a pass of either kind: a snapshot of twelve words at one point of the call, and their version, how
   many events had been entered by then. Errors: UCLBOARD_NOT_TWELVE, UCLBOARD_NO_PASS. None of `pass`, `words` and
   `version` may be null. */
UCLBOARD_NEEDS_LOOK uclboard_status uclboard_pass_read(uclboard_pass **pass, uint64_t *words, size_t words_length, uint32_t *version);

/* Drops the pass of a handle, and with the last pass of a board the board. The handle is NULL then; one that was stays
   so. `pass`, where the handle is, may not be null. */
void uclboard_pass_drop(uclboard_pass **pass);

#ifdef __cplusplus
}
#endif
#endif
