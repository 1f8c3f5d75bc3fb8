/* Mwswythog: a watcher for event patterns. For x86-64 Linux; from the C library it needs memcpy and memset alone.
 *
 * A call answers a status word, 0 if it was accepted, and never stops its caller. If it is refused, everything that it was
 * given to write keeps its value. No call allocates, locks, or keeps a pointer, so threads may call at once, each with its
 * own memory to write.
 *
 * A slice is a pointer and a count of elements. With count 0 the pointer may be null; every other pointer must be valid and
 * aligned. What a call writes (a slice or a number that is not const) must not overlap any other argument of that call:
 * otherwise the behaviour is undefined. Slices that are only read (const) may overlap each other.
 */
#ifndef MWS_H
#define MWS_H

#include <stddef.h>
#include <stdint.h>

#ifdef __cplusplus
extern "C" {
#endif

/* The parts of a status word. */
#define MWS_NUMBER(status) ((unsigned)((status) & 0xff))            /* 0 if accepted, else the refusal's number */
#define MWS_PLACE(status)  ((uint32_t)((status) >> 8 & 0xffffffff)) /* its place, see below */
#define MWS_ENTRY(status)  ((unsigned)((status) >> 40 & 0xff))      /* of MWS_BODY: the entry in that body */
#define MWS_FILE(status)   ((unsigned)((status) >> 48 & 0xf))       /* of a lookup: 0 the site file, 1 the fleet file */

/* The refusals by number. The place is 0 where none is named here. A place that does not fit 32 bits is given as
 * 4,294,967,295 (2^32 - 1). */
enum {
    MWS_LONG = 1,       /* the pattern's text has over 1,024 bytes */
    MWS_SYNTAX = 2,     /* the text is no expression; place: how many of its bytes still begin one */
    MWS_MANY = 3,       /* the text has over 63 entries */
    MWS_COUNT = 4,      /* not 1 to 16 patterns, or the contents are cut short, or the names are not 8 bytes a pattern */
    MWS_FILE_ENTRY = 5, /* an entry of a file's contents breaks a rule; place: its index */
    MWS_SIZE = 6,       /* a file or a body ends too early or too late */
    MWS_BODY = 7,       /* a body breaks a rule; place: the body's index, 0 for a lone body; MWS_ENTRY: the entry */
    MWS_ROOM = 8,       /* a slice to write in is too short; place: the length needed */
    MWS_STATE = 9,      /* a state is not in form; place: its index, 0 for a lone state */
    MWS_RANGE = 10,     /* a tick or a window's end over 4,294,967,295, or a window that ends before it starts; place: in a
                         * feed the tick's index */
    MWS_LATE = 11,      /* a tick below the next one allowed; place: in a set the state's index, in a feed the tick's */
    MWS_RECORD = 12,    /* over 64 event words; in a feed, not as many events as ticks */
    MWS_FULL = 13,      /* the tally would pass 64 bits */
    MWS_LINE = 14,      /* a malformed input line; only the watch program gives it */
    MWS_ABSENT = 15     /* the name is in neither file */
};

/* The bytes of stack that a call takes at most. They are measured, and tests/stack.c fails if a call takes more. */
enum {
    MWS_STACK_TEXT_READ = 150000, /* mws_text_read: about 144 for each bracket that is open at once, at most 1,024 */
    MWS_STACK_TEXT_PRINT = 10000, /* mws_text_print */
    MWS_STACK = 4096              /* each of the other calls */
};

/* Checks a body: 5 bytes an entry. Refusals, in the order in which they are looked for: 6, 7. */
uint64_t mws_body_check(const uint8_t *body, size_t n);

/* Reads a pattern's text into a body of at most 315 bytes; gives the bytes written. Refusals: 1, 2, 3, 8. */
uint64_t mws_text_read(const uint8_t *text, size_t n, uint8_t *body, size_t room, uint64_t *written);

/* Prints a body as its pattern's text, at most 807 bytes; gives the bytes written. Refusals: 6, 7, 8. */
uint64_t mws_text_print(const uint8_t *body, size_t n, uint8_t *text, size_t room, uint64_t *written);

/* Checks a pattern file. Refusals: 4, 5, 6, 7. */
uint64_t mws_file_check(const uint8_t *file, size_t n);

/* Writes a pattern file of names (8 bytes each, padded with spaces, rising), numbers of entries (one a pattern) and bodies
 * end to end; gives the bytes written. Refusals: 4, 5, 6, 7, 8. */
uint64_t mws_file_write(const uint8_t *names, size_t n, const uint8_t *counts, size_t k, const uint8_t *bodies, size_t m,
                        uint8_t *file, size_t room, uint64_t *written);

/* Looks a padded name up, in the site file first: gives where the body begins in the file that MWS_FILE names, and its
 * length. Refusals: 4, 5, 6, 7 of the site file, then of the fleet file, as MWS_FILE says; then 15. */
uint64_t mws_file_lookup(const uint8_t *site, size_t n, const uint8_t *fleet, size_t m, const uint8_t *name, size_t k,
                         uint64_t *from, uint64_t *length);

/* Evaluates a body on at most 64 event words: 64 rows for each entry, bit s of row e for the instance from s to e. Refusals:
 * 6, 7, 12, 8. */
uint64_t mws_plain(const uint8_t *body, size_t n, const uint32_t *events, size_t m, uint64_t *rows, size_t room);

/* The latest start of a row: start + 1, or 0. Not a status. */
uint64_t mws_row_latest(uint64_t row);

/* How many instances a row has. Not a status. */
uint64_t mws_row_count(uint64_t row);

/* Gives the words that a body's state takes. Refusals: 6, 7. */
uint64_t mws_watch_room(const uint8_t *body, size_t n, uint64_t *words);

/* Opens a state for a body; words beyond its room are not touched. Refusals: 6, 7, 8. */
uint64_t mws_watch_open(const uint8_t *body, size_t n, uint64_t *state, size_t words);

/* Takes a tick with its word of events; gives start + 1 of the window that ends there, with the latest start if there are
 * several, or 0 for none. Refusals: 10, 9, 11. */
uint64_t mws_watch_tick(uint64_t *state, size_t words, uint64_t tick, uint32_t events, uint64_t *answer);

/* Takes many ticks at once, all or none: ticks[i] with events[i] gives answers[i], as mws_watch_tick does. The state is
 * judged only once. Refusals: 12 if n is not m; 8 if there is room for fewer than n answers; 9; and then the first faulty
 * tick decides, its index in ticks being the place: 10 if it is over 4,294,967,295, else 11, as it is below the next tick
 * allowed. */
uint64_t mws_watch_feed(uint64_t *state, size_t words, const uint64_t *ticks, size_t n, const uint32_t *events, size_t m,
                        uint64_t *answers, size_t room);

/* Gives the words that the states of a file's patterns take. Refusals: 4, 5, 6, 7. */
uint64_t mws_set_room(const uint8_t *file, size_t n, uint64_t *words);

/* Opens a state for each pattern of a file, one after the other in the slice. Refusals: 4, 5, 6, 7, 8. */
uint64_t mws_set_open(const uint8_t *file, size_t n, uint64_t *states, size_t words);

/* Takes a tick in each of `count` states, all or none: one answer a pattern, start + 1 or 0. Refusals: 4 (the count of
 * states), 8 (the answers), 10, 9 over all states, 11 over all states. */
uint64_t mws_set_tick(uint64_t *states, size_t words, uint64_t count, uint64_t tick, uint32_t events, uint64_t *answers,
                      size_t n);

/* A tally: how many windows were added, and the sum of end - start + 1 over them. */
struct mws_tally {
    uint64_t windows, ticks;
};

/* Adds the window from start to end. Refusals: 10, 13. */
uint64_t mws_tally_add(struct mws_tally *tally, uint64_t start, uint64_t end);

#ifdef __cplusplus
}
#endif

#endif
