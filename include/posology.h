/* ChMed23A posologies (eMediplan, "Posology" 2.1) read, written and kept on a shelf from C.
 *
 * The eight functions are proved: for every input, the number that is returned, the place, and each byte of the lent buffers are those that
 * docs/FORMAT.md names (docs/PROMISES.md). They allocate nothing, keep nothing between calls and call nothing of the C library but memcpy and
 * memset, which the compiler puts in; what they are lent they use until they return, and not after. Calls in different threads don't meet, as long as no buffer that one of them writes is
 * another's.
 *
 * What the caller sees to, since C can't say it:
 *   - no pointer is NULL, not even where the length beside it is 0, and each leads to as many bytes as that length says; `place`, and
 *     the `number` of posology_shelf_at, are aligned as a uint64_t is;
 *   - a buffer that is written (`strings`, `table`, `out`, `*place`, `*number`, and the `area` of posology_shelf_put and posology_shelf_remove) shares no
 *     byte with any other buffer of the call; posology_shelf_fetch and posology_shelf_at only read the area;
 *   - the calling thread has 64 KB of stack left for posology_read, posology_next, posology_write and posology_length, and 128 KB for the four of the shelf (32 KB and
 *     63 KB are the most that was seen used, of the library that an older kit built: measured, not proved).
 *
 * Nothing else is asked. Any bytes may be in any buffer, a length may be any, and a use or a number, too, is tested.
 */
#ifndef POSOLOGY_H
#define POSOLOGY_H

#include <stddef.h>
#include <stdint.h>

#ifdef __cplusplus
extern "C" {
#endif

/* One higher with each landing that changes a function, a layout or an answer: 1 had posology_read, posology_next and posology_write, 2 adds the shelf,
 * 3 compares two dates with a time as moments (answers 12, 18 and 20), 4 adds posology_length.
 * A program refuses to build against another version by
 *     #if POSOLOGY_VERSION != 4
 *     #error "written for version 4 of posology.h"
 *     #endif */
#define POSOLOGY_VERSION 4

/* The size of the area that a table lies in (docs/AREA.md): 410 numbers of 8 bytes, the least significant first. */
#define POSOLOGY_TABLE_BYTES 3280

/* The most text that a table can name: a longer `strings` buffer is used up to here. */
#define POSOLOGY_STRINGS_BYTES 2048

/* The plain text of a table with so many records (number POSOLOGY_COUNT) and so many bytes of text (POSOLOGY_TEXT) is at most as long as this. */
#define POSOLOGY_PLAIN_MOST(records, text_bytes) (6 * (text_bytes) + 128 * (records) + 256)

/* No plain text is longer: POSOLOGY_PLAIN_MOST of 64 records and POSOLOGY_STRINGS_BYTES. */
#define POSOLOGY_PLAIN_BYTES 20736

/* The most bytes that a shelf's area may have; it may have fewer, and none. */
#define POSOLOGY_SHELF_BYTES 65535

/* The bytes in front of each plain text on a shelf: a mark, the number, the length (docs/AREA.md). */
#define POSOLOGY_SHELF_HEAD 6

/* What a posology is for. */
enum posology_use {
    POSOLOGY_PLAN = 1,
    POSOLOGY_PRESCRIPTION = 3
};

/* What a call returns (docs/FORMAT.md, "Answers by number"); behind each, what `*place` is. */
enum posology_answer {
    POSOLOGY_DONE = 0,          /* done: see each function */
    POSOLOGY_TOO_LONG = 1,      /* text longer than 32,768 bytes: 32,768 */
    POSOLOGY_NO_JSON = 2,       /* not one JSON object in UTF-8: the first byte with which the bytes so far begin no such text, or the length */
    POSOLOGY_TOO_DEEP = 3,      /* the 21st { or [ open at once: that byte */
    POSOLOGY_WRONG_KIND = 4,    /* wrong JSON kind: the value */
    POSOLOGY_UNKNOWN_NAME = 5,  /* name not known in this object: its quote */
    POSOLOGY_NAME_TWICE = 6,    /* name twice in an object: the second's quote */
    POSOLOGY_MISSING = 7,       /* required member missing: the object's brace */
    POSOLOGY_NOT_CARRIED = 8,   /* number with an exponent, over 18 characters, or not in whole millionths: the value */
    POSOLOGY_OUT_OF_RANGE = 9,  /* outside its range or value set: the value */
    POSOLOGY_NOT_UNDER = 10,    /* type not allowed under its parent: the value of t */
    POSOLOGY_WRONG_COUNT = 11,  /* wrong count in ds; empty sos, wds, doms; a day twice: the list's bracket */
    POSOLOGY_AGAINST = 12,      /* aTo, aMax or dtTo against its partner: the object's brace */
    POSOLOGY_NO_DATE = 13,      /* not a date or time: the value */
    POSOLOGY_SEQUENCES = 14,    /* a fourth sequence inside three: the value of t */
    POSOLOGY_RECORDS_FULL = 15, /* a 65th record: the object's brace */
    POSOLOGY_TEXT_FULL = 16,    /* a string past the text room: the value */
    POSOLOGY_WRONG_USE = 17,    /* use neither 1 nor 3: 0 */
    POSOLOGY_NO_TABLE = 18,     /* writer and posology_length: bytes that lay out no table, or a table and strings that no text reads to for this use: 0 */
    POSOLOGY_WRONG_SIZE = 19,   /* `table` of another size: POSOLOGY_TABLE_BYTES. writer: text longer than `out`: the length needed */
    POSOLOGY_NO_SHELF = 20,     /* shelf: area over 65,535 bytes, not laid out as a shelf, a number 0 or twice, or a text that is no plain text for use 3: 0 */
    POSOLOGY_NO_NUMBER = 21,    /* shelf: number 0, or over 65,535: 0 */
    POSOLOGY_NUMBER_TAKEN = 22, /* posology_shelf_put: number already there: 0 */
    POSOLOGY_NOT_THERE = 23,    /* posology_shelf_fetch, posology_shelf_remove: number not there: 0 */
    POSOLOGY_NO_ROOM = 24,      /* posology_shelf_put: fewer free bytes than POSOLOGY_SHELF_HEAD and the plain text's length: 0 */
    POSOLOGY_ONLY_BLANKS = 255  /* posology_next: only blanks remain: the run's length */
};

/* Where numbers stand in the area, counted in numbers: number i is bytes 8 * i to 8 * i + 7 (docs/AREA.md). */
enum posology_number {
    POSOLOGY_FROM = 0,          /* seven: form (0 absent, 1 bare, 2 with a time), year, month, day, second, west, zone in minutes */
    POSOLOGY_TO = 7,            /* the same */
    POSOLOGY_RESERVE = 14,      /* 0 or 1 */
    POSOLOGY_MEAL = 15,         /* 1 to 6, or 0 */
    POSOLOGY_UNIT = 16,         /* start and length in `strings`, as of the next three */
    POSOLOGY_INSTRUCTIONS = 18,
    POSOLOGY_ROA = 20,
    POSOLOGY_MOA = 22,
    POSOLOGY_COUNT = 24,        /* the records that are used */
    POSOLOGY_TEXT = 25,         /* the bytes of `strings` that are used */
    POSOLOGY_RECORD = 26,       /* 64 records of six: tag, records below, four values */
    POSOLOGY_RECORD_NUMBERS = 6
};

/* Reads one posology text (in this form since version 1). 0: `table` is its table, the first bytes of `strings` its strings, and *place the text's length.
 * Any other number: both buffers are as they were lent. */
uint64_t posology_read(const uint8_t *text, size_t text_len, uint64_t use, uint8_t *strings, size_t strings_len, uint8_t *table, size_t table_len, uint64_t *place);

/* Reads the first posology of a run (since version 1). 0: as posology_read, and *place is the place behind the posology's last byte, where the next call begins.
 * Any other number: both buffers are as they were lent. */
uint64_t posology_next(const uint8_t *run, size_t run_len, uint64_t use, uint8_t *strings, size_t strings_len, uint8_t *table, size_t table_len, uint64_t *place);

/* Writes a table's plain text (since version 1). 0: it is the first *place bytes of `out`, and those behind are as they were lent.
 * Any other number: `out` is as it was lent. */
uint64_t posology_write(const uint8_t *table, size_t table_len, const uint8_t *strings, size_t strings_len, uint64_t use, uint8_t *out, size_t out_len, uint64_t *place);

/* Tells the length of a table's plain text without writing it (since version 4). 0: *place is that length; posology_write needs an `out` of so many bytes
 * and no more, and answers 19 with that length for a shorter one. It is at most POSOLOGY_PLAIN_MOST of the table's records and bytes of text, which is
 * 6 times its bytes of text, 128 times its records, and 256, added up, and so never over POSOLOGY_PLAIN_BYTES.
 * Any other number, with its place, is what posology_write answers with any `out`: 17, 18, or 19 for a `table` of another size. Nothing but *place is written. */
uint64_t posology_length(const uint8_t *table, size_t table_len, const uint8_t *strings, size_t strings_len, uint64_t use, uint64_t *place);

/* A shelf keeps posologies as plain texts in one lent area, each under a number from 1 to 65,535, in the order in which they were put; an area of
 * zeros is an empty shelf. Any bytes may lie in the area: every call goes over all of it first, and refuses with 20 what is no shelf.
 * Then it refuses with 21, with 22 or 23, with what reading refuses and at its place, with 24, in this order. */

/* Reads a text as posology_read does, with POSOLOGY_STRINGS_BYTES of room, and stores its plain text under the number, behind the last (since version 2).
 * 0: *place is the length of the plain text. Any other number: the area is as it was lent. */
uint64_t posology_shelf_put(uint8_t *area, size_t area_len, uint64_t number, const uint8_t *text, size_t text_len, uint64_t use, uint64_t *place);

/* Reads the plain text under a number, for use 3, which takes both uses (since version 2). 0: `table` and `strings` are as posology_read of that plain text
 * leaves them, and *place is its length. Any other number: both buffers are as they were lent. 16 says that `strings` is too short for it; 19, that
 * `table` is of another size, comes before all else. */
uint64_t posology_shelf_fetch(const uint8_t *area, size_t area_len, uint64_t number, uint8_t *strings, size_t strings_len, uint8_t *table, size_t table_len, uint64_t *place);

/* Takes a number and its plain text off the shelf (since version 2). 0: those behind it have moved up, and the room is free for the next put.
 * Any other number, whose place is 0: the area is as it was lent. */
uint64_t posology_shelf_remove(uint8_t *area, size_t area_len, uint64_t number);

/* Tells which number stands at a position, counted from 0 (since version 2). 0: *number is that number, or 0 past the last. 20: *number is 0. */
uint64_t posology_shelf_at(const uint8_t *area, size_t area_len, uint64_t position, uint64_t *number);

#ifdef __cplusplus
}
#endif

#endif
