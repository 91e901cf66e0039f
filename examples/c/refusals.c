/* Every number that a call can return, once, with its place, and that a refusal leaves every lent byte as it was.
 * Built and run by examples/c/run. */
#include "posology.h"
#include <stdio.h>
#include <string.h>

#define LENT 0xA5

static uint8_t strings[POSOLOGY_STRINGS_BYTES];
static uint8_t table[POSOLOGY_TABLE_BYTES];
static uint8_t out[4096];
static int wrong;

static void lend(void) {
    memset(strings, LENT, sizeof strings);
    memset(table, LENT, sizeof table);
    memset(out, LENT, sizeof out);
}

static int untouched(const uint8_t *bytes, size_t n) {
    for (size_t i = 0; i < n; i++)
        if (bytes[i] != LENT) return 0;
    return 1;
}

static void expect(const char *what, int ok) {
    if (!ok) {
        printf("wrong: %s\n", what);
        wrong++;
    }
}

static void answers(const char *call, uint64_t answer, uint64_t place, uint64_t number, uint64_t at) {
    printf("%s: %llu at %llu\n", call, (unsigned long long)answer, (unsigned long long)place);
    expect(call, answer == number && place == at);
}

static void refuses_bytes(const uint8_t *text, size_t n, uint64_t use, size_t room, uint64_t number, uint64_t at) {
    uint64_t place = ~0ULL;
    lend();
    uint64_t answer = posology_read(text, n, use, strings, room, table, sizeof table, &place);
    answers("read", answer, place, number, at);
    expect("strings and table as lent", untouched(strings, sizeof strings) && untouched(table, sizeof table));
    place = ~0ULL;
    answer = posology_next(text, n, use, strings, room, table, sizeof table, &place);
    expect("next refuses as read does", answer == number && place == at);
    expect("strings and table as lent", untouched(strings, sizeof strings) && untouched(table, sizeof table));
}

static void refuses(const char *text, uint64_t number, uint64_t at) {
    refuses_bytes((const uint8_t *)text, strlen(text), POSOLOGY_PRESCRIPTION, sizeof strings, number, at);
}

#define SEQUENCE(detail) "{\"t\":5,\"sos\":[{\"t\":1,\"du\":1,\"duU\":4,\"po\":" detail "}]}"
#define APPLICATION "{\"do\":{\"t\":1,\"a\":1},\"dt\":\"08:00\"}"

/* 1: a text of 32,769 bytes, with no brace in its first 32,768. */
static void too_long(void) {
    static uint8_t text[32769];
    memset(text, ' ', sizeof text);
    text[32768] = '{';
    refuses_bytes(text, sizeof text, POSOLOGY_PLAN, sizeof strings, 1, 32768);
}

/* 15: 32 applications, two records each, below two. */
static void too_many_records(void) {
    static char text[4096];
    const char *front = "{\"po\":{\"t\":3,\"tdo\":{\"t\":2,\"ts\":[";
    strcpy(text, front);
    for (int i = 0; i < 32; i++) {
        if (i > 0) strcat(text, ",");
        strcat(text, APPLICATION);
    }
    strcat(text, "]}}}");
    refuses(text, 15, strlen(front) + 31 * (strlen(APPLICATION) + 1));
}

static void reading(void) {
    const char *good = "{\"po\":{\"t\":2,\"text\":\"xyz\"}}";
    too_long();
    refuses("[1]", 2, 0);
    refuses("{\"a\":[[[[[[[[[[[[[[[[[[[[", 3, 24);
    refuses("{\"po\":1}", 4, 6);
    refuses("{\"po\":{\"t\":2,\"text\":\"x\"},\"zz\":1}", 5, 25);
    refuses("{\"po\":{\"t\":2,\"\\u0074\":2,\"text\":\"x\"}}", 6, 13);
    refuses("{}", 7, 0);
    refuses("{\"po\":{\"t\":1,\"ds\":[1e1,0,0,0]}}", 8, 19);
    refuses("{\"po\":{\"t\":4,\"cyDuU\":4,\"cyDu\":0.4}}", 9, 30);
    refuses("{\"po\":{\"t\":3,\"tdo\":{\"t\":4}}}", 10, 24);
    refuses("{\"po\":{\"t\":1,\"ds\":[1,0,2]}}", 11, 18);
    refuses("{\"po\":{\"t\":3,\"tdo\":{\"t\":1,\"do\":{\"t\":3,\"aMin\":1.0,\"aMax\":1}}}}", 12, 31);
    refuses("{\"dtFrom\":\"2024-03-05T23:30:00+01:00\",\"dtTo\":\"2024-03-06T00:15:00+02:00\",\"po\":{\"t\":2,\"text\":\"x\"}}", 12, 0);
    refuses("{\"dtFrom\":\"2023-02-29\",\"po\":{\"t\":2,\"text\":\"x\"}}", 13, 10);
    refuses("{\"po\":" SEQUENCE(SEQUENCE(SEQUENCE(SEQUENCE("{\"t\":1,\"ds\":[1,0,0,0]}")))) "}", 14, 6 + 3 * 41 + 5);
    too_many_records();
    refuses_bytes((const uint8_t *)good, strlen(good), POSOLOGY_PRESCRIPTION, 2, 16, 20);
    refuses_bytes((const uint8_t *)good, strlen(good), 2, sizeof strings, 17, 0);
}

static void blanks(void) {
    uint64_t place = ~0ULL;
    lend();
    uint64_t answer = posology_next((const uint8_t *)" \n ", 3, POSOLOGY_PLAN, strings, sizeof strings, table, sizeof table, &place);
    answers("next", answer, place, 255, 3);
    expect("strings and table as lent", untouched(strings, sizeof strings) && untouched(table, sizeof table));
}

/* The length is refused as the plain text is; and nothing but the place is written. */
static void no_length(size_t table_len, uint64_t use, uint64_t number, uint64_t at) {
    uint64_t place = ~0ULL;
    uint64_t answer = posology_length(table, table_len, strings, sizeof strings, use, &place);
    answers("length", answer, place, number, at);
}

/* 18: bytes that lay out no table; and the empty table, which no text reads to. */
static void no_table(void) {
    uint64_t place = ~0ULL;
    lend();
    uint64_t answer = posology_write(table, sizeof table, strings, sizeof strings, POSOLOGY_PLAN, out, sizeof out, &place);
    answers("write", answer, place, 18, 0);
    no_length(sizeof table, POSOLOGY_PLAN, 18, 0);
    memset(table, 0, sizeof table);
    place = ~0ULL;
    answer = posology_write(table, sizeof table, strings, sizeof strings, POSOLOGY_PLAN, out, sizeof out, &place);
    answers("write", answer, place, 18, 0);
    no_length(sizeof table, POSOLOGY_PLAN, 18, 0);
    answer = posology_write(table, sizeof table, strings, sizeof strings, 2, out, sizeof out, &place);
    answers("write", answer, place, 17, 0);
    no_length(sizeof table, 2, 17, 0);
    expect("out as lent", untouched(out, sizeof out));
}

/* 19: an area of another size, before all else; and a buffer that is too small. */
static void wrong_size(void) {
    const uint8_t text[] = "{}";
    uint64_t place = ~0ULL;
    lend();
    uint64_t answer = posology_read(text, 2, 2, strings, sizeof strings, table, sizeof table - 1, &place);
    answers("read", answer, place, 19, POSOLOGY_TABLE_BYTES);
    place = ~0ULL;
    answer = posology_next(text, 2, 2, strings, sizeof strings, table, sizeof table - 1, &place);
    answers("next", answer, place, 19, POSOLOGY_TABLE_BYTES);
    place = ~0ULL;
    answer = posology_write(table, 0, strings, sizeof strings, 2, out, sizeof out, &place);
    answers("write", answer, place, 19, POSOLOGY_TABLE_BYTES);
    no_length(sizeof table - 1, 2, 19, POSOLOGY_TABLE_BYTES);
    expect("all as lent", untouched(strings, sizeof strings) && untouched(table, sizeof table) && untouched(out, sizeof out));
}

/* A text taken, and written into a buffer that is one byte too small, and into one that is not. */
static void taken(void) {
    const char *text = " {\"po\":{\"text\":\"x\\u0041\",\"t\":2}} ";
    const char *plain = "{\"po\":{\"t\":2,\"text\":\"xA\"}}";
    size_t n = strlen(plain);
    uint64_t place = ~0ULL;
    lend();
    uint64_t answer = posology_read((const uint8_t *)text, strlen(text), POSOLOGY_PRESCRIPTION, strings, sizeof strings, table, sizeof table, &place);
    answers("read", answer, place, 0, strlen(text));
    expect("strings", memcmp(strings, "xA", 2) == 0 && untouched(strings + 2, sizeof strings - 2));
    answer = posology_next((const uint8_t *)text, strlen(text), POSOLOGY_PRESCRIPTION, strings, sizeof strings, table, sizeof table, &place);
    answers("next", answer, place, 0, strlen(text) - 1);
    place = ~0ULL;
    answer = posology_length(table, sizeof table, strings, sizeof strings, POSOLOGY_PRESCRIPTION, &place);
    answers("length", answer, place, 0, n);
    answer = posology_write(table, sizeof table, strings, sizeof strings, POSOLOGY_PRESCRIPTION, out, n - 1, &place);
    answers("write", answer, place, 19, n);
    expect("out as lent", untouched(out, sizeof out));
    answer = posology_write(table, sizeof table, strings, sizeof strings, POSOLOGY_PRESCRIPTION, out, n, &place);
    answers("write", answer, place, 0, n);
    expect("plain text", memcmp(out, plain, n) == 0 && untouched(out + n, sizeof out - n));
    table[8 * POSOLOGY_COUNT] = 2;
    answer = posology_write(table, sizeof table, strings, sizeof strings, POSOLOGY_PRESCRIPTION, out, sizeof out, &place);
    answers("write", answer, place, 18, 0);
}

/* 20 to 24, and some of reading between them, on a shelf that has a byte less than two of these texts take. */
static void shelving(void) {
    static const uint8_t text[] = "{\"po\":{\"t\":2,\"text\":\"x\"}}";
    static uint8_t area[2 * (POSOLOGY_SHELF_HEAD + sizeof text - 1) - 1], before[sizeof area];
    const struct {
        uint64_t number, use;
        size_t length;
        uint64_t answer, place;
    } puts[] = {
        {258, POSOLOGY_PRESCRIPTION, sizeof text - 1, 0, sizeof text - 1},
        {0, 2, 0, 21, 0},
        {258, 2, 0, 22, 0},
        {7, 2, 0, 17, 0},
        {7, POSOLOGY_PRESCRIPTION, 3, 2, 3},
        {7, POSOLOGY_PRESCRIPTION, sizeof text - 1, 24, 0},
    };
    const struct {
        uint64_t number;
        size_t room, table_len;
        uint64_t answer, place;
    } fetches[] = {
        {0, sizeof strings, sizeof table - 1, 19, POSOLOGY_TABLE_BYTES},
        {65536, sizeof strings, sizeof table, 21, 0},
        {7, sizeof strings, sizeof table, 23, 0},
        {258, 0, sizeof table, 16, 20},
    };
    uint64_t place, answer;
    lend();
    for (size_t i = 0; i < sizeof puts / sizeof *puts; i++) {
        memcpy(before, area, sizeof area);
        place = ~0ULL;
        answer = posology_shelf_put(area, sizeof area, puts[i].number, text, puts[i].length, puts[i].use, &place);
        answers("shelf_put", answer, place, puts[i].answer, puts[i].place);
        expect("area as lent", answer == 0 || memcmp(area, before, sizeof area) == 0);
    }
    for (size_t i = 0; i < sizeof fetches / sizeof *fetches; i++) {
        place = ~0ULL;
        answer = posology_shelf_fetch(area, sizeof area, fetches[i].number, strings, fetches[i].room, table, fetches[i].table_len, &place);
        answers("shelf_fetch", answer, place, fetches[i].answer, fetches[i].place);
    }
    answers("shelf_remove", posology_shelf_remove(area, sizeof area, 0), 0, 21, 0);
    answers("shelf_remove", posology_shelf_remove(area, sizeof area, 7), 0, 23, 0);
    expect("area as lent", memcmp(area, before, sizeof area) == 0);
    before[0] = area[0] = 0;
    answer = posology_shelf_put(area, sizeof area, 0, text, 0, 2, &place);
    answers("shelf_put", answer, place, 20, 0);
    answer = posology_shelf_fetch(area, sizeof area, 0, strings, sizeof strings, table, sizeof table, &place);
    answers("shelf_fetch", answer, place, 20, 0);
    answers("shelf_remove", posology_shelf_remove(area, sizeof area, 0), 0, 20, 0);
    place = ~0ULL;
    answer = posology_shelf_at(area, sizeof area, 0, &place);
    answers("shelf_at", answer, place, 20, 0);
    expect("all as lent", memcmp(area, before, sizeof area) == 0 && untouched(strings, sizeof strings) && untouched(table, sizeof table));
}

int main(void) {
    reading();
    blanks();
    no_table();
    wrong_size();
    taken();
    shelving();
    printf(wrong ? "%d wrong\n" : "all as documented\n", wrong);
    return wrong != 0;
}
