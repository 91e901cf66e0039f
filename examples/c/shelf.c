/* Puts a plan's posologies on a shelf, lists them, fetches one, takes one off, and shows the bytes used and what is refused.
 * Built and run by examples/c/run. */
#include "posology.h"
#include <stdio.h>

#if POSOLOGY_VERSION != 4
#error "written for version 4 of posology.h"
#endif

static uint8_t run[1 << 20];
static uint8_t strings[POSOLOGY_STRINGS_BYTES];
static uint8_t table[POSOLOGY_TABLE_BYTES];
static uint8_t out[1 << 16];

/* All zeros, which is an empty shelf; small, so that the plan fills it. It may have up to POSOLOGY_SHELF_BYTES. */
static uint8_t area[560];

/* Over the puts that were taken and not removed since, the sum of the head and the plain text. */
static unsigned long long sum;

static void refused(uint64_t answer, uint64_t place) {
    printf("refused %llu at %llu\n", (unsigned long long)answer, (unsigned long long)place);
}

static void put(uint64_t number, const uint8_t *text, size_t length) {
    uint64_t place;
    uint64_t answer = posology_shelf_put(area, sizeof area, number, text, length, POSOLOGY_PLAN, &place);
    printf("put %llu: ", (unsigned long long)number);
    if (answer != POSOLOGY_DONE) {
        refused(answer, place);
        return;
    }
    printf("%llu bytes\n", (unsigned long long)place);
    sum += POSOLOGY_SHELF_HEAD + place;
}

/* The bytes up to the last that is not zero are those used: a plain text ends with a brace. */
static size_t used(void) {
    size_t n = sizeof area;
    while (n > 0 && area[n - 1] == 0) n--;
    return n;
}

static void list(void) {
    uint64_t number;
    printf("on the shelf:");
    for (uint64_t i = 0; posology_shelf_at(area, sizeof area, i, &number) == POSOLOGY_DONE && number != 0; i++) printf(" %llu", (unsigned long long)number);
    printf("; %zu bytes used of %zu, summed up %llu\n", used(), sizeof area, sum);
}

/* The plain text's length, or 0. A posology that was put for a plan is fetched as a prescription, with the same table. */
static uint64_t fetch(uint64_t number) {
    uint64_t place, written;
    uint64_t answer = posology_shelf_fetch(area, sizeof area, number, strings, sizeof strings, table, sizeof table, &place);
    printf("fetch %llu: ", (unsigned long long)number);
    if (answer != POSOLOGY_DONE) {
        refused(answer, place);
        return 0;
    }
    /* At most 64 records: the number's first byte has them. */
    printf("%u records\n", (unsigned)table[8 * POSOLOGY_COUNT]);
    answer = posology_write(table, sizeof table, strings, sizeof strings, POSOLOGY_PRESCRIPTION, out, sizeof out, &written);
    if (answer == POSOLOGY_DONE) printf("  %.*s\n", (int)written, (const char *)out);
    return place;
}

static void take_off(uint64_t number) {
    uint64_t length = fetch(number);
    uint64_t answer = posology_shelf_remove(area, sizeof area, number);
    printf("remove %llu: ", (unsigned long long)number);
    if (answer != POSOLOGY_DONE) {
        refused(answer, 0);
        return;
    }
    printf("done\n");
    sum -= POSOLOGY_SHELF_HEAD + length;
}

int main(int count, char **args) {
    FILE *f = count == 2 ? fopen(args[1], "rb") : NULL;
    if (!f) {
        fprintf(stderr, "usage: shelf FILE\n");
        return 2;
    }
    size_t length = fread(run, 1, sizeof run, f);
    fclose(f);

    /* posology_next tells where each text ends; blanks in front of it do no harm. */
    size_t at = 0, first = 0;
    for (uint64_t number = 101;; number++) {
        uint64_t place;
        uint64_t answer = posology_next(run + at, length - at, POSOLOGY_PLAN, strings, sizeof strings, table, sizeof table, &place);
        if (answer == POSOLOGY_ONLY_BLANKS) break;
        if (answer != POSOLOGY_DONE) {
            refused(answer, at + place);
            return 1;
        }
        put(number, run + at, place);
        at += place;
        if (first == 0) first = at;
    }
    list();
    put(103, run, first); /* taken */
    put(105, run, first); /* no room */
    take_off(102);
    list();
    put(105, run, first); /* the room that was freed serves */
    take_off(102);        /* no longer there */
    list();
    area[0] = 'p'; /* no mark, no shelf: whatever is asked */
    fetch(101);
    return 0;
}
