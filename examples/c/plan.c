/* Reads a plan's posologies from a file, one behind the other, and prints the records of each and its plain text, for which it reserves no more than
 * it takes. Built and run by examples/c/run. */
#include "posology.h"
#include <stdio.h>
#include <stdlib.h>

static uint8_t run[1 << 20];
static uint8_t strings[POSOLOGY_STRINGS_BYTES];
static uint8_t table[POSOLOGY_TABLE_BYTES];

/* A tag's name, and what its values are called. */
static const struct {
    const char *name;
    const char *values[4];
} KINDS[] = {
    {"none", {0}},
    {"Daily", {"morning", "noon", "evening", "night"}},
    {"FreeText", {"start", "length"}},
    {"Single", {0}},
    {"Cyclic", {"unit", "duration", "times"}},
    {"Sequence", {0}},
    {"DosageOnly", {0}},
    {"Times", {0}},
    {"DaySegments", {0}},
    {"WeekDays", {"days"}},
    {"DaysOfMonth", {"days"}},
    {"Interval", {"duration", "unit"}},
    {"Simple", {"amount"}},
    {"FromTo", {"from", "to", "unit", "duration"}},
    {"Range", {"least", "most"}},
    {"PosologySequence", {"duration", "unit"}},
    {"Pause", {"duration", "unit"}},
    {"at a time", {"second"}},
    {"in a segment", {"segment"}},
};

static uint64_t number(size_t i) {
    uint64_t n = 0;
    for (size_t k = 8; k > 0; k--) n = n << 8 | table[8 * i + k - 1];
    return n;
}

static void print_text(const char *name, size_t i) {
    if (number(i + 1) > 0) printf("  %s %.*s\n", name, (int)number(i + 1), (const char *)strings + number(i));
}

static void print_record(size_t i) {
    size_t at = POSOLOGY_RECORD + POSOLOGY_RECORD_NUMBERS * i;
    uint64_t tag = number(at);
    printf("  %zu %s", i, KINDS[tag].name);
    for (size_t k = 0; k < 4 && KINDS[tag].values[k]; k++) printf(", %s %llu", KINDS[tag].values[k], (unsigned long long)number(at + 2 + k));
    if (number(at + 1) > 0) printf(" (%llu below)", (unsigned long long)number(at + 1));
    printf("\n");
    if (tag == 2) print_text("text", at + 2);
}

static int print_plain(void) {
    uint64_t length, place;
    uint64_t answer = posology_length(table, sizeof table, strings, sizeof strings, POSOLOGY_PLAN, &length);
    uint8_t *out = answer == POSOLOGY_DONE ? malloc(length) : NULL;
    if (out) answer = posology_write(table, sizeof table, strings, sizeof strings, POSOLOGY_PLAN, out, length, &place);
    if (!out || answer != POSOLOGY_DONE) {
        fprintf(stderr, "not written: %llu\n", (unsigned long long)answer);
        return 1;
    }
    uint64_t most = POSOLOGY_PLAIN_MOST(number(POSOLOGY_COUNT), number(POSOLOGY_TEXT));
    printf("  %llu bytes, and at most %llu of such a table\n", (unsigned long long)length, (unsigned long long)most);
    printf("  %.*s\n", (int)length, (const char *)out);
    free(out);
    return 0;
}

int main(int count, char **args) {
    FILE *f = count == 2 ? fopen(args[1], "rb") : NULL;
    if (!f) {
        fprintf(stderr, "usage: plan FILE\n");
        return 2;
    }
    size_t length = fread(run, 1, sizeof run, f);
    fclose(f);
    for (size_t at = 0;;) {
        uint64_t place;
        uint64_t answer = posology_next(run + at, length - at, POSOLOGY_PLAN, strings, sizeof strings, table, sizeof table, &place);
        if (answer == POSOLOGY_ONLY_BLANKS) return 0;
        if (answer != POSOLOGY_DONE) {
            printf("refused %llu %llu\n", (unsigned long long)answer, (unsigned long long)(at + place));
            return 1;
        }
        printf("posology at %zu\n", at);
        for (size_t i = 0; i < number(POSOLOGY_COUNT); i++) print_record(i);
        print_text("unit", POSOLOGY_UNIT);
        print_text("instructions", POSOLOGY_INSTRUCTIONS);
        print_text("roa", POSOLOGY_ROA);
        print_text("moa", POSOLOGY_MOA);
        if (print_plain() != 0) return 1;
        at += place;
    }
}
