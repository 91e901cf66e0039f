/* Times the walk (crate json_walk) beside the same loops written in C, on texts of 32,768 bytes. Built and run by bench/walk. */
#include <stdint.h>
#include <stdio.h>
#include <string.h>
#include <time.h>

uint64_t timed_one_object(const uint8_t *text, size_t len);

enum in_string { PLAIN, ESCAPE, UNIT, UNIT_D, DIGIT3, DIGIT2, DIGIT1, HIGH2, HIGH1, SLASH, LETTER_U, SECOND_D, SECOND_C,
                 TAIL3, TAIL2, TAIL1, AFTER_E0, AFTER_ED, AFTER_F0, AFTER_F4, CLOSES, REFUSES };
enum in_number { START, MINUS, ZERO, WHOLE, POINT, FRACTION, MARK, SIGN, POWER, OVER };
enum mode { VALUE, FIRST_ELEMENT, FIRST_NAME, NAME, COLON, BEHIND };

static int is_blank(uint8_t b) { return b == 9 || b == 10 || b == 13 || b == 32; }
static int is_hex(uint8_t b) { return (b >= 48 && b < 58) || (b >= 65 && b < 71) || (b >= 97 && b < 103); }
static int is_d(uint8_t b) { return b == 68 || b == 100; }
static int is_8_to_b(uint8_t b) { return b == 56 || b == 57 || b == 65 || b == 66 || b == 97 || b == 98; }
static int is_c_to_f(uint8_t b) { return (b >= 67 && b < 71) || (b >= 99 && b < 103); }
static int is_ascii(uint8_t b) { return b >= 32 && b < 128 && b != 34 && b != 92; }

static enum in_string go_if(int test, enum in_string next) { return test ? next : REFUSES; }

static enum in_string plain_after(uint8_t b) {
    if (b < 32) return REFUSES;
    if (b < 34) return PLAIN;
    if (b < 35) return CLOSES;
    if (b < 92) return PLAIN;
    if (b < 93) return ESCAPE;
    if (b < 128) return PLAIN;
    if (b < 0xC2) return REFUSES;
    if (b < 0xE0) return TAIL1;
    if (b < 0xE1) return AFTER_E0;
    if (b < 0xED) return TAIL2;
    if (b < 0xEE) return AFTER_ED;
    if (b < 0xF0) return TAIL2;
    if (b < 0xF1) return AFTER_F0;
    if (b < 0xF4) return TAIL3;
    if (b < 0xF5) return AFTER_F4;
    return REFUSES;
}

static enum in_string escape_after(uint8_t b) {
    switch (b) {
    case '"': case '/': case '\\': case 'b': case 'f': case 'n': case 'r': case 't': return PLAIN;
    case 'u': return UNIT;
    default: return REFUSES;
    }
}

static enum in_string char_after(enum in_string state, uint8_t b) {
    switch (state) {
    case PLAIN: return plain_after(b);
    case ESCAPE: return escape_after(b);
    case UNIT: return is_d(b) ? UNIT_D : go_if(is_hex(b), DIGIT3);
    case UNIT_D: return b >= 48 && b < 56 ? DIGIT2 : go_if(is_8_to_b(b), HIGH2);
    case DIGIT3: return go_if(is_hex(b), DIGIT2);
    case DIGIT2: return go_if(is_hex(b), DIGIT1);
    case DIGIT1: return go_if(is_hex(b), PLAIN);
    case HIGH2: return go_if(is_hex(b), HIGH1);
    case HIGH1: return go_if(is_hex(b), SLASH);
    case SLASH: return go_if(b == 92, LETTER_U);
    case LETTER_U: return go_if(b == 117, SECOND_D);
    case SECOND_D: return go_if(is_d(b), SECOND_C);
    case SECOND_C: return go_if(is_c_to_f(b), DIGIT2);
    case TAIL3: return go_if(b >= 0x80 && b < 0xC0, TAIL2);
    case TAIL2: return go_if(b >= 0x80 && b < 0xC0, TAIL1);
    case TAIL1: return go_if(b >= 0x80 && b < 0xC0, PLAIN);
    case AFTER_E0: return go_if(b >= 0xA0 && b < 0xC0, TAIL1);
    case AFTER_ED: return go_if(b >= 0x80 && b < 0xA0, TAIL1);
    case AFTER_F0: return go_if(b >= 0x90 && b < 0xC0, TAIL2);
    case AFTER_F4: return go_if(b >= 0x80 && b < 0x90, TAIL2);
    default: return REFUSES;
    }
}

static enum in_number digit_after(enum in_number part, uint8_t b) {
    int digit = b >= 48 && b < 58, mark = b == 69 || b == 101;
    switch (part) {
    case START: return b == 45 ? MINUS : b == 48 ? ZERO : digit ? WHOLE : OVER;
    case MINUS: return b == 48 ? ZERO : digit ? WHOLE : OVER;
    case ZERO: return b == 46 ? POINT : mark ? MARK : OVER;
    case WHOLE: return b == 46 ? POINT : digit ? WHOLE : mark ? MARK : OVER;
    case POINT: return digit ? FRACTION : OVER;
    case FRACTION: return digit ? FRACTION : mark ? MARK : OVER;
    case MARK: return b == 43 || b == 45 ? SIGN : digit ? POWER : OVER;
    case SIGN: return digit ? POWER : OVER;
    case POWER: return digit ? POWER : OVER;
    default: return OVER;
    }
}

static int may_end(enum in_number part) { return part == ZERO || part == WHOLE || part == FRACTION || part == POWER; }

/* A part's end, or with the low bit set the byte that breaks it. */
static size_t string_end(const uint8_t *text, size_t len, size_t at) {
    size_t i = at;
    enum in_string state = PLAIN;
    while (i < len && is_ascii(text[i])) i++;
    while (i < len) {
        enum in_string next = char_after(state, text[i]);
        if (next == CLOSES) return (i + 1) * 2;
        if (next == REFUSES) return i * 2 + 1;
        state = next;
        i++;
        if (state == PLAIN)
            while (i < len && is_ascii(text[i])) i++;
    }
    return len * 2 + 1;
}

static size_t number_end(const uint8_t *text, size_t len, size_t at) {
    size_t i = at;
    enum in_number part = START;
    while (i < len) {
        enum in_number next = digit_after(part, text[i]);
        if (next == OVER) return i * 2 + !may_end(part);
        part = next;
        i++;
    }
    return len * 2 + !may_end(part);
}

static size_t word_end(const uint8_t *text, size_t len, size_t at, const char *word, size_t n) {
    for (size_t k = 0; k < n; k++, at++) {
        if (at >= len) return len * 2 + 1;
        if (text[at] != (uint8_t)word[k]) return at * 2 + 1;
    }
    return at * 2;
}

static uint64_t c_one_object(const uint8_t *text, size_t len) {
    size_t at = 0, depth = 1, part;
    uint64_t kinds = 1;
    enum mode mode = FIRST_NAME, then;
    while (at < len && is_blank(text[at])) at++;
    if (at >= len) return len * 4 + 2;
    if (text[at] != '{') return at * 4 + 2;
    at++;
    while (at < len) {
        while (at < len && is_blank(text[at])) at++;
        if (at >= len) break;
        uint8_t b = text[at];
        if (mode == FIRST_ELEMENT && b == ']') goto shut;
        if (mode == FIRST_NAME && b == '}') goto shut;
        switch (mode) {
        case VALUE: case FIRST_ELEMENT:
            then = BEHIND;
            if (b == '"') part = string_end(text, len, at + 1);
            else if (b == '{' || b == '[') {
                if (depth >= 20) return at * 4 + 3;
                depth++;
                kinds = kinds * 2 + (b == '{');
                mode = b == '{' ? FIRST_NAME : FIRST_ELEMENT;
                at++;
                continue;
            } else if (b == 't') part = word_end(text, len, at + 1, "rue", 3);
            else if (b == 'f') part = word_end(text, len, at + 1, "alse", 4);
            else if (b == 'n') part = word_end(text, len, at + 1, "ull", 3);
            else part = number_end(text, len, at);
            break;
        case FIRST_NAME: case NAME:
            if (b != '"') return at * 4 + 2;
            then = COLON;
            part = string_end(text, len, at + 1);
            break;
        case COLON:
            if (b != ':') return at * 4 + 2;
            at++;
            mode = VALUE;
            continue;
        default:
            if (b == ',') {
                mode = kinds % 2 ? NAME : VALUE;
                at++;
                continue;
            }
            if (b == (kinds % 2 ? '}' : ']')) goto shut;
            return at * 4 + 2;
        }
        if (part % 2) return part / 2 * 4 + 2;
        at = part / 2;
        mode = then;
        continue;
    shut:
        at++;
        if (depth == 1) {
            size_t end = at;
            while (at < len && is_blank(text[at])) at++;
            return at < len ? at * 4 + 2 : end * 4;
        }
        depth--;
        kinds /= 2;
        mode = BEHIND;
    }
    return len * 4 + 2;
}

static double now(void) {
    struct timespec t;
    clock_gettime(CLOCK_MONOTONIC, &t);
    return t.tv_sec * 1e9 + t.tv_nsec;
}

static double timed(uint64_t (*f)(const uint8_t *, size_t), const uint8_t *text, size_t len, uint64_t *answer) {
    double best = 1e18;
    for (int round = 0; round < 40; round++) {
        double from = now();
        for (int i = 0; i < 20; i++) *answer += f(text, len);
        double each = (now() - from) / 20;
        if (each < best) best = each;
    }
    *answer = f(text, len);
    return best;
}

/* A text of 32,768 bytes: one object whose list repeats an element. */
static size_t made(uint8_t *text, const char *element) {
    size_t n = strlen(element), at = 6;
    memcpy(text, "{\"a\":[", 6);
    for (;;) {
        memcpy(text + at, element, n);
        at += n;
        if (at + n + 3 > 32768) break;
        text[at++] = ',';
    }
    while (at < 32766) text[at++] = ' ';
    memcpy(text + at, "]}", 2);
    return at + 2;
}

int main(void) {
    static uint8_t text[32768];
    static const struct { const char *name, *element; } kinds[] = {
        {"a plan's objects", "{\"po\":{\"t\":4,\"cyDuU\":4,\"cyDu\":1,\"tdo\":{\"t\":1,\"do\":{\"t\":1,\"a\":1.5}}},\"unit\":\"TABL\"}"},
        {"blanks and objects", "{ \"po\" : { \"t\" : 2 , \"text\" : \"one in the morning\" } , \"unit\" : \"ml\" }"},
        {"long strings", "\"a text of plain characters, one hundred of them or so, as a doctor writes when no code list has the word\""},
        {"escapes", "\"\\u00e9\\n\\ud83d\\ude00\\\\\\\"\""},
        {"UTF-8", "\"\xc3\xa9\xc3\xa0\xe2\x82\xac\xf0\x9f\x98\x80\xc3\xbc\""},
        {"numbers", "999999.999999"},
    };
    double worst = 0;
    for (size_t k = 0; k < sizeof kinds / sizeof *kinds; k++) {
        size_t len = made(text, kinds[k].element);
        uint64_t ours = 0, theirs = 0;
        double a = timed(timed_one_object, text, len, &ours);
        double b = timed(c_one_object, text, len, &theirs);
        printf("%-20s  proved %7.0f ns  C %7.0f ns  ratio %.2f  (%.2f ns a byte)%s\n", kinds[k].name, a, b, a / b, a / len,
               ours == theirs ? "" : "  ANSWERS DIFFER");
        if (a / b > worst) worst = a / b;
    }
    printf("worst ratio %.2f\n", worst);
    return 0;
}
