/* The rules of the texts, by hand: what bench/plain_check.c and bench/plain_write.c ask of a text.
   A run starts at `at` and goes no further than `end`; a text is `n` bytes from `s` on. */
#ifndef PLAIN_RULES_H
#define PLAIN_RULES_H

#include <stddef.h>
#include <stdint.h>
#include <string.h>

enum {
    MOST_ID = 35, MOST_NAME = 70, MOST_REMITTANCE = 140,
    MOST_ADDRESS_LINE = 70, MOST_ADDRESS_CODE = 16, MOST_TOWN = 35
};

/* What a byte is. */
enum { LETTER = 1, DIGIT = 2, CAPITAL = 4, SMALL = 8, SPACE = 16 };

#define DIGIT_1 (LETTER | DIGIT)
#define CAPITAL_1 (LETTER | CAPITAL)
#define SMALL_1 (LETTER | SMALL)
#define TIMES_5(x) x, x, x, x, x
#define TIMES_26(x) TIMES_5(x), TIMES_5(x), TIMES_5(x), TIMES_5(x), TIMES_5(x), x

static const uint8_t CLASS[256] = {
    ['\t'] = SPACE, ['\n'] = SPACE, ['\r'] = SPACE, [' '] = LETTER | SPACE,
    ['/'] = LETTER, ['-'] = LETTER, ['?'] = LETTER, [':'] = LETTER, ['('] = LETTER, [')'] = LETTER,
    ['.'] = LETTER, [','] = LETTER, ['\''] = LETTER, ['+'] = LETTER,
    ['0'] = TIMES_5(DIGIT_1), TIMES_5(DIGIT_1),
    ['A'] = TIMES_26(CAPITAL_1),
    ['a'] = TIMES_26(SMALL_1),
};

static inline int is(uint8_t byte, int classes) { return (CLASS[byte] & classes) != 0; }

/* The end of the run of bytes of some classes. */
static inline const uint8_t *run(const uint8_t *at, const uint8_t *end, int classes) {
    while (at < end && is(*at, classes)) at++;
    return at;
}

static inline int all(const uint8_t *s, size_t n, int classes) { return run(s, s + n, classes) == s + n; }

/* A text of the letter set. */
static inline int good_letters(const uint8_t *s, size_t n, size_t most) { return n >= 1 && n <= most && all(s, n, LETTER); }

/* Neither at an end nor beside another: the slashes of a text that is not empty. */
static inline int good_slashes(const uint8_t *s, size_t n) {
    if (s[0] == '/' || s[n - 1] == '/') return 0;
    for (size_t i = 1; i < n; i++)
        if (s[i] == '/' && s[i - 1] == '/') return 0;
    return 1;
}

static inline int good_id(const uint8_t *s, size_t n) { return good_letters(s, n, MOST_ID) && good_slashes(s, n); }

/* Digits as a number; at most 15, so that it fits. */
static inline uint64_t number(const uint8_t *s, size_t n) {
    uint64_t value = 0;
    for (size_t i = 0; i < n; i++) value = 10 * value + (s[i] - '0');
    return value;
}

/* 1 to 15 digits. */
static inline int good_count(const uint8_t *s, size_t n, uint64_t *value) {
    if (n < 1 || n > 15 || !all(s, n, DIGIT)) return 0;
    *value = number(s, n);
    return 1;
}

/* 1 to `most` digits, then optionally a point and 1 or 2 digits. */
static inline int good_sum(const uint8_t *s, size_t n, size_t most, uint64_t *cents) {
    size_t whole = (size_t)(run(s, s + n, DIGIT) - s), more = n - whole;
    if (whole < 1 || whole > most || more == 1 || more > 3) return 0;
    *cents = 100 * number(s, whole);
    if (more == 0) return 1;
    const uint8_t *point = s + whole;
    if (*point != '.' || !all(point + 1, more - 1, DIGIT)) return 0;
    *cents += 10 * (uint64_t)(point[1] - '0') + (more == 3 ? (uint64_t)(point[2] - '0') : 0);
    return 1;
}

static inline int good_amount(const uint8_t *s, size_t n, uint64_t *cents) { return good_sum(s, n, 9, cents) && *cents > 0; }

static inline int good_date(const uint8_t *s, size_t n) {
    static const uint8_t DAYS[13] = {0, 31, 29, 31, 30, 31, 30, 31, 31, 30, 31, 30, 31};
    if (n != 10 || !all(s, 4, DIGIT) || s[4] != '-' || !all(s + 5, 2, DIGIT) || s[7] != '-' || !all(s + 8, 2, DIGIT)) return 0;
    uint64_t year = number(s, 4), month = number(s + 5, 2), day = number(s + 8, 2);
    if (year < 1900 || year > 2099 || month < 1 || month > 12 || day < 1 || day > DAYS[month]) return 0;
    return month != 2 || day < 29 || (year % 4 == 0 && year != 1900);
}

static inline int good_time(const uint8_t *s, size_t n) {
    return n == 19 && good_date(s, 10) && s[10] == 'T' && all(s + 11, 2, DIGIT) && s[13] == ':' && all(s + 14, 2, DIGIT) && s[16] == ':'
        && all(s + 17, 2, DIGIT) && number(s + 11, 2) < 24 && number(s + 14, 2) < 60 && number(s + 17, 2) < 60;
}

/* What is left on division by 97 of a number whose rest so far is `rest`, once some bytes of an IBAN follow it. */
static inline uint64_t rest_of_97(uint64_t rest, const uint8_t *s, size_t n) {
    for (size_t i = 0; i < n; i++) {
        rest = is(s[i], DIGIT) ? 10 * rest + (s[i] - '0') : 100 * rest + ((s[i] | 32) - 'a' + 10);
        if (rest > 10000000000000000) rest %= 97;
    }
    return rest % 97;
}

static inline int good_iban(const uint8_t *s, size_t n) {
    return n >= 5 && n <= 34 && all(s, 2, CAPITAL) && all(s + 2, 2, DIGIT) && all(s + 4, n - 4, CAPITAL | SMALL | DIGIT)
        && rest_of_97(rest_of_97(0, s + 4, n - 4), s, 4) == 1;
}

static inline int good_bic(const uint8_t *s, size_t n) {
    return (n == 8 || n == 11) && all(s, n, CAPITAL | DIGIT) && all(s + 4, 2, CAPITAL) && !(n == 11 && memcmp(s, "NOTPROVIDED", 11) == 0);
}

static inline int is_creditor_id_shaped(const uint8_t *s, size_t n) {
    return n >= 8 && n <= MOST_ID && all(s, 2, CAPITAL) && all(s + 2, 2, DIGIT) && all(s + 4, n - 4, CAPITAL | DIGIT);
}

static inline int good_creditor_id(const uint8_t *s, size_t n) {
    return is_creditor_id_shaped(s, n) && rest_of_97(rest_of_97(0, s + 7, n - 7), s, 4) == 1;
}

static inline int good_country(const uint8_t *s, size_t n) { return n == 2 && all(s, n, CAPITAL); }

/* The refusals of a text, one for each test. */
enum { BAD_LENGTH = 51, BAD_LETTER, BAD_SLASH, BAD_NUMBER, BAD_DATE, BAD_CODE, BAD_SHAPE, BAD_CHECK_DIGITS };

/* What a text is. A kind that has one test is the refusal of that test. */
enum kind {
    ID_KIND, NAME_KIND, REMITTANCE_KIND, ADDRESS_LINE_KIND, ADDRESS_CODE_KIND, TOWN_KIND,
    IBAN_KIND, CREDITOR_ID_KIND,
    NUMBER_KIND = BAD_NUMBER, DATE_KIND = BAD_DATE, CODE_KIND = BAD_CODE, SHAPE_KIND = BAD_SHAPE
};

/* The first tests of good_iban. */
__attribute__((cold, noinline, unused)) static int is_iban_shaped(const uint8_t *s, size_t n) {
    return n >= 5 && n <= 34 && all(s, 2, CAPITAL) && all(s + 2, 2, DIGIT) && all(s + 4, n - 4, CAPITAL | SMALL | DIGIT);
}

/* The refusal of a bad text: that of the first test that it fails. */
__attribute__((cold, noinline, unused)) static uint64_t refusal(enum kind kind, const uint8_t *s, size_t n) {
    static const size_t MOST[] = {
        [ID_KIND] = MOST_ID, [NAME_KIND] = MOST_NAME, [REMITTANCE_KIND] = MOST_REMITTANCE,
        [ADDRESS_LINE_KIND] = MOST_ADDRESS_LINE, [ADDRESS_CODE_KIND] = MOST_ADDRESS_CODE,
        [TOWN_KIND] = MOST_TOWN,
    };
    if (kind == IBAN_KIND) return is_iban_shaped(s, n) ? BAD_CHECK_DIGITS : BAD_SHAPE;
    if (kind == CREDITOR_ID_KIND) return is_creditor_id_shaped(s, n) ? BAD_CHECK_DIGITS : BAD_SHAPE;
    if (kind >= NUMBER_KIND) return kind;
    if (n < 1 || n > MOST[kind]) return BAD_LENGTH;
    return all(s, n, LETTER) ? BAD_SLASH : BAD_LETTER;
}

#endif
