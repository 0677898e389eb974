/* How a text fails a test of its rule, in a sentence. The library has refused the text, and its number says
   which test that is; what is said here only explains it. */
#include <inttypes.h>
#include <string.h>
#include "host.h"

#define LETTERS "abcdefghijklmnopqrstuvwxyzABCDEFGHIJKLMNOPQRSTUVWXYZ0123456789/-?:().,'+ "

/* "Character 4 is "_"": the character that begins at this byte, with its bytes where it has more than one. */
static void say_character(FILE *to, struct text text, size_t at) {
    size_t n = character_length(text, at);
    n += n == 0;
    fprintf(to, "Character %zu is ", at + 1);
    print_text(to, (struct text){text.bytes + at, n});
    if (n > 1) {
        fputs(" (bytes", to);
        for (size_t i = 0; i < n; i++) fprintf(to, " %02X", text.bytes[at + i]);
        fputc(')', to);
    }
}

/* "It has 36 characters", or bytes where a character of the text has more than one. */
static void say_length(FILE *to, struct text text) {
    size_t ascii = 0;
    while (ascii < text.length && text.bytes[ascii] < 0x80) ascii++;
    fprintf(to, "It has %zu %s", text.length, ascii == text.length ? "characters" : "bytes");
}

static size_t say_empty(FILE *to) {
    fputs("It is empty.", to);
    return 0;
}

/* ─── plain texts: a length, the letter set, slashes ─── */

static size_t most_of(enum rule rule) {
    switch (rule) {
    case LETTERS_16: return 16;
    case IDENTIFIER:
    case LETTERS_35: return 35;
    case NAME: return 70;
    default: return 140;
    }
}

static size_t length_flaw(FILE *to, enum rule rule, struct text text) {
    size_t most = most_of(rule);
    if (text.length == 0) return say_empty(to);
    say_length(to, text);
    fprintf(to, "; at most %zu are allowed.", most);
    return most;
}

static size_t letter_flaw(FILE *to, struct text text) {
    size_t at = 0;
    while (at < text.length && text.bytes[at] && strchr(LETTERS, text.bytes[at])) at++;
    if (at == text.length) return at;
    say_character(to, text, at);
    fputs(", which is not in the letter set.", to);
    return at;
}

static size_t find_slash(struct text text) {
    for (size_t i = 0; i < text.length; i++)
        if (text.bytes[i] == '/' && (i == 0 || i + 1 == text.length || text.bytes[i + 1] == '/')) return i;
    return text.length;
}

static size_t slash_flaw(FILE *to, struct text text) {
    size_t at = find_slash(text);
    fputs(at == 0                 ? "It begins with a slash."
          : at + 1 == text.length ? "It ends with a slash."
                                  : "It has two slashes in a row.",
          to);
    return at;
}

/* ─── numbers: digits, a point, one or two digits ─── */

static size_t digits_from(struct text text, size_t at) {
    size_t n = 0;
    while (at + n < text.length && text.bytes[at + n] >= '0' && text.bytes[at + n] <= '9') n++;
    return n;
}

/* Whether one or two digits stand after the point and nothing else; where not, that is said and `at` is the byte
   at fault. */
static int has_decimals(FILE *to, struct text text, size_t start, size_t *at) {
    size_t n = digits_from(text, start);
    *at = start + n;
    if (start + n < text.length) {
        say_character(to, text, start + n);
        fputs("; after the point only one or two digits are allowed.", to);
        return 0;
    }
    if (n == 1 || n == 2) return 1;
    fprintf(to, "It has %zu digits after the point; one or two are allowed.", n);
    if (n > 2) *at = start + 2;
    return 0;
}

/* The cents of a list. */
static size_t cents_flaw(FILE *to, struct text bytes) {
    fputs("It is ", to);
    print_euros(to, number_of(bytes));
    fputs(number_of(bytes) == 0 ? "; the least is 0.01 EUR." : "; the most is 999999999.99 EUR.", to);
    return 0;
}

static size_t number_flaw(FILE *to, enum rule rule, struct text text) {
    size_t most = rule == AMOUNT ? 9 : 15, whole = digits_from(text, 0), at;
    int money = rule != COUNT;
    if (rule == CENTS) return cents_flaw(to, text);
    if (text.length == 0) return say_empty(to);
    if (whole < text.length && (!money || text.bytes[whole] != '.' || whole == 0)) {
        say_character(to, text, whole);
        if (whole == 0)
            fputs("; it must begin with a digit.", to);
        else if (money)
            fputs(text.bytes[whole] == ',' ? "; the decimal mark is a point."
                                           : "; only digits and one point are allowed.",
                  to);
        else
            fputs("; only digits are allowed.", to);
        return whole;
    }
    if (whole > most) {
        fprintf(to, "It has %zu digits%s; at most %zu are allowed.", whole, money ? " before the point" : "",
                most);
        return most;
    }
    if (whole < text.length && !has_decimals(to, text, whole + 1, &at)) return at;
    fputs("It is worth 0; the least is 0.01.", to);
    return 0;
}

/* ─── shapes: a pattern of characters, and how many more may follow ───

   In a pattern A is a capital, 9 a digit, N a capital or a digit, X a letter or a digit; any other character
   stands for itself. */

struct shape {
    const char *front;  /* the pattern of the first characters */
    char rest;          /* that of each that follows */
    size_t least, most; /* how many follow */
    const char *of;
};

static int is_capital(uint8_t c) { return c >= 'A' && c <= 'Z'; }
static int is_digit(uint8_t c) { return c >= '0' && c <= '9'; }

static int fits(char pattern, uint8_t c) {
    if (pattern == 'A') return is_capital(c);
    if (pattern == '9') return is_digit(c);
    if (pattern == 'N') return is_capital(c) || is_digit(c);
    if (pattern == 'X') return is_capital(c) || is_digit(c) || (c >= 'a' && c <= 'z');
    return pattern == c;
}

static void say_pattern(FILE *to, char pattern) {
    if (pattern == 'A')
        fputs("a capital letter", to);
    else if (pattern == '9')
        fputs("a digit", to);
    else if (pattern == 'N')
        fputs("a capital letter or a digit", to);
    else if (pattern == 'X')
        fputs("a letter or a digit", to);
    else
        fprintf(to, "\"%c\"", pattern);
}

/* Whether the text has the shape; where it has not, the sentence is said and `at` is its byte at fault. */
static int has_shape(FILE *to, struct text text, const struct shape *shape, size_t *at) {
    size_t front = strlen(shape->front), i;
    for (i = 0; i < text.length && i < front + shape->most; i++) {
        char pattern = i < front ? shape->front[i] : shape->rest;
        if (fits(pattern, text.bytes[i])) continue;
        say_character(to, text, i);
        if (text.bytes[i] == ' ') {
            fprintf(to, "; %s has no spaces.", shape->of);
        } else {
            fputs("; ", to);
            say_pattern(to, pattern);
            fputs(" must stand there.", to);
        }
        *at = i;
        return 0;
    }
    *at = i;
    if (text.length > front + shape->most) {
        say_length(to, text);
        fprintf(to, "; %s has at most %zu.", shape->of, front + shape->most);
        return 0;
    }
    if (text.length >= front + shape->least) return 1;
    if (text.length == 0) {
        fprintf(to, "It is empty; %s has at least %zu characters.", shape->of, front + shape->least);
        return 0;
    }
    fputs("It ends after ", to);
    print_many(to, text.length, "character", "characters");
    fprintf(to, "; %s has at least %zu.", shape->of, front + shape->least);
    return 0;
}

/* ─── dates ─── */

static unsigned two_digits(struct text text, size_t at) {
    return (text.bytes[at] - '0') * 10U + (text.bytes[at + 1] - '0');
}

/* The parts of a date and time whose shape is right. */
static size_t clock_flaw(FILE *to, struct text text) {
    static const struct {
        const char *name;
        size_t at;
        unsigned most;
    } parts[] = {{"hour", 11, 23}, {"minute", 14, 59}, {"second", 17, 59}};
    for (size_t i = 0; i < 3; i++) {
        unsigned n = two_digits(text, parts[i].at);
        if (n <= parts[i].most) continue;
        fprintf(to, "The %s is %02u; the highest is %u.", parts[i].name, n, parts[i].most);
        return parts[i].at;
    }
    return 0;
}

static size_t date_flaw(FILE *to, enum rule rule, struct text text) {
    static const struct shape date = {"9999-99-99", 0, 0, 0, "a date, as 2026-11-10,"};
    static const struct shape date_time = {"9999-99-99T99:99:99", 0, 0, 0, "a time, as 2026-11-10T09:30:00,"};
    static const char *const months[] = {"January",   "February", "March",    "April",
                                         "May",       "June",     "July",     "August",
                                         "September", "October",  "November", "December"};
    static const unsigned most[] = {31, 28, 31, 30, 31, 30, 31, 31, 30, 31, 30, 31};
    size_t at;
    if (!has_shape(to, text, rule == TIME ? &date_time : &date, &at)) return at;
    unsigned year = two_digits(text, 0) * 100 + two_digits(text, 2), month = two_digits(text, 5),
             day = two_digits(text, 8);
    if (year < 1900 || year > 2099) {
        fprintf(to, "The year is %04u; years go from 1900 to 2099.", year);
        return 0;
    }
    if (month < 1 || month > 12) {
        fprintf(to, "The month is %02u; months go from 01 to 12.", month);
        return 5;
    }
    unsigned days = most[month - 1] + (month == 2 && (year % 4 == 0 && (year % 100 != 0 || year % 400 == 0)));
    if (day < 1 || day > days) {
        fprintf(to, "The day is %02u; %s %u has the days 01 to %u.", day, months[month - 1], year, days);
        return 8;
    }
    return rule == TIME ? clock_flaw(to, text) : 0;
}

/* ─── IBAN, BIC, creditor identifier, country ─── */

static const struct shape *shape_of(enum rule rule) {
    static const struct shape iban = {"AA99", 'X', 1, 30, "an IBAN"};
    static const struct shape bic = {"NNNNAANN", 'N', 0, 3, "a BIC"};
    static const struct shape creditor = {"AA99NNN", 'N', 1, 28, "a creditor identifier"};
    static const struct shape country = {"AA", 0, 0, 0, "a country, as CH,"};
    return rule == IBAN ? &iban : rule == BIC ? &bic : rule == COUNTRY ? &country : &creditor;
}

static size_t shape_flaw(FILE *to, enum rule rule, struct text text) {
    size_t at;
    if (!has_shape(to, text, shape_of(rule), &at)) return at;
    if (text.length == 11) {
        fputs("NOTPROVIDED is no BIC. A message says Othr, Id and NOTPROVIDED in the place of BICFI; a list "
              "leaves the BIC empty.",
              to);
        return 0;
    }
    fprintf(to, "It has %zu characters; a BIC has 8 or 11.", text.length);
    return 8;
}

/* What is left on division by 97 of a number that left `n`, with these characters put after it; letters are
   read as 10 to 35. */
static unsigned read_on(unsigned n, struct text text, size_t from, size_t end) {
    for (size_t i = from; i < end; i++) {
        uint8_t c = text.bytes[i];
        if (is_digit(c))
            n = (n * 10 + (c - '0')) % 97;
        else
            n = (n * 100 + (is_capital(c) ? c - 'A' : c - 'a') + 10U) % 97;
    }
    return n;
}

/* What the number of an IBAN or a creditor identifier leaves with the check digits 00: what follows them comes
   first, of a creditor identifier without its business code; then the country, then 00. */
static unsigned remainder_with_00(enum rule rule, struct text text) {
    unsigned national = read_on(0, text, rule == CREDITOR ? 7 : 4, text.length);
    return read_on(national, text, 0, 2) * 100 % 97;
}

/* The check digits are the last digits of the number, so they add what they are worth. */
static size_t check_digits_flaw(FILE *to, enum rule rule, struct text text) {
    unsigned with_00 = remainder_with_00(rule, text), left = (with_00 + two_digits(text, 2)) % 97;
    int creditor = rule == CREDITOR;
    fprintf(to, "The check digits%s do not fit: %sthe number leaves %u on division by 97, and must leave 1. ",
            creditor ? " of the creditor identifier" : "",
            creditor ? "without the business code (characters 5 to 7) " : "", left);
    if (creditor) fprintf(to, "With the rest as it stands they would have to be %02u. ", 98 - with_00);
    fputs("A digit or letter is likely mistyped.", to);
    return 2;
}

/* ─── codes ─── */

static size_t code_flaw(FILE *to, enum rule rule, struct text text) {
    if (rule == SCHEME_BYTE || rule == SEQUENCE_BYTE)
        fprintf(to, "It is %" PRIu64 ".", number_of(text));
    else if (text.length == 0)
        say_empty(to);
    else
        fputs("It is no code that may stand there; capitals and small letters differ, and spaces count.", to);
    return 0;
}

size_t explain_flaw(FILE *to, uint64_t number, enum rule rule, struct text text) {
    switch (number) {
    case BAD_LENGTH: return length_flaw(to, rule, text);
    case BAD_LETTER: return letter_flaw(to, text);
    case BAD_SLASH: return slash_flaw(to, text);
    case BAD_NUMBER: return number_flaw(to, rule, text);
    case BAD_DATE: return date_flaw(to, rule, text);
    case BAD_CODE: return code_flaw(to, rule, text);
    case BAD_SHAPE: return shape_flaw(to, rule, text);
    default: return check_digits_flaw(to, rule, text);
    }
}
