/* The lines of a day list: their fields by name, their digits, their values. Whether a value is good is asked
   of the library. */
#include <string.h>
#include "host.h"

/* ─── fields ─── */

#define GOOD(s) {(const uint8_t *)s, sizeof s - 1}

static const struct field CREDITOR_FIELD[CREDITOR_FIELDS] = {
    {"message id", IDENTIFIER, 0, 0, GOOD("A")},
    {"creation time", TIME, 0, 0, GOOD("2026-01-01T00:00:00")},
    {"initiating name", NAME, 0, 0, GOOD("A")},
    {"creditor name", NAME, 0, 0, GOOD("A")},
    {"creditor IBAN", IBAN, 0, 0, GOOD("BE540")},
    {"creditor BIC", BIC, 0, 1, GOOD("")},
    {"creditor identifier", CREDITOR, 0, 0, GOOD("BE69000050D000000008")},
};

static const struct field COLLECTION_FIELD[COLLECTION_FIELDS] = {
    {"scheme", SCHEME_BYTE, 1, 0, GOOD("\0")},
    {"sequence", SEQUENCE_BYTE, 1, 0, GOOD("\0")},
    {"amount", CENTS, 5, 0, GOOD("\0\0\0\0\1")},
    {"collection date", DATE, 0, 0, GOOD("2026-01-01")},
    {"end-to-end id", IDENTIFIER, 0, 0, GOOD("A")},
    {"mandate id", IDENTIFIER, 0, 0, GOOD("A")},
    {"signature date", DATE, 0, 0, GOOD("2026-01-01")},
    {"debtor BIC", BIC, 0, 1, GOOD("")},
    {"debtor name", NAME, 0, 0, GOOD("A")},
    {"debtor IBAN", IBAN, 0, 0, GOOD("BE540")},
    {"remittance", REMITTANCE, 0, 1, GOOD("")},
};

const struct kind CREDITOR_LINE = {"creditor", 1, CREDITOR_FIELDS, CREDITOR_FIELD};
const struct kind COLLECTION_LINE = {"collection", 2, COLLECTION_FIELDS, COLLECTION_FIELD};

const struct kind *kind_of(uint64_t line) { return line == 1 ? &CREDITOR_LINE : &COLLECTION_LINE; }

/* ─── lines ─── */

struct line next_line(struct text *left) {
    const uint8_t *lf = memchr(left->bytes, '\n', left->length);
    struct line line = {{left->bytes, lf ? (size_t)(lf - left->bytes) : left->length}, lf != 0};
    left->bytes += line.digits.length + line.ended;
    left->length -= line.digits.length + line.ended;
    return line;
}

struct line line_at(struct text list, uint64_t n) {
    struct line line = next_line(&list);
    for (uint64_t i = 1; i < n && list.length > 0; i++) line = next_line(&list);
    return line;
}

int digit_value(uint8_t c) {
    if (c >= '0' && c <= '9') return c - '0';
    if (c >= 'A' && c <= 'F') return c - 'A' + 10;
    return -1;
}

struct text bytes_of(const struct line *line) {
    static uint8_t bytes[DESK_BYTES / 2];
    size_t length = line->digits.length / 2;
    if (length > sizeof bytes) length = sizeof bytes;
    for (size_t i = 0; i < length; i++)
        bytes[i] = (uint8_t)(digit_value(line->digits.bytes[2 * i]) * 16 +
                             digit_value(line->digits.bytes[2 * i + 1]));
    return (struct text){bytes, length};
}

/* ─── frames ─── */

size_t read_frame(struct text bytes, const struct kind *kind, struct text *values, size_t *rest) {
    size_t at = 1, whole = 0;
    for (; whole < kind->fields; whole++) {
        size_t n = kind->field[whole].bytes;
        if (n == 0) {
            if (at >= bytes.length) break;
            n = bytes.bytes[at++];
        }
        if (at > bytes.length || n > bytes.length - at) break;
        values[whole] = (struct text){bytes.bytes + at, n};
        at += n;
    }
    *rest = at < bytes.length ? bytes.length - at : 0;
    return whole;
}

static uint8_t *put_byte(uint8_t *at, size_t byte) {
    static const char digits[] = "0123456789ABCDEF";
    at[0] = (uint8_t)digits[byte / 16 % 16];
    at[1] = (uint8_t)digits[byte % 16];
    return at + 2;
}

size_t put_line(uint8_t *list, size_t room, const struct kind *kind, const struct text *values) {
    size_t bytes = 1;
    for (size_t i = 0; i < kind->fields; i++) bytes += (kind->field[i].bytes == 0) + values[i].length;
    if (2 * bytes + 1 > room) return 2 * bytes + 1;
    uint8_t *at = put_byte(list, kind->byte);
    for (size_t i = 0; i < kind->fields; i++) {
        if (kind->field[i].bytes == 0) at = put_byte(at, values[i].length);
        for (size_t j = 0; j < values[i].length; j++) at = put_byte(at, values[i].bytes[j]);
    }
    *at = '\n';
    return 2 * bytes + 1;
}

uint64_t number_of(struct text bytes) {
    uint64_t n = 0;
    for (size_t i = 0; i < bytes.length; i++) n = n * 256 + bytes.bytes[i];
    return n;
}

/* ─── values ─── */

uint64_t flaw_of(const struct kind *kind, size_t field, struct text value) {
    static uint8_t list[8192]; /* room for two lines of texts of 255 bytes */
    uint8_t none[1];
    struct text values[FIELDS];
    size_t n = 0;
    for (uint64_t line = 1; line <= 2; line++) {
        const struct kind *of = kind_of(line);
        for (size_t i = 0; i < of->fields; i++)
            values[i] = of == kind && i == field ? value : of->field[i].good;
        n += put_line(list + n, sizeof list - n, of, values);
    }
    uint64_t number = desk_write(list, n, 1, none, 0).number;
    return is_flaw(number) ? number : 0;
}
