/* Printing of bytes, refusals, euros and numbers with their nouns. */
#include <inttypes.h>
#include <string.h>
#include "host.h"

struct text text_of(const char *word) {
    return (struct text){(const uint8_t *)word, strlen(word)};
}

/* ─── characters ─── */

size_t character_length(struct text text, size_t at) {
    const uint8_t *b = text.bytes + at;
    size_t n = b[0] < 0x80 ? 1 : b[0] < 0xC2 ? 0 : b[0] < 0xE0 ? 2 : b[0] < 0xF0 ? 3 : b[0] < 0xF5 ? 4 : 0;
    if (n > text.length - at) return 0;
    for (size_t i = 1; i < n; i++)
        if (b[i] >> 6 != 2) return 0;
    int is_overlong = (b[0] == 0xE0 && b[1] < 0xA0) || (b[0] == 0xF0 && b[1] < 0x90);
    int is_no_character = (b[0] == 0xED && b[1] >= 0xA0) || (b[0] == 0xF4 && b[1] >= 0x90);
    return is_overlong || is_no_character ? 0 : n;
}

/* The number of a character of so many bytes. */
static uint64_t character_of(const uint8_t *bytes, size_t length) {
    uint64_t n = length == 1 ? bytes[0] : bytes[0] & (0x7FU >> length);
    for (size_t i = 1; i < length; i++) n = n << 6 | (bytes[i] & 0x3FU);
    return n;
}

/* A character that stands for itself on every screen: printable ASCII; Latin, Greek and Cyrillic letters;
   dashes, quotes and the euro. */
static int is_plain(uint64_t c) {
    return (c >= ' ' && c <= '~') || (c >= 0xA1 && c <= 0x24F && c != 0xAD) || (c >= 0x370 && c <= 0x52F) ||
           (c >= 0x2010 && c <= 0x2027) || c == 0x20AC;
}

/* Prints the character or byte at a place; answers how many bytes it was, and adds its columns. */
static size_t print_character(FILE *to, struct text text, size_t at, size_t *columns) {
    size_t length = character_length(text, at);
    if (length == 0 || !is_plain(character_of(text.bytes + at, length))) {
        fprintf(to, "\\x%02x", text.bytes[at]);
        *columns += 4;
        return 1;
    }
    fwrite(text.bytes + at, 1, length, to);
    *columns += 1;
    return length;
}

/* ─── texts ─── */

void print_text(FILE *to, struct text text) {
    size_t columns = 0;
    fputc('"', to);
    for (size_t at = 0; at < text.length && at < SHOWN;) at += print_character(to, text, at, &columns);
    fputc('"', to);
    if (text.length > SHOWN) fprintf(to, " .. (%zu bytes)", text.length);
}

void print_word(FILE *to, const char *word) {
    size_t columns = 0;
    struct text text = text_of(word);
    for (size_t at = 0; at < text.length;) at += print_character(to, text, at, &columns);
}

void print_marked(FILE *to, const char *lead, struct text text, size_t place) {
    size_t columns = strlen(lead) + 1, mark = 0, start = place, end = place;
    while (start > 0 && place - start < SHOWN * 2 / 3 && text.bytes[start - 1] >= ' ') start--;
    while (end < text.length && end - start < SHOWN && (end == place || text.bytes[end] >= ' ')) end++;
    fprintf(to, "%s%s\"", lead, start > 0 ? ".. " : "");
    columns += start > 0 ? 3 : 0;
    for (size_t at = start; at < end;) {
        if (at <= place) mark = columns;
        at += print_character(to, text, at, &columns);
    }
    if (place == end) mark = columns;
    fprintf(to, "\"%s\n%*s^\n", end < text.length ? " .." : "", (int)mark, "");
}

/* ─── numbers ─── */

void print_refusal(FILE *to, uint64_t number, uint64_t place, uint64_t field) {
    fprintf(to, "NO %" PRIu64 " %" PRIu64, number, place);
    if (field > 0) fprintf(to, " %" PRIu64, field);
    fputc('\n', to);
}

void print_euros(FILE *to, uint64_t cents) {
    fprintf(to, "%" PRIu64 ".%02" PRIu64 " EUR", cents / 100, cents % 100);
}

void print_many(FILE *to, uint64_t n, const char *one, const char *many) {
    fprintf(to, "%" PRIu64 " %s", n, n == 1 ? one : many);
}
