/* The writer's refusal in words: what a line that is no frame has wrong, which values of a line break their
   rules, and which ceiling would do. Values and ceilings are judged by asking the library. */
#include <inttypes.h>
#include <string.h>
#include "host.h"

/* ─── frames ─── */

/* A character that is no digit: what it is. */
static void explain_character(FILE *to, struct text digits, size_t at) {
    uint8_t c = digits.bytes[at];
    fprintf(to, "Column %zu has ", at + 1);
    print_text(to, (struct text){digits.bytes + at, 1});
    if (c == '\r')
        fputs(", a CR: a line ends in LF alone, not in CR LF.\n", to);
    else if (c >= 'a' && c <= 'f')
        fputs(": the digits A-F are capitals.\n", to);
    else
        fputs(", which is none of the digits 0-9 A-F.\n", to);
}

/* The fields of a line whose digits are good. */
static void explain_fields(FILE *to, const struct line *line, uint64_t n) {
    const struct kind *kind = kind_of(n);
    struct text bytes = bytes_of(line), values[FIELDS];
    size_t rest, whole = read_frame(bytes, kind, values, &rest);
    if (bytes.bytes[0] != kind->byte)
        fprintf(to, "It begins with %02X; a %s line, as line %" PRIu64 " must be, begins with %02X.\n",
                bytes.bytes[0], kind->name, n, kind->byte);
    else if (whole < kind->fields)
        fprintf(to, "It ends too soon: field %zu, the %s, is not whole.\n", whole + 1,
                kind->field[whole].name);
    else if (rest > 0)
        fprintf(to, "After the last field, the %s, it has %zu more digits.\n",
                kind->field[kind->fields - 1].name, rest * 2);
    else if (!line->ended)
        fputs("It lacks its LF: the list may be cut off.\n", to);
}

/* Refusal 23: the first thing that is wrong with the line. */
static void explain_frame(FILE *to, const struct line *line, uint64_t n) {
    struct text digits = line->digits;
    size_t good = 0;
    while (good < digits.length && digit_value(digits.bytes[good]) >= 0) good++;
    if (good < digits.length)
        explain_character(to, digits, good);
    else if (digits.length == 0)
        fputs("It is empty.\n", to);
    else if (digits.length % 2 != 0)
        fprintf(to, "It has %zu digits, an odd number%s.\n", digits.length,
                line->ended ? "" : "; the list may be cut off");
    else
        explain_fields(to, line, n);
}

/* ─── values ─── */

/* How a value fails this test, its rule, and what to mend; its field was named before. */
static void explain_value(FILE *to, const struct field *field, uint64_t number, struct text value) {
    size_t at = explain_flaw(to, number, field->rule, value);
    fputc('\n', to);
    if (field->bytes == 0) print_marked(to, "  Text: ", value, at);
    fprintf(to, "  Its rule: %s%s.\n", field->may_be_empty ? "empty, or " : "", RULE[field->rule]);
    fprintf(to, "To mend: %s\n", words_of(number)->mend);
}

/* Refusals 51 to 58: the value that the answer is about, and after it the others of the line that break their
   rules. */
static void explain_values(FILE *to, const struct line *line, const struct desk_written *answer) {
    const struct kind *kind = kind_of(answer->place);
    struct text values[FIELDS];
    size_t rest, whole = read_frame(bytes_of(line), kind, values, &rest), first = (size_t)answer->field - 1;
    for (size_t i = first; i < whole; i++) {
        uint64_t number = i == first ? answer->number : flaw_of(kind, i, values[i]);
        if (number == 0) continue;
        fprintf(to, "%s %zu, %s: ", i == first ? "Field" : "Also field", i + 1, kind->field[i].name);
        explain_value(to, &kind->field[i], number, values[i]);
    }
}

/* ─── the ceiling ─── */

static int needs_too_many(struct text list, uint64_t ceiling) {
    uint8_t none[1];
    return desk_write(list.bytes, list.length, ceiling, none, 0).number == 27;
}

/* Refusal 27: the lowest ceiling at which 64 batches suffice. A higher ceiling never needs more batches. */
static void explain_batches(FILE *to, struct text list, uint64_t ceiling, uint64_t needed) {
    uint64_t low = ceiling, high = DESK_CEILING; /* too low; to be tried */
    fprintf(to, "At a ceiling of %" PRIu64 ", %" PRIu64 " batches are needed; a message has at most %d.\n",
            ceiling, needed, DESK_BATCHES);
    if (needs_too_many(list, high)) {
        fprintf(to, "No ceiling up to %d is enough.\n", DESK_CEILING);
        return;
    }
    while (high - low > 1) {
        uint64_t middle = low + (high - low) / 2;
        if (needs_too_many(list, middle))
            low = middle;
        else
            high = middle;
    }
    fprintf(to, "The lowest ceiling that is enough: %" PRIu64 ".\n", high);
}

/* ─── the refusals ─── */

int is_of_lines(uint64_t number) { return number >= 21 && number <= 25; }

static void explain_line(FILE *to, struct text list, const struct desk_written *answer) {
    struct line line = line_at(list, answer->place);
    fprintf(to, "Line %" PRIu64 ": ", answer->place);
    print_text(to, line.digits);
    fputs(".\n", to);
    if (answer->number == 23)
        explain_frame(to, &line, answer->place);
    else
        explain_values(to, &line, answer);
}

void explain_refused_list(FILE *to, struct text list, uint64_t ceiling, const struct desk_written *answer) {
    const struct words *words = words_of(answer->number);
    const struct hint *hint = answer->number == 23 && answer->place == 1 ? hint_of_list(list) : 0;
    fprintf(to, "%s\n", words->means);
    if (hint) fprintf(to, "%s\n", hint->is);
    if (answer->number == 23 || is_flaw(answer->number)) explain_line(to, list, answer);
    if (answer->number == 24) {
        fputs("The list has ", to);
        print_many(to, answer->place, "line", "lines");
        fputs(".\n", to);
    }
    if (answer->number == 25) {
        size_t lines = 0;
        for (size_t i = 0; i < list.length; i++) lines += list.bytes[i] == '\n';
        fprintf(to, "The list has %zu collections.\n", lines - 1);
    }
    if (answer->number == 27) explain_batches(to, list, ceiling, answer->place);
    if (!is_flaw(answer->number)) fprintf(to, "To mend: %s\n", hint ? hint->mend : words->mend);
}
