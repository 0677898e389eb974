/* Answers as objects of JSON, one on a line: every number that the text has, and null for what is absent. */
#include <inttypes.h>
#include <string.h>
#include "host.h"

/* ─── values ─── */

/* A string; a byte that is not UTF-8 as U+FFFD. */
static void put_string(FILE *to, struct text text) {
    fputc('"', to);
    while (text.length > 0) {
        size_t n = character_length(text, 0);
        if (n == 0)
            fputs("\\ufffd", to);
        else if (n == 1 && (text.bytes[0] < ' ' || text.bytes[0] == 0x7F))
            fprintf(to, "\\u%04x", text.bytes[0]);
        else if (text.bytes[0] == '"' || text.bytes[0] == '\\')
            fprintf(to, "\\%c", text.bytes[0]);
        else
            fwrite(text.bytes, 1, n, to);
        n += n == 0;
        text.bytes += n;
        text.length -= n;
    }
    fputc('"', to);
}

static void put_number(FILE *to, const char *name, uint64_t n) { fprintf(to, ",\"%s\":%" PRIu64, name, n); }

static void put_text(FILE *to, const char *name, const char *text) {
    fprintf(to, ",\"%s\":", name);
    put_string(to, text_of(text));
}

static void put_declared(FILE *to, const char *name, int declares, uint64_t n) {
    if (declares)
        put_number(to, name, n);
    else
        fprintf(to, ",\"%s\":null", name);
}

/* ─── parts of an object ─── */

static void put_head(FILE *to, const char *name, enum status status) {
    fputs("{\"file\":", to);
    put_string(to, text_of(name));
    put_number(to, "status", status);
}

static void put_figures(FILE *to, const struct figures *of) {
    put_number(to, "transactions", of->count);
    put_number(to, "cents", of->cents);
    put_declared(to, "declared_count", of->declares_count, of->declared_count);
    put_declared(to, "declared_cents", of->declares_sum, of->declared_cents);
}

/* The batches of a message that is accepted, or refused with 6 to 9. */
static void put_batches(FILE *to, const struct totals *totals) {
    fputs(",\"batch\":[", to);
    for (size_t i = 0; i < totals->batches; i++) {
        fprintf(to, "%s{\"number\":%zu", i > 0 ? "," : "", i + 1);
        put_figures(to, &totals->batch[i]);
        fputc('}', to);
    }
    fputc(']', to);
}

static void put_rows(FILE *to, const struct desk_checked *answer, const uint64_t *rows) {
    struct totals totals;
    take_rows(&totals, (size_t)answer->batches, rows);
    put_number(to, "batches", answer->batches);
    put_number(to, "transactions", answer->transactions);
    put_number(to, "cents", answer->cents);
    put_batches(to, &totals);
}

/* The figures of refusals 6 to 9, and those of a message that is cut off. */
static void put_totals(FILE *to, struct text message, const struct desk_checked *answer) {
    struct totals totals;
    int cut_off = is_cut_off(message, answer), begun = 0;
    if (cut_off)
        begun = add_up_so_far(message, &totals);
    else if (answer->number >= 6 && answer->number <= 9)
        add_up(message, &totals);
    else
        return;
    put_figures(to, &totals.all);
    if (cut_off)
        fprintf(to, ",\"cut_off\":true,\"begun\":%s", begun ? "true" : "false");
    else
        put_batches(to, &totals);
}

static void put_refused(FILE *to, uint64_t number, uint64_t place) {
    put_number(to, "number", number);
    put_number(to, "place", place);
    put_text(to, "means", words_of(number)->means);
}

/* The field of a line of a list. */
static void put_field(FILE *to, const struct desk_written *answer) {
    const struct kind *kind = kind_of(answer->place);
    put_number(to, "field", answer->field);
    if (answer->field >= 1 && answer->field <= kind->fields)
        put_text(to, "field_name", kind->field[answer->field - 1].name);
}

/* The lines of the explanation. */
static void put_said(FILE *to, const char *said) {
    if (!said) return;
    fputs(",\"explanation\":[", to);
    for (const char *line = said; *line;) {
        size_t n = strcspn(line, "\n");
        if (line > said) fputc(',', to);
        put_string(to, (struct text){(const uint8_t *)line, n});
        line += n + (line[n] != 0);
    }
    fputc(']', to);
}

/* ─── the objects ─── */

void print_json_checked(FILE *to, const char *name, enum status status, struct text message,
                        const struct desk_checked *answer, const uint64_t *rows, const char *said) {
    put_head(to, name, status);
    if (answer->number == 0) {
        put_rows(to, answer, rows);
    } else {
        put_refused(to, answer->number, answer->place);
        if (lies_in_message(answer->number)) {
            size_t line, column;
            line_and_column(message, (size_t)answer->place, &line, &column);
            put_number(to, "line", line);
            put_number(to, "column", column);
        }
        put_totals(to, message, answer);
    }
    put_said(to, said);
    fputs("}\n", to);
}

void print_json_written(FILE *to, const char *name, const struct desk_written *answer,
                        const struct desk_checked *checked, const uint64_t *rows, const char *said) {
    put_head(to, name, answer->number == 0 ? DONE : REFUSED);
    if (answer->number == 0) {
        put_number(to, "bytes", answer->place);
        put_rows(to, checked, rows);
    } else {
        put_refused(to, answer->number, answer->place);
        if (is_flaw(answer->number)) put_field(to, answer);
    }
    put_said(to, said);
    fputs("}\n", to);
}

void print_json_failed(FILE *to, const char *name) {
    put_head(to, name, FAILED);
    put_text(to, "error", "cannot be read");
    fputs("}\n", to);
}
