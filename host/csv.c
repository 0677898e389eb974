/* Day lists from and to CSV (RFC 4180), as spreadsheets write and read it: a header with the names of the
   fields, a record of the creditor, a record for each collection. What is not such a CSV is said here, with
   line and column; whether a value is good is asked of the library. */
#define _POSIX_C_SOURCE 200809L
#include <inttypes.h>
#include <string.h>
#include "host.h"

/* The fields of both kinds are numbered from 0: the creditor's, then those of a collection. */
enum {
    ALL_FIELDS = CREDITOR_FIELDS + COLLECTION_FIELDS,
    FAULTS_SAID = 20,
    TEXT_BYTES = 255,
    CENTS_BYTES = 5
};
#define NOWHERE ((size_t)-1)

/* A field of a record. */
struct cell {
    size_t number;              /* which one it is; ALL_FIELDS where its column is none of them */
    size_t at, end;             /* where it stands in the CSV, with its quotes; NOWHERE: it has no column */
    struct text text;           /* without its quotes; where it has no column, what the command line gives */
    int readable;               /* its text is certain */
    uint8_t value[CENTS_BYTES]; /* of a number: its bytes in a frame */
};

/* A CSV that is being read. */
struct sheet {
    FILE *to;
    struct text csv;
    const char *const *given;
    uint8_t separator;
    size_t columns, column[ALL_FIELDS]; /* of the header; that of each field, or NOWHERE */
    int has_creditor;                   /* the header has a column of the creditor's */
    size_t at;                          /* the next byte to be read */
    int ended;                          /* the rest cannot be read */
    size_t record, taken; /* where the record begins; how many bytes of `unquoted` it has taken */
    size_t lines, above;  /* lines of the list; where the first collection above the limit begins */
    size_t faults;
};

/* The texts of a record that stand in quotes. */
static uint8_t unquoted[DESK_BYTES + 1];

static const struct field *field_of(size_t number) {
    return number < CREDITOR_FIELDS ? &CREDITOR_LINE.field[number]
                                    : &COLLECTION_LINE.field[number - CREDITOR_FIELDS];
}

static size_t first_of(const struct kind *kind) { return kind == &CREDITOR_LINE ? 0 : CREDITOR_FIELDS; }

/* The words of a scheme or a sequence, in the order of their numbers; null for other rules. */
static const char *const *words_by(enum rule rule) {
    return rule == SCHEME_BYTE ? SCHEMES : rule == SEQUENCE_BYTE ? SEQUENCES : 0;
}

/* ─── places ─── */

/* Line and column of a byte, from 1. A column is a character, or a byte that is not UTF-8. */
static void print_place(FILE *to, struct text csv, size_t place) {
    size_t line = 1, column = 1;
    for (size_t at = 0, n; at < place; at += n) {
        n = character_length(csv, at);
        if (n == 0) n = 1;
        if (at + n > place) break;
        column = csv.bytes[at] == '\n' ? 1 : column + 1;
        line += csv.bytes[at] == '\n';
    }
    fprintf(to, "line %zu, column %zu: ", line, column);
}

/* Where a byte of a cell's text stands in the CSV: in quotes, a quote before it stands there twice. */
static size_t place_in(const struct sheet *sheet, const struct cell *cell, size_t byte) {
    const uint8_t *csv = sheet->csv.bytes;
    size_t at = cell->at;
    if (at == NOWHERE) return NOWHERE;
    if (at == sheet->csv.length || csv[at] != '"') return at + byte;
    for (at++; byte > 0; byte--) at += csv[at] == '"' ? 2 : 1;
    return at;
}

/* ─── faults ─── */

/* Counts a fault, and begins its line with the place, or with the option that gives the value, and with the
   field's name. Answers whether the fault is said. */
static int fault(struct sheet *sheet, size_t number, size_t place) {
    if (sheet->faults++ >= FAULTS_SAID) return 0;
    if (place == NOWHERE)
        fprintf(sheet->to, "%s: ", option_name(CREDITOR_OPTION + number));
    else
        print_place(sheet->to, sheet->csv, place);
    fprintf(sheet->to, "the %s", number < ALL_FIELDS ? field_of(number)->name : "field");
    return 1;
}

/* The same of a byte of a text, which is said too. */
static int fault_in(struct sheet *sheet, const struct cell *cell, size_t byte) {
    if (!fault(sheet, cell->number, place_in(sheet, cell, byte))) return 0;
    fputc(' ', sheet->to);
    print_text(sheet->to, cell->text);
    return 1;
}

/* A value that fails the test of this number: how, and at which byte; then what follows. Cents are explained
   by their value, every other value by its text. */
static void fault_by(struct sheet *sheet, const struct cell *cell, uint64_t number, enum rule rule,
                     const char *more) {
    char sentence[1024] = "";
    size_t byte = 0;
    FILE *into = fmemopen(sentence, sizeof sentence, "w");
    if (into) {
        struct text cents = {cell->value, CENTS_BYTES};
        byte = explain_flaw(into, number, rule, rule == CENTS ? cents : cell->text);
        fclose(into);
    }
    if (fault_in(sheet, cell, byte)) fprintf(sheet->to, ": %s%s\n", sentence, more);
}

static void print_more(const struct sheet *sheet) {
    if (sheet->faults > FAULTS_SAID) fprintf(sheet->to, "and %zu more\n", sheet->faults - FAULTS_SAID);
}

/* ─── cells ─── */

/* The next separator or line end, or the end of the CSV. */
static size_t next_end(const struct sheet *sheet, size_t at) {
    const uint8_t *csv = sheet->csv.bytes;
    while (at < sheet->csv.length && csv[at] != sheet->separator && csv[at] != '\n' && csv[at] != '\r') at++;
    return at;
}

static void read_plain(struct sheet *sheet, struct cell *cell) {
    const uint8_t *start = sheet->csv.bytes + cell->at;
    cell->end = next_end(sheet, cell->at);
    cell->text = (struct text){start, cell->end - cell->at};
    const uint8_t *quote = memchr(start, '"', cell->text.length);
    cell->readable = !quote;
    if (quote && fault(sheet, cell->number, cell->at + (size_t)(quote - start)))
        fputs(" has a quote inside; put it in quotes as a whole, and write each quote inside it twice.\n",
              sheet->to);
}

static void read_quoted(struct sheet *sheet, struct cell *cell) {
    struct text csv = sheet->csv;
    size_t at = cell->at + 1, start = sheet->taken;
    while (at < csv.length && (csv.bytes[at] != '"' || (at + 1 < csv.length && csv.bytes[at + 1] == '"'))) {
        at += csv.bytes[at] == '"';
        unquoted[sheet->taken++] = csv.bytes[at++];
    }
    cell->text = (struct text){unquoted + start, sheet->taken - start};
    sheet->ended = at == csv.length;
    cell->end = sheet->ended ? at : next_end(sheet, at + 1);
    cell->readable = cell->end == at + 1;
    if (sheet->ended) {
        if (fault(sheet, cell->number, cell->at))
            fputs(" begins with a quote that is never closed; nothing after it is read.\n", sheet->to);
    } else if (!cell->readable) {
        if (fault(sheet, cell->number, at + 1))
            fputs(" goes on after its closing quote; write each quote inside it twice.\n", sheet->to);
    }
}

static void find_bad_bytes(struct sheet *sheet, struct cell *cell) {
    for (size_t at = cell->at, n; at < cell->end; at += n) {
        n = character_length(sheet->csv, at);
        if (n > 0) continue;
        n = 1;
        cell->readable = 0;
        if (fault(sheet, cell->number, at))
            fprintf(sheet->to, " has the byte %02X, which is not UTF-8; save the file as UTF-8.\n",
                    sheet->csv.bytes[at]);
    }
}

/* Goes on after a cell; answers whether the record has another. */
static int pass_end(struct sheet *sheet, const struct cell *cell) {
    const uint8_t *end = sheet->csv.bytes + cell->end;
    size_t left = sheet->csv.length - cell->end;
    sheet->at = cell->end + (left > 0);
    if (left == 0 || *end == sheet->separator) return left > 0;
    if (*end == '\r' && left > 1 && end[1] == '\n') {
        sheet->at++;
    } else if (*end == '\r') {
        sheet->ended = 1;
        if (fault(sheet, cell->number, cell->end))
            fputs(" ends in CR alone; save the file with line ends CR LF or LF. Nothing after it is read.\n",
                  sheet->to);
    }
    return 0;
}

/* Reads the next cell of a record; answers whether there is one more. */
static int read_cell(struct sheet *sheet, size_t column, struct cell *cell) {
    *cell = (struct cell){.number = 0, .at = sheet->at};
    while (cell->number < ALL_FIELDS && sheet->column[cell->number] != column) cell->number++;
    if (sheet->at < sheet->csv.length && sheet->csv.bytes[sheet->at] == '"')
        read_quoted(sheet, cell);
    else
        read_plain(sheet, cell);
    find_bad_bytes(sheet, cell);
    return pass_end(sheet, cell);
}

/* ─── the header ─── */

/* A semicolon where the line has one, and no comma, outside quotes; else a comma. */
static uint8_t separator_at(struct text csv, size_t at) {
    uint8_t separator = ',';
    for (int quoted = 0; at < csv.length && (quoted || csv.bytes[at] != '\n'); at++) {
        if (csv.bytes[at] == '"') quoted = !quoted;
        if (!quoted && csv.bytes[at] == ',') return ',';
        if (!quoted && csv.bytes[at] == ';') separator = ';';
    }
    return separator;
}

static int lower(int c) { return c >= 'A' && c <= 'Z' ? c + 'a' - 'A' : c; }

static int is_name(struct text text, const char *name) {
    size_t i = 0;
    while (i < text.length && name[i] && lower(text.bytes[i]) == lower(name[i])) i++;
    return i == text.length && !name[i];
}

static void name_column(struct sheet *sheet, const struct cell *cell, size_t column) {
    size_t i = 0, at = place_in(sheet, cell, 0);
    while (i < ALL_FIELDS && !is_name(cell->text, field_of(i)->name)) i++;
    if (i == ALL_FIELDS) {
        if (fault_in(sheet, cell, 0)) fputs(" is not known; check the spelling of its name.\n", sheet->to);
        return;
    }
    if (sheet->column[i] != NOWHERE && fault(sheet, i, at)) fputs(" has two columns.\n", sheet->to);
    sheet->column[i] = column;
    if (i >= CREDITOR_FIELDS) return;
    sheet->has_creditor = 1;
    if (sheet->given[i] && fault(sheet, i, at))
        fprintf(sheet->to, " has a column, and %s gives it too.\n", option_name(CREDITOR_OPTION + i));
}

/* A record of names. After the last of them, columns without a name may stand. */
static void read_names(struct sheet *sheet) {
    size_t unnamed = NOWHERE;
    int more = 1;
    for (size_t column = 0; more; column++) {
        struct cell cell;
        more = read_cell(sheet, column, &cell);
        if (cell.readable && cell.text.length == 0) {
            if (unnamed == NOWHERE) unnamed = cell.at;
            continue;
        }
        if (unnamed != NOWHERE && fault(sheet, ALL_FIELDS, unnamed))
            fputs(" of this column has no name.\n", sheet->to);
        unnamed = NOWHERE;
        sheet->columns = column + 1;
        if (cell.readable) name_column(sheet, &cell, column);
    }
}

static void find_missing(struct sheet *sheet) {
    for (size_t i = 0; i < ALL_FIELDS; i++) {
        const char *given = i < CREDITOR_FIELDS ? sheet->given[i] : 0;
        if (sheet->column[i] != NOWHERE || given || field_of(i)->may_be_empty ||
            !fault(sheet, i, sheet->record))
            continue;
        fputs(" has no column", sheet->to);
        if (i < CREDITOR_FIELDS)
            fprintf(sheet->to, ", and %s is not given", option_name(CREDITOR_OPTION + i));
        fputs(".\n", sheet->to);
    }
}

/* The header is the first record that holds something. */
static void read_header(struct sheet *sheet) {
    for (size_t i = 0; i < ALL_FIELDS; i++) sheet->column[i] = NOWHERE;
    while (sheet->columns == 0 && !sheet->ended && sheet->at < sheet->csv.length) {
        sheet->record = sheet->at;
        sheet->taken = 0;
        sheet->separator = separator_at(sheet->csv, sheet->at);
        read_names(sheet);
    }
    if (sheet->ended) return;
    if (sheet->columns > 0) {
        find_missing(sheet);
        return;
    }
    sheet->faults++;
    print_place(sheet->to, sheet->csv, 0);
    fputs("the header is missing; the first line must have the names of the fields.\n", sheet->to);
}

/* ─── records ─── */

/* Every field as if it had no column: what the command line gives of it, or nothing. A number that is not
   there is none. */
static void clear_cells(const struct sheet *sheet, struct cell cells[ALL_FIELDS]) {
    for (size_t i = 0; i < ALL_FIELDS; i++) {
        const char *given = i < CREDITOR_FIELDS ? sheet->given[i] : 0;
        cells[i] = (struct cell){.number = i,
                                 .at = NOWHERE,
                                 .text = text_of(given ? given : ""),
                                 .readable = field_of(i)->bytes == 0};
    }
}

/* Reads a record; answers whether it holds something. */
static int read_record(struct sheet *sheet, struct cell cells[ALL_FIELDS]) {
    struct cell cell;
    size_t n = 0;
    int more = 1, holds = 0;
    sheet->record = sheet->at;
    sheet->taken = 0;
    clear_cells(sheet, cells);
    for (; more; n++) {
        more = read_cell(sheet, n, &cell);
        if (cell.number < ALL_FIELDS) cells[cell.number] = cell;
        if (n < sheet->columns)
            holds |= cell.text.length > 0 || !cell.readable;
        else if (cell.text.length > 0 && fault_in(sheet, &cell, 0))
            fprintf(sheet->to,
                    " stands after the last column; a text with a %s in it must stand in quotes.\n",
                    sheet->separator == ',' ? "comma" : "semicolon");
    }
    if (holds && n < sheet->columns && !sheet->ended && fault(sheet, cell.number, cell.end))
        fprintf(sheet->to, " ends the record; of the header's %zu fields it has %zu.\n", sheet->columns, n);
    return holds;
}

/* The creditor's fields stand in the first record alone, and those of a collection in every other. One fault
   is said of a record. */
static void judge_kind(struct sheet *sheet, const struct kind *kind, const struct cell *cells) {
    const struct kind *other = kind == &CREDITOR_LINE ? &COLLECTION_LINE : &CREDITOR_LINE;
    for (size_t i = 0; i < other->fields; i++) {
        const struct cell *cell = &cells[first_of(other) + i];
        if (cell->at == NOWHERE || cell->text.length == 0) continue;
        if (fault_in(sheet, cell, 0))
            fputs(kind == &CREDITOR_LINE
                      ? " stands in the first record, which has the creditor's fields alone.\n"
                      : " stands in the record of a collection; the creditor's fields stand in the first "
                        "record alone.\n",
                  sheet->to);
        return;
    }
}

/* Reads the fields of the next line of the list, the creditor's or a collection's; answers its kind, or null
   where there is none. */
static const struct kind *read_line(struct sheet *sheet, struct cell cells[ALL_FIELDS]) {
    const struct kind *kind = kind_of(sheet->lines + 1);
    int holds = kind == &CREDITOR_LINE && !sheet->has_creditor;
    if (holds) clear_cells(sheet, cells);
    while (!holds && !sheet->ended && sheet->at < sheet->csv.length) holds = read_record(sheet, cells);
    if (!holds || sheet->ended) return 0;
    if (++sheet->lines == DESK_COLLECTIONS + 2) sheet->above = sheet->record;
    judge_kind(sheet, kind, cells);
    return kind;
}

/* ─── values ─── */

static struct text value_of_word(struct sheet *sheet, struct cell *cell, const char *const *words) {
    for (size_t i = 0; words[i]; i++) {
        if (cell->text.length != strlen(words[i]) ||
            memcmp(cell->text.bytes, words[i], cell->text.length) != 0)
            continue;
        cell->value[0] = (uint8_t)i;
        return (struct text){cell->value, 1};
    }
    if (fault_in(sheet, cell, 0))
        fprintf(sheet->to, " must be %s.\n",
                RULE[field_of(cell->number)->rule == SCHEME_BYTE ? SCHEME : SEQUENCE]);
    return cell->text;
}

/* Digits, then optionally a point and one or two digits, worth at most what the bytes of a frame hold. */
static int read_cents(struct text text, uint64_t *cents) {
    const uint64_t most = UINT64_MAX >> (64 - 8 * CENTS_BYTES);
    size_t point = 0, at = 0;
    *cents = 0;
    while (point < text.length && text.bytes[point] != '.') point++;
    for (; at < text.length && *cents <= most; at++) {
        if (at == point) continue;
        if (text.bytes[at] < '0' || text.bytes[at] > '9') return 0;
        *cents = *cents * 10 + (uint64_t)(text.bytes[at] - '0');
    }
    size_t decimals = point < text.length ? text.length - point - 1 : 0;
    for (size_t i = decimals; i < 2; i++) *cents *= 10;
    return point > 0 && point + 1 != text.length && decimals <= 2 && *cents <= most;
}

static struct text value_of_amount(struct sheet *sheet, struct cell *cell) {
    uint64_t cents;
    if (!read_cents(cell->text, &cents))
        fault_by(sheet, cell, BAD_NUMBER, AMOUNT,
                 " Amounts are written as 3250.15: a point before the cents, nothing between thousands.");
    for (size_t i = CENTS_BYTES; i-- > 0; cents /= 256) cell->value[i] = (uint8_t)(cents % 256);
    return (struct text){cell->value, CENTS_BYTES};
}

/* What a frame has of a cell; a fault where there is no such thing. */
static struct text value_of(struct sheet *sheet, struct cell *cell) {
    enum rule rule = field_of(cell->number)->rule;
    if (!cell->readable) return cell->text;
    if (words_by(rule)) return value_of_word(sheet, cell, words_by(rule));
    if (rule == CENTS) return value_of_amount(sheet, cell);
    if (cell->text.length > TEXT_BYTES && fault(sheet, cell->number, place_in(sheet, cell, 0)))
        fprintf(sheet->to, " has %zu bytes; a text of a day list has at most %d.\n", cell->text.length,
                TEXT_BYTES);
    return cell->text;
}

/* ─── the list ─── */

/* Puts a line at the end of a list of this length; answers the new length, which is above `room` where the
   line has none. After the first collection above the limit nothing is put: for that one the list is refused. */
static size_t put_cells(struct sheet *sheet, const struct kind *kind, struct cell *cells, uint8_t *list,
                        size_t length, size_t room) {
    struct text values[FIELDS];
    for (size_t i = 0; i < kind->fields; i++) values[i] = value_of(sheet, &cells[first_of(kind) + i]);
    if (sheet->faults > 0 || length > room || sheet->lines > DESK_COLLECTIONS + 2) return length;
    return length + put_line(list + length, room - length, kind, values);
}

/* Refusals 51 to 58: reads the records once more, and explains each value that breaks its rule; the first is
   the one that the answer is about. */
static void explain_values(struct sheet *sheet) {
    struct cell cells[ALL_FIELDS];
    const struct kind *kind;
    int letters = 0;
    while ((kind = read_line(sheet, cells)))
        for (size_t i = 0; i < kind->fields; i++) {
            struct cell *cell = &cells[first_of(kind) + i];
            uint64_t number = flaw_of(kind, i, value_of(sheet, cell));
            if (number == 0) continue;
            fault_by(sheet, cell, number, kind->field[i].rule, "");
            letters |= number == BAD_LETTER;
        }
    print_more(sheet);
    if (letters) fputs("No letter is changed: write the text with letters of the set.\n", sheet->to);
}

/* The library refuses the list; `records` is where the records begin. */
static void explain_refused(struct sheet *sheet, const struct desk_written *answer, size_t records) {
    FILE *to = sheet->to;
    print_refusal(to, answer->number, answer->place, answer->field);
    if (answer->number == 21) {
        fprintf(to, "The day list of this CSV has more than %d bytes: split the CSV.\n", DESK_BYTES);
    } else if (answer->number == 24) {
        fprintf(to, "There is no %s: no record stands after the %s.\n",
                answer->place == 0 ? "creditor and no collection" : "collection",
                answer->place > 0 && sheet->has_creditor ? "creditor's" : "header");
    } else if (answer->number == 25) {
        print_place(to, sheet->csv, sheet->above);
        fprintf(to, "collection %d of %zu; a day list has at most %d: split the CSV.\n", DESK_COLLECTIONS + 1,
                sheet->lines - 1, DESK_COLLECTIONS);
    } else if (is_flaw(answer->number)) {
        sheet->at = records;
        sheet->lines = 0;
        explain_values(sheet);
    } else {
        fprintf(to, "%s\n", words_of(answer->number)->means);
    }
}

size_t list_of_csv(FILE *to, struct text csv, const char *const given[CREDITOR_FIELDS], uint8_t *list,
                   size_t room) {
    struct sheet sheet = {.to = to, .csv = csv, .given = given};
    struct cell cells[ALL_FIELDS];
    const struct kind *kind;
    struct desk_written answer = {21, 0, 0};
    size_t length = 0, records;
    uint8_t none[1];
    if (csv.length >= 3 && memcmp(csv.bytes, "\xEF\xBB\xBF", 3) == 0)
        sheet.csv = (struct text){csv.bytes + 3, csv.length - 3};
    read_header(&sheet);
    records = sheet.at;
    while ((kind = read_line(&sheet, cells))) length = put_cells(&sheet, kind, cells, list, length, room);
    print_more(&sheet);
    if (sheet.faults > 0) return 0;
    if (length <= room) answer = desk_write(list, length, DESK_CEILING, none, 0);
    if (!is_of_lines(answer.number) && !is_flaw(answer.number)) return length;
    explain_refused(&sheet, &answer, records);
    return 0;
}

/* ─── printing a list ─── */

/* In quotes where RFC 4180 needs them, and where a space at an end would not be seen. */
static void print_quoted(FILE *to, struct text text) {
    int quotes = text.length > 0 && (text.bytes[0] == ' ' || text.bytes[text.length - 1] == ' ');
    for (size_t i = 0; i < text.length; i++) quotes |= memchr(",\"\r\n", text.bytes[i], 4) != 0;
    if (quotes) fputc('"', to);
    for (size_t i = 0; i < text.length; i++) {
        if (text.bytes[i] == '"') fputc('"', to);
        fputc(text.bytes[i], to);
    }
    if (quotes) fputc('"', to);
}

/* A number without a word as digits. */
static void print_value(FILE *to, const struct field *field, struct text value) {
    const char *const *words = words_by(field->rule);
    uint64_t number = number_of(value), i = 0;
    while (words && words[i] && i < number) i++;
    if (words && words[i])
        fputs(words[i], to);
    else if (words)
        fprintf(to, "%" PRIu64, number);
    else if (field->rule == CENTS)
        fprintf(to, "%" PRIu64 ".%02" PRIu64, number / 100, number % 100);
    else
        print_quoted(to, value);
}

void print_csv(FILE *to, struct text list) {
    for (size_t i = 0; i < ALL_FIELDS; i++) fprintf(to, "%s%s", i > 0 ? "," : "", field_of(i)->name);
    fputc('\n', to);
    for (uint64_t n = 1; list.length > 0; n++) {
        struct line line = next_line(&list);
        struct text values[FIELDS];
        size_t rest, first = first_of(kind_of(n)),
                     whole = read_frame(bytes_of(&line), kind_of(n), values, &rest);
        for (size_t i = 0; i < ALL_FIELDS; i++) {
            if (i > 0) fputc(',', to);
            if (i >= first && i < first + whole) print_value(to, field_of(i), values[i - first]);
        }
        fputc('\n', to);
    }
}
