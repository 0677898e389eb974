/* The desk as a command: `desk check`, `desk write`, `desk list` and `desk show` over the proved library. */
#define _POSIX_C_SOURCE 200809L
#include <errno.h>
#include <inttypes.h>
#include <stdlib.h>
#include <string.h>
#include "host.h"

static const char HELP_TEXT[] =
    "desk checks SEPA direct-debit messages (pain.008.001.08), and writes one from a day list.\n"
    "\n"
    "    desk check FILE.. [--declared] [--explain] [--json] [--quiet]\n"
    "    desk write LIST --ceiling N [-o FILE] [--explain] [--json] [--quiet]\n"
    "    desk list CSV [-o LIST] [--FIELD VALUE ..] [--quiet]\n"
    "    desk show LIST [-o CSV]\n"
    "    desk -h | --help | --version\n"
    "\n"
    "An input is - for standard input. Options stand before or after it; after -- no word is an option.\n"
    "\n"
    "check   prints, for a message that is accepted,\n"
    "            OK batches transactions cents\n"
    "            B batch transactions cents declared-count declared-cents\n"
    "        the second line for each batch, with - where it declares none, and for one that is refused\n"
    "            NO number place\n"
    "        1 to 4: the message is too long, not of the profile's form, has too many batches or\n"
    "        transactions. 51 to 58: a text breaks its rule; the number says by what: 51 length, 52 letter,\n"
    "        53 slash, 54 number, 55 date or time, 56 code, 57 shape (also NOTPROVIDED as a BIC), 58 check\n"
    "        digits. 59: an address is neither structured nor hybrid, nor, before 2026-11-15, unstructured.\n"
    "        6 to 9: a declared count or sum differs from the exact one. Places count bytes from 0. Of\n"
    "        several files each line begins with the file's name.\n"
    "\n"
    "write   writes the message of a day list, with at most N collections in a batch (1 to 500), to\n"
    "        standard output, or with -o to FILE, which is new or a regular file and is replaced as a\n"
    "        whole. The lines of the check of that message, or NO number place, go to standard output,\n"
    "        and without -o to standard error. 21 to 25: the list is too long, a line is no frame, or the\n"
    "        list is incomplete or has too many collections. 51 to 58, as above: a value breaks its rule,\n"
    "        and what is printed is NO number line field. 27: more than 64 batches are needed. Lines and\n"
    "        fields count from 1.\n"
    "\n"
    "list    makes a day list of a CSV whose first line has the names of the fields: message id, creation\n"
    "        time, initiating name, creditor name, creditor IBAN, creditor BIC, creditor identifier,\n"
    "        scheme, sequence, amount, collection date, end-to-end id, mandate id, signature date,\n"
    "        debtor BIC, debtor name, debtor IBAN, remittance. The creditor's stand in the first record,\n"
    "        or are given as options (--message-id VALUE, --creditor-iban VALUE ..). Prints OK collections\n"
    "        cents, or what is wrong, with line and column. No letter is changed.\n"
    "\n"
    "show    prints a day list as such a CSV.\n"
    "\n"
    "--explain   says in words what is wrong, where, and what to mend; of totals the exact and the declared\n"
    "            figures, and where nothing is declared\n"
    "--json      prints an object of JSON for each file, with every number; with --explain also the words\n"
    "--quiet     prints nothing but trouble; goes with neither of the two\n"
    "--declared  ends with 3 where a batch of an accepted message declares no count or no sum, and names\n"
    "            the batches on standard error\n"
    "\n"
    "Exit status: 0 accepted, written or made; 1 refused; 2 bad usage, or a file cannot be read or written;\n"
    "3 accepted, but --declared is not met. Of several files the worst: 2, then 1, then 3, then 0.\n"
    "At most 1,048,577 bytes of an input are read: one above the limit.\n";

static uint8_t made[DESK_BYTES]; /* the message or the list that is made */
static uint64_t slips[DESK_SLIPS], rows[DESK_ROWS];

/* ─── lines, collected before they are printed ─── */

struct lines {
    FILE *to;
    char *text;
    size_t length;
};

static int open_lines(struct lines *lines) {
    lines->to = open_memstream(&lines->text, &lines->length);
    return lines->to ? DONE : trouble("collect", "lines", strerror(errno));
}

/* All of them are there. */
static int close_lines(struct lines *lines) {
    int whole = !ferror(lines->to);
    return fclose(lines->to) == 0 && whole ? DONE : trouble("collect", "lines", strerror(errno));
}

/* A line begins with the name of its file, where one is given. */
static void print_name(FILE *to, const char *name) {
    if (!name) return;
    print_word(to, name);
    fputs(": ", to);
}

static void print_lines(FILE *to, const char *name, const char *text) {
    for (size_t n; *text; text += n) {
        n = strcspn(text, "\n");
        n += text[n] != 0;
        print_name(to, name);
        fwrite(text, 1, n, to);
    }
}

/* ─── answers as lines ─── */

static void print_declared(FILE *to, uint64_t mark, uint64_t value) {
    if (mark)
        fprintf(to, " %" PRIu64, value);
    else
        fputs(" -", to);
}

/* Document 01's lines for an accepted message. */
static void print_accepted(FILE *to, const char *name, const struct desk_checked *answer) {
    print_name(to, name);
    fprintf(to, "OK %" PRIu64 " %" PRIu64 " %" PRIu64 "\n", answer->batches, answer->transactions,
            answer->cents);
    for (uint64_t i = 0; i < answer->batches; i++) {
        const uint64_t *row = rows + i * DESK_ROW;
        print_name(to, name);
        fprintf(to, "B %" PRIu64 " %" PRIu64 " %" PRIu64, i + 1, row[1], row[2]);
        print_declared(to, row[3], row[4]);
        print_declared(to, row[5], row[6]);
        fputc('\n', to);
    }
}

/* Of a check, or of a write whose message was checked then; a refusal of a check has no field, 0. */
static void print_answer(FILE *to, const char *name, uint64_t number, uint64_t place, uint64_t field,
                         const struct desk_checked *accepted) {
    if (number == 0) {
        print_accepted(to, name, accepted);
    } else {
        print_name(to, name);
        print_refusal(to, number, place, field);
    }
}

/* The lines of an explanation for JSON, which has none where none was asked for. */
static const char *explanation_of(const struct request *request, const struct lines *said) {
    return request->option[EXPLAIN] ? said->text : 0;
}

/* ─── check ─── */

static int declares_all(const struct desk_checked *answer) {
    for (uint64_t i = 0; i < answer->batches; i++)
        if (rows[i * DESK_ROW + 3] == 0 || rows[i * DESK_ROW + 5] == 0) return 0;
    return 1;
}

/* "; no sum in batch 1 2": the batches whose mark in this column is 0. */
static void name_undeclared(const struct desk_checked *answer, const char *what, size_t column) {
    int named = 0;
    for (uint64_t i = 0; i < answer->batches; i++) {
        if (rows[i * DESK_ROW + column] != 0) continue;
        if (!named) fprintf(stderr, "; no %s in batch", what);
        fprintf(stderr, " %" PRIu64, i + 1);
        named = 1;
    }
}

static void say_undeclared(const char *name, const struct desk_checked *answer) {
    fputs("desk: ", stderr);
    print_word(stderr, name);
    fputs(": accepted, but not everything is declared", stderr);
    name_undeclared(answer, "count", 3);
    name_undeclared(answer, "sum", 5);
    fputc('\n', stderr);
}

/* The lines, or the object of JSON, of a message; `said` are those of its explanation. */
static void print_checked(const struct request *request, const char *name, enum status status,
                          struct text message, const struct desk_checked *answer, const struct lines *said) {
    if (request->option[JSON]) {
        print_json_checked(stdout, name, status, message, answer, rows, explanation_of(request, said));
    } else {
        const char *before = request->inputs_count > 1 ? name : 0;
        print_answer(stdout, before, answer->number, answer->place, 0, answer);
        print_lines(stdout, before, said->text);
    }
}

static enum status check_file(const struct request *request, const char *name) {
    struct text message;
    struct lines said;
    if (read_input(name, &message) != DONE) {
        if (request->option[JSON]) print_json_failed(stdout, name);
        return FAILED;
    }
    struct desk_checked answer =
        desk_check(message.bytes, message.length, slips, DESK_SLIPS, rows, DESK_ROWS);
    enum status status = answer.number != 0 ? REFUSED : DONE;
    if (status == DONE && request->option[DECLARED] && !declares_all(&answer)) status = UNDECLARED;
    if (open_lines(&said) != DONE) return FAILED;
    if (request->option[EXPLAIN]) explain_check(said.to, message, &answer, rows);
    if (close_lines(&said) != DONE) return FAILED;
    if (!request->option[QUIET]) print_checked(request, name, status, message, &answer, &said);
    free(said.text);
    if (flushed(stdout) != DONE) return FAILED;
    if (status == UNDECLARED) say_undeclared(name, &answer);
    return status;
}

/* The worst status of all files. */
static int run_check(const struct request *request) {
    static const int badness[] = {[DONE] = 0, [UNDECLARED] = 1, [REFUSED] = 2, [FAILED] = 3};
    enum status worst = DONE;
    for (size_t i = 0; i < request->inputs_count; i++) {
        enum status status = check_file(request, request->inputs[i]);
        if (badness[status] > badness[worst]) worst = status;
    }
    return worst;
}

/* ─── what is made: to a file, or to standard output ─── */

static int deliver(const struct request *request, struct text bytes) {
    if (request->option[OUTPUT]) return replace_file(request->option[OUTPUT], bytes);
    fwrite(bytes.bytes, 1, bytes.length, stdout);
    return flushed(stdout);
}

/* Where lines go beside what is made. */
static FILE *lines_of(const struct request *request) { return request->option[OUTPUT] ? stdout : stderr; }

/* The lines after what was made has arrived: where they cannot be printed, that is said, and that it has
   arrived. */
static int finish(const struct request *request) {
    if (fflush(lines_of(request)) == 0 && !ferror(lines_of(request))) return DONE;
    if (!request->option[OUTPUT]) return DONE;
    fprintf(stderr, "desk: ");
    print_word(stderr, request->option[OUTPUT]);
    fprintf(stderr, " is written, whole; its lines could not be printed: %s\n", strerror(errno));
    return FAILED;
}

/* The lines of a refusal. */
static int refused(const struct request *request) {
    return flushed(lines_of(request)) == DONE ? REFUSED : FAILED;
}

/* ─── write ─── */

/* `checked` is the check's answer of a message that was written. */
static void explain_written(FILE *to, const struct request *request, struct text list,
                            const struct desk_written *answer, const struct desk_checked *checked) {
    if (answer->number != 0) {
        explain_refused_list(to, list, request->ceiling, answer);
        return;
    }
    fprintf(to, "The message is written: %" PRIu64 " bytes.\n", answer->place);
    explain_check(to, (struct text){made, (size_t)answer->place}, checked, rows);
}

static void print_written(const struct request *request, const struct desk_written *answer,
                          const struct desk_checked *checked, const struct lines *said) {
    FILE *to = lines_of(request);
    if (request->option[JSON]) {
        print_json_written(to, request->inputs[0], answer, checked, rows, explanation_of(request, said));
    } else {
        print_answer(to, 0, answer->number, answer->place, answer->field, checked);
        print_lines(to, 0, said->text);
    }
}

/* The explanation is collected before the message is delivered: what can fail then is only the printing. */
static int run_write(const struct request *request) {
    struct text list;
    struct lines said;
    struct desk_checked checked = {0, 0, 0, 0, 0};
    if (read_input(request->inputs[0], &list) != DONE) return FAILED;
    struct desk_written answer = desk_write(list.bytes, list.length, request->ceiling, made, sizeof made);
    struct text message = {made, answer.number == 0 ? (size_t)answer.place : 0};
    if (answer.number == 0)
        checked = desk_check(message.bytes, message.length, slips, DESK_SLIPS, rows, DESK_ROWS);
    if (checked.number != 0)
        return trouble("write", "the message",
                       "the check refuses it; command and library do not belong together");
    if (open_lines(&said) != DONE) return FAILED;
    if (request->option[EXPLAIN]) explain_written(said.to, request, list, &answer, &checked);
    if (close_lines(&said) != DONE) return FAILED;
    int status = answer.number == 0 ? deliver(request, message) : DONE;
    if (status == DONE && !request->option[QUIET]) print_written(request, &answer, &checked, &said);
    free(said.text);
    if (status != DONE) return status;
    return answer.number == 0 ? finish(request) : refused(request);
}

/* ─── list and show ─── */

/* "OK collections cents" of a list whose lines are frames. */
static void print_list(FILE *to, struct text list) {
    size_t collections = 0, rest;
    uint64_t cents = 0;
    struct text values[FIELDS];
    for (next_line(&list); list.length > 0; collections++) {
        struct line line = next_line(&list);
        read_frame(bytes_of(&line), &COLLECTION_LINE, values, &rest);
        cents += number_of(values[2]);
    }
    fprintf(to, "OK %zu %" PRIu64 "\n", collections, cents);
}

static int run_list(const struct request *request) {
    struct text csv;
    struct lines lines;
    if (read_input(request->inputs[0], &csv) != DONE) return FAILED;
    if (csv.length > DESK_BYTES)
        return trouble("read", request->inputs[0], "it is longer than 1,048,576 bytes");
    if (open_lines(&lines) != DONE) return FAILED;
    size_t length = list_of_csv(lines.to, csv, request->option + CREDITOR_OPTION, made, sizeof made);
    if (close_lines(&lines) != DONE) return FAILED;
    const struct hint *hint = length == 0 ? hint_of_csv(csv) : 0;
    if (!request->option[QUIET] && hint)
        fprintf(lines_of(request), "%s\nTo mend: %s\n", hint->is, hint->mend);
    else if (!request->option[QUIET])
        print_lines(lines_of(request), 0, lines.text);
    free(lines.text);
    if (length == 0) return refused(request);
    if (deliver(request, (struct text){made, length}) != DONE) return FAILED;
    if (!request->option[QUIET]) print_list(lines_of(request), (struct text){made, length});
    return finish(request);
}

/* Where a list is refused for its lines there are no values to show. */
static int run_show(const struct request *request) {
    struct text list;
    struct lines lines;
    uint8_t none[1];
    if (read_input(request->inputs[0], &list) != DONE) return FAILED;
    struct desk_written answer = desk_write(list.bytes, list.length, DESK_CEILING, none, 0);
    if (is_of_lines(answer.number)) {
        print_refusal(lines_of(request), answer.number, answer.place, 0);
        explain_refused_list(lines_of(request), list, DESK_CEILING, &answer);
        return refused(request);
    }
    if (open_lines(&lines) != DONE) return FAILED;
    print_csv(lines.to, list);
    if (close_lines(&lines) != DONE) return FAILED;
    int status = deliver(request, (struct text){(const uint8_t *)lines.text, lines.length});
    free(lines.text);
    return status;
}

int main(int argc, char **argv) {
    const char *inputs[argc + 1];
    struct request request = {.inputs = inputs};
    if (read_request(argc, argv, &request) != DONE) return FAILED;
    if (request.option[HELP] || request.option[SHORT_HELP]) {
        fputs(HELP_TEXT, stdout);
        return flushed(stdout);
    }
    if (request.option[VERSION]) {
        fputs("desk " DESK_VERSION ", for pain.008.001.08\n", stdout);
        return flushed(stdout);
    }
    switch (request.job) {
    case CHECK: return run_check(&request);
    case WRITE: return run_write(&request);
    case LIST: return run_list(&request);
    default: return run_show(&request);
    }
}
