/* What the files of the command share. The command reads, prints and writes files, and explains; it judges
   nothing: what is good is asked of the library. */
#ifndef HOST_H
#define HOST_H

#include <stddef.h>
#include <stdint.h>
#include <stdio.h>
#include "desk.h"

/* How a run ends. */
enum status { DONE = 0, REFUSED = 1, FAILED = 2, UNDECLARED = 3 };

/* Some bytes: a whole input, or a text in it. */
struct text {
    const uint8_t *bytes;
    size_t length;
};

/* ─── words.c: what each number means, the rules of texts, the elements of the profile ─── */

/* What a refusal means, and what to mend. */
struct words {
    uint64_t number;
    const char *means, *mend;
};
const struct words *words_of(uint64_t number);

/* The refusals of a text, or of a value of a list: one for each test of a rule. */
enum { BAD_LENGTH = 51, BAD_LETTER, BAD_SLASH, BAD_NUMBER, BAD_DATE, BAD_CODE, BAD_SHAPE, BAD_CHECK_DIGITS };
/* Whether a number is one of these. */
int is_flaw(uint64_t number);
/* The refusal of an address for the parts that it has. */
enum { BAD_ADDRESS = 59 };

/* The rules of texts, and of the numbers in a day list. A street and a line of an address keep NAME. */
enum rule {
    HOLDER, IDENTIFIER, NAME, REMITTANCE, LETTERS_16, LETTERS_35, COUNTRY, COUNT, SUM, AMOUNT, DATE, TIME,
    IBAN, BIC, CREDITOR, METHOD, BOOKING, SEPA, SCHEME, SEQUENCE, CHARGES, NOBANK, SCHEME_BYTE, SEQUENCE_BYTE,
    CENTS, RULES
};
extern const char *const RULE[RULES];
/* The codes of a scheme and of a sequence, in the order of their numbers; then null. */
extern const char *const SCHEMES[], *const SEQUENCES[];

/* The elements of the profile, in message order: the name, one of the two elements around it where the name
   alone does not give the rule, and the rule; HOLDER: it holds elements. */
struct element {
    const char *name, *within;
    enum rule rule;
};
extern const struct element ELEMENTS[];
extern const size_t ELEMENTS_COUNT;

/* ─── print.c: bytes, refusals, euros, numbers with their nouns ─── */

/* How many bytes the character at a place has; 0 where it is not UTF-8. */
size_t character_length(struct text text, size_t at);
enum { SHOWN = 60 };
/* Bytes in quotes, at most SHOWN of them; what is no plain letter as \xNN. */
void print_text(FILE *to, struct text text);
/* A word of the command line, or a file's name, on one line whatever it holds. */
void print_word(FILE *to, const char *word);
/* A line with the bytes around a place in quotes, after the lead, and a line with a mark below that place. */
void print_marked(FILE *to, const char *lead, struct text text, size_t place);
/* The line of a refusal, "NO 2 729", with the field where it has one, "NO 52 3 9". */
void print_refusal(FILE *to, uint64_t number, uint64_t place, uint64_t field);
/* Cents as euros, "3250.15 EUR". */
void print_euros(FILE *to, uint64_t cents);
/* A number with its noun, "1 batch", "2 batches". */
void print_many(FILE *to, uint64_t n, const char *one, const char *many);
struct text text_of(const char *word);

/* ─── files.c: reading, and writing whole files ─── */

/* One line to standard error; answers FAILED. */
int trouble(const char *doing, const char *name, const char *why);
/* Reads at most one byte above the limit of a message, of a list and of a CSV; - is standard input. */
int read_input(const char *name, struct text *input);
/* What was printed has arrived. */
int flushed(FILE *to);
/* The file `name`, new or a regular file other than the one read last, gets these bytes: all of them, or
   none. */
int replace_file(const char *name, struct text bytes);

/* ─── arguments.c: what the arguments ask for ─── */

enum { CREDITOR_FIELDS = 7, COLLECTION_FIELDS = 11, FIELDS = 11 };
enum job { NO_JOB, CHECK, WRITE, LIST, SHOW };
/* The last are the creditor's fields in their order. */
enum option {
    HELP, SHORT_HELP, VERSION, EXPLAIN, JSON, QUIET, DECLARED, CEILING, OUTPUT, CREDITOR_OPTION,
    OPTIONS = CREDITOR_OPTION + CREDITOR_FIELDS
};
struct request {
    enum job job;
    const char **inputs; /* names; - is standard input */
    size_t inputs_count;
    const char *option[OPTIONS]; /* the value, "" where it takes none; null where it is not given */
    uint64_t ceiling;
};
/* `inputs` has room for all arguments. */
int read_request(int argc, char **argv, struct request *request);
const char *option_name(size_t option);

/* ─── flaws.c: how a text fails a test of its rule ─── */

/* Of a text that is refused with this number, 51 to 58: says in a sentence how it fails that test, and answers
   the byte at fault, from 0; its length where it ends too soon. */
size_t explain_flaw(FILE *to, uint64_t number, enum rule rule, struct text text);

/* ─── totals.c: counts and sums, exact and declared ─── */

/* Figures of a batch, or of the whole message; absent: not declared. */
struct figures {
    struct text id;
    uint64_t count, cents;
    int declares_count, declares_sum;
    uint64_t declared_count, declared_cents;
};
struct totals {
    struct figures all, batch[DESK_BATCHES + 1]; /* the last holds what is above the limit */
    size_t batches;
    int unreadable; /* an amount is no number */
};
/* Whether a tag stands at a place, which is at most the length. */
int tag_stands(struct text message, size_t at, const char *tag);
/* How often a tag stands in these bytes. */
size_t count_tags(struct text message, const char *tag);
/* Adds up the transactions of a message, whatever it is. */
void add_up(struct text message, struct totals *totals);
/* Adds up the whole transactions of a message that ends too soon; answers whether one more is begun. */
int add_up_so_far(struct text message, struct totals *totals);
/* The figures of so many batches as the library's rows have them. */
void take_rows(struct totals *totals, size_t batches, const uint64_t *rows);
/* Refusals 6 to 9: the declared figure at fault, the exact one, and all others. */
void explain_totals(FILE *to, struct text message, uint64_t number, size_t place);
/* What each batch of an accepted message declares, and where it declares nothing. */
void explain_declared(FILE *to, struct text message, const uint64_t *rows);
/* What stands of a message that is cut off, and what is missing of what its header declares. */
void explain_so_far(FILE *to, struct text message);

/* ─── addresses.c: what an address has, and which kind it comes nearest to ─── */

/* Refusal 59, of the address at this place, a debtor's or a creditor's: whose it is, what it has, and what to
   mend. */
void explain_address(FILE *to, struct text message, size_t place, int is_debtors);
/* What PstlAdr may have, in a line. */
void explain_address_form(FILE *to);

/* ─── hints.c: what a refused file is, where it is not what its job reads ─── */

/* What it is and what to mend, or null where nothing is known. */
struct hint {
    const char *is, *mend;
};
const struct hint *hint_of_message(struct text message, size_t place);
const struct hint *hint_of_list(struct text list);
const struct hint *hint_of_csv(struct text csv);
/* Where the place lies in a namespace other than the profile's, which kind of message that is. */
void explain_namespace(FILE *to, struct text message, size_t place);

/* ─── message.c: the check's answer in words ─── */

/* `rows` are the batch rows of an accepted message. */
void explain_check(FILE *to, struct text message, const struct desk_checked *answer, const uint64_t *rows);
/* Whether a message is refused because it ends too soon. */
int is_cut_off(struct text message, const struct desk_checked *answer);
/* Whether the place of a refusal with this number lies in the message. */
int lies_in_message(uint64_t number);
/* Line and column of a place, from 1, in bytes. */
void line_and_column(struct text message, size_t place, size_t *line, size_t *column);

/* ─── frames.c: the lines of a day list ─── */

/* A field of a frame, by its name in the papers. A number has so many bytes, high first; a text has 0 here:
   its length byte comes first. */
struct field {
    const char *name;
    enum rule rule;
    size_t bytes;
    int may_be_empty;
    struct text good; /* a value that the rule allows */
};

/* A kind of frame: the name of its line, its first byte, and its fields in order, which count from 1 in all
   that is said. */
struct kind {
    const char *name;
    uint8_t byte;
    size_t fields;
    const struct field *field;
};
extern const struct kind CREDITOR_LINE, COLLECTION_LINE;
/* Line 1 is the creditor's, every other a collection. */
const struct kind *kind_of(uint64_t line);

/* A line of a list, without its LF; whether it has one. */
struct line {
    struct text digits;
    int ended;
};
/* The next line of what is left of a list, which is then without it. */
struct line next_line(struct text *left);
/* The n-th line, from 1; where there are fewer, the last. */
struct line line_at(struct text list, uint64_t n);
/* The value of a hexadecimal digit 0-9 A-F, or -1. */
int digit_value(uint8_t c);
/* The bytes that the digits of a line stand for, where all are good. They stay until the next call. */
struct text bytes_of(const struct line *line);
/* The values of a frame's fields. Answers how many are whole, and in `rest` how many bytes follow the last. */
size_t read_frame(struct text bytes, const struct kind *kind, struct text *values, size_t *rest);
/* Puts a line with these values at `list`, and answers its length; where that is above `room`, nothing is
   put. A text has at most 255 bytes. */
size_t put_line(uint8_t *list, size_t room, const struct kind *kind, const struct text *values);
/* The number that the bytes of a field spell. */
uint64_t number_of(struct text bytes);
/* The number that the writer refuses this value of a field with, all others being good, 51 to 58; 0 where it
   is good. The library is asked. */
uint64_t flaw_of(const struct kind *kind, size_t field, struct text value);

/* ─── list.c: the writer's refusal in words ─── */

/* Whether a number is about the lines of a list, and not about their values: 21 to 25. */
int is_of_lines(uint64_t number);
void explain_refused_list(FILE *to, struct text list, uint64_t ceiling, const struct desk_written *answer);

/* ─── csv.c: day lists from and to CSV ─── */

/* Makes the day list of a CSV, and answers its length. `given` are the creditor's fields that the command
   line gives, null where it gives none. Where the CSV has faults, or the writer refuses the list for its
   lines or values, they are said to `to`, and the answer is 0. */
size_t list_of_csv(FILE *to, struct text csv, const char *const given[CREDITOR_FIELDS], uint8_t *list,
                   size_t room);
/* Prints a list as a CSV. Every line is a frame of its kind. */
void print_csv(FILE *to, struct text list);

/* ─── json.c: answers as objects of JSON, one on a line ─── */

/* `said` are the lines of the explanation, or null. */
void print_json_checked(FILE *to, const char *name, enum status status, struct text message,
                        const struct desk_checked *answer, const uint64_t *rows, const char *said);
void print_json_written(FILE *to, const char *name, const struct desk_written *answer,
                        const struct desk_checked *checked, const uint64_t *rows, const char *said);
void print_json_failed(FILE *to, const char *name);

#endif
