/* The library beside the second program: `second calls SEED COUNT | driver FILE`.

   Each call comes with all that must come of it; second/src/calls.rs has the format. The library is lent buffers that lie between
   margins of a known pattern. Compared are the answer, every number and byte that was to be written, and that nothing else changed:
   the margins, the rest of the tables and of the output, the input. Then one thing of the result is spoiled on purpose, and the
   comparison must see it.

   Prints the figures. The input of the first disagreement is kept in FILE. Exit status 0: no disagreement, no spoiled result unseen,
   every number reached by its operation; 1: otherwise; 2: the calls cannot be read. */
#include "desk.h"
#include <stdint.h>
#include <stdio.h>
#include <string.h>

enum { MOST_BYTES = 1 << 22, MARGIN = 1024, ALIGNMENTS = 16, SHIFTS = 251, MOST_SHOWN = 10 };

/* ---- Reading the calls */

/* Why the calls cannot be read, or NULL. From then on every number read is 0. */
static const char *trouble;

static void read_bytes(void *into, size_t length) {
    if (trouble == NULL && fread(into, 1, length, stdin) != length) trouble = "the calls end early";
    if (trouble != NULL) memset(into, 0, length);
}

static uint64_t read_number(void) {
    uint64_t number;
    read_bytes(&number, sizeof number);
    return number;
}

/* A length in elements of a size, in bytes. */
static size_t read_length(size_t size) {
    uint64_t length = read_number();
    if (length <= MOST_BYTES / size) return (size_t)length * size;
    trouble = "a length is too great";
    return 0;
}

struct bytes {
    size_t length;
    uint8_t at[MOST_BYTES];
};

/* A row of elements of a size, after how many there are. */
static void read_row(struct bytes *row, size_t size) {
    row->length = read_length(size);
    read_bytes(row->at, row->length);
}

/* ---- Buffers between margins */

/* Numbers without order. */
static uint64_t next_number(void) {
    static uint64_t state = 1;
    state = state * 6364136223846793005u + 1442695040888963407u;
    return state >> 33;
}

static size_t below(size_t bound) { return (size_t)next_number() % bound; }

enum { MOST_LENT = MARGIN + ALIGNMENTS + MOST_BYTES + MARGIN };

/* What every buffer and its margins hold before a call, from a shift on that differs from call to call. */
static uint8_t pattern[SHIFTS + MOST_LENT];

static void make_pattern(void) {
    for (size_t i = 0; i < sizeof pattern; i++) pattern[i] = (uint8_t)next_number();
}

/* A lent buffer: `length` bytes from `start` on; the rest of the first `total` bytes are its margins. At exit it must begin with `due`,
   and all else be as it was. */
struct lent {
    const char *name;
    size_t total, start, length;
    const uint8_t *was;
    const struct bytes *due;
    _Alignas(uint64_t) uint8_t all[MOST_LENT];
};

static uint8_t *lend(struct lent *lent, size_t length, const struct bytes *due, size_t start) {
    lent->total = start + length + MARGIN;
    lent->start = start;
    lent->length = length;
    lent->was = pattern + below(SHIFTS);
    lent->due = due;
    memcpy(lent->all, lent->was, lent->total);
    return lent->all + start;
}

static int as_due(const struct lent *lent) {
    size_t written = lent->start + lent->due->length;
    return memcmp(lent->all, lent->was, lent->start) == 0
        && memcmp(lent->all + lent->start, lent->due->at, lent->due->length) == 0
        && memcmp(lent->all + written, lent->was + written, lent->total - written) == 0;
}

/* The first byte that is not as it must be, from the buffer's start; below 0 in the margin before it. */
static long first_difference(const struct lent *lent) {
    for (size_t i = 0; i < lent->total; i++) {
        int due = i >= lent->start && i < lent->start + lent->due->length;
        if (lent->all[i] != (due ? lent->due->at[i - lent->start] : lent->was[i])) return (long)i - (long)lent->start;
    }
    return 0;
}

/* ---- Results */

enum { MOST_ANSWERS = 5, MOST_BUFFERS = 3, NUMBERS = 60 };
static unsigned long calls, disagreements, unseen;

/* An operation: the names of its inputs, of its success and of what it answers, its refusals in the order of their stages up to a 0;
   its calls, how often each number was answered, and its longest input. */
struct operation {
    const char *function, *inputs, *success;
    const char *answers[MOST_ANSWERS + 1];
    uint8_t refusals[NUMBERS];
    unsigned long calls, reached[NUMBERS];
    size_t longest;
};

static struct operation checks = {
    .function = "desk_check",
    .inputs = "messages",
    .success = "accepted",
    .answers = {"number", "place", "batches", "transactions", "cents"},
    .refusals = {1, 2, 3, 4, 51, 52, 53, 54, 55, 56, 57, 58, 59, 6, 7, 8, 9, 10, 11},
};

static struct operation writes = {
    .function = "desk_write",
    .inputs = "lists",
    .success = "written",
    .answers = {"number", "place", "field"},
    .refusals = {21, 22, 23, 24, 25, 51, 52, 53, 54, 55, 56, 57, 58, 27, 28},
};

/* The result of a call: its answer beside the one that is due, and its buffers. */
struct result {
    struct operation *operation;
    size_t answers, buffers;
    uint64_t answer[MOST_ANSWERS], due[MOST_ANSWERS];
    struct lent *buffer[MOST_BUFFERS];
};

static int right(const struct result *result) {
    for (size_t i = 0; i < result->answers; i++)
        if (result->answer[i] != result->due[i]) return 0;
    for (size_t i = 0; i < result->buffers; i++)
        if (!as_due(result->buffer[i])) return 0;
    return 1;
}

static void show(const struct result *result) {
    printf("call %lu, %s:", calls, result->operation->function);
    for (size_t i = 0; i < result->buffers; i++)
        printf(" %s of %lu bytes,", result->buffer[i]->name, (unsigned long)result->buffer[i]->length);
    for (size_t i = 0; i < result->answers; i++)
        if (result->answer[i] != result->due[i])
            printf(" %s %llu and not %llu,", result->operation->answers[i], (unsigned long long)result->answer[i],
                   (unsigned long long)result->due[i]);
    for (size_t i = 0; i < result->buffers; i++)
        if (!as_due(result->buffer[i])) printf(" %s differs at byte %ld,", result->buffer[i]->name, first_difference(result->buffer[i]));
    printf(" due number %llu\n", (unsigned long long)result->due[0]);
}

/* Makes one thing wrong: a number of the answer, or a bit in the margin before a buffer, in what was to be written there, in its rest
   or in the margin after it. */
static void spoil(struct result *result) {
    size_t which = below(result->answers + 4 * result->buffers);
    if (which < result->answers) {
        result->answer[which] += 1 + below(2);
        return;
    }
    struct lent *lent = result->buffer[(which - result->answers) / 4];
    size_t edges[5] = {0, lent->start, lent->start + lent->due->length, lent->start + lent->length, lent->total};
    size_t part = below(4);
    while (edges[part] == edges[part + 1]) part = (part + 1) % 4;
    lent->all[edges[part] + below(edges[part + 1] - edges[part])] ^= (uint8_t)(1u << below(8));
}

/* ---- Calls */

static const char *keep;
static struct bytes input;
static struct lent lent_input = {.name = "input"}, slips = {.name = "slips"}, rows = {.name = "rows"}, out = {.name = "output"};

/* The start of a buffer of bytes, which need not be aligned. */
static size_t any_start(void) { return MARGIN + below(ALIGNMENTS); }

static uint8_t *lend_input(void) {
    uint8_t *at = lend(&lent_input, input.length, &input, any_start());
    memcpy(at, input.at, input.length);
    return at;
}

static void keep_input(void) {
    FILE *file = fopen(keep, "wb");
    int kept = file != NULL && fwrite(input.at, 1, input.length, file) == input.length;
    if (file != NULL && fclose(file) == 0 && kept) printf("its input is in %s\n", keep);
    else printf("its input cannot be kept in %s\n", keep);
}

static void read_answer(struct result *result) {
    while (result->operation->answers[result->answers] != NULL) result->due[result->answers++] = read_number();
}

static void judge(struct result *result) {
    struct operation *operation = result->operation;
    calls++;
    operation->calls++;
    if (result->answer[0] < NUMBERS) operation->reached[result->answer[0]]++;
    if (input.length > operation->longest) operation->longest = input.length;
    if (!right(result)) {
        disagreements++;
        if (disagreements <= MOST_SHOWN) show(result);
        if (disagreements == 1) keep_input();
        return;
    }
    spoil(result);
    if (right(result)) unseen++;
}

static void call_check(void) {
    static struct bytes due_slips, due_rows;
    struct result result = {.operation = &checks, .buffers = 3, .buffer = {&lent_input, &slips, &rows}};
    size_t slips_length = read_length(sizeof(uint64_t)), rows_length = read_length(sizeof(uint64_t));
    read_answer(&result);
    read_row(&due_slips, sizeof(uint64_t));
    read_row(&due_rows, sizeof(uint64_t));
    if (trouble != NULL) return;
    const uint8_t *message = lend_input();
    uint64_t *slips_at = (uint64_t *)(void *)lend(&slips, slips_length, &due_slips, MARGIN);
    uint64_t *rows_at = (uint64_t *)(void *)lend(&rows, rows_length, &due_rows, MARGIN);
    struct desk_checked found =
        desk_check(message, input.length, slips_at, slips_length / sizeof(uint64_t), rows_at, rows_length / sizeof(uint64_t));
    uint64_t answer[] = {found.number, found.place, found.batches, found.transactions, found.cents};
    memcpy(result.answer, answer, sizeof answer);
    judge(&result);
}

static void call_write(void) {
    static struct bytes due_out;
    struct result result = {.operation = &writes, .buffers = 2, .buffer = {&lent_input, &out}};
    uint64_t ceiling = read_number();
    size_t out_length = read_length(1);
    read_answer(&result);
    read_row(&due_out, 1);
    if (trouble != NULL) return;
    const uint8_t *list = lend_input();
    uint8_t *out_at = lend(&out, out_length, &due_out, any_start());
    struct desk_written found = desk_write(list, input.length, ceiling, out_at, out_length);
    uint64_t answer[] = {found.number, found.place, found.field};
    memcpy(result.answer, answer, sizeof answer);
    judge(&result);
}

/* ---- Figures */

/* Prints how often an operation answered each of its numbers; whether it answered all. */
static int print_reached(const struct operation *operation) {
    int all = operation->reached[0] > 0;
    printf("%s: %lu calls, %s of up to %lu bytes; ", operation->function, operation->calls, operation->inputs,
           (unsigned long)operation->longest);
    printf("%s %lu", operation->success, operation->reached[0]);
    for (const uint8_t *number = operation->refusals; *number != 0; number++) {
        printf(", %u: %lu", (unsigned)*number, operation->reached[*number]);
        all &= operation->reached[*number] > 0;
    }
    printf("%s\n", all ? "" : " (not every number was reached)");
    return all;
}

static int print_figures(void) {
    int all = print_reached(&checks);
    all &= print_reached(&writes);
    printf("%lu calls, %lu disagreements; %lu results spoiled on purpose, %lu of them unseen\n", calls, disagreements,
           calls - disagreements, unseen);
    return all;
}

int main(int argc, char **argv) {
    if (argc != 2) {
        fprintf(stderr, "usage: driver FILE < CALLS\n");
        return 2;
    }
    keep = argv[1];
    make_pattern();
    for (uint8_t kind = 0; kind != 'E' && trouble == NULL;) {
        read_bytes(&kind, 1);
        if (kind == 'I') read_row(&input, 1);
        else if (kind == 'C') call_check();
        else if (kind == 'W') call_write();
        else if (kind != 'E' && trouble == NULL) trouble = "this is no call";
    }
    if (trouble != NULL) {
        fprintf(stderr, "driver: %s\n", trouble);
        return 2;
    }
    int all = print_figures();
    return all && disagreements == 0 && unseen == 0 ? 0 : 1;
}
