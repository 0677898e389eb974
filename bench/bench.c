/* The library beside the plain C of plain_check.c and plain_write.c, in one process, as tables for docs/TIMES.md.

     bench [COUNTS]        the tables; COUNTS has the instructions of each job by the library and by the plain C, 0 where unknown
     bench call JOB WHO    one call of a job, numbered from 0, by the library, 0, or by the plain C, 1
     bench jobs            how many jobs there are

   Each round times the library and then the plain C, in time of the processor; the best round of all passes over the jobs counts.
   Both must give the same answer and the same bytes. Exit status 1: they do not, or an input is refused; 2: usage. */
#define _POSIX_C_SOURCE 199309L
#include "desk.h"
#include "inputs.h"
#include <stdio.h>
#include <string.h>
#include <time.h>

typedef struct desk_checked checker(const uint8_t *message, size_t message_len, uint64_t *slips, size_t slips_len, uint64_t *rows,
                                    size_t rows_len);
typedef struct desk_written writer(const uint8_t *list, size_t list_len, uint64_t ceiling, uint8_t *out, size_t out_len);
checker plain_check;
writer plain_write;

enum { LIBRARY, PLAIN, IMPLEMENTATIONS, PASSES = 7, ROUNDS = 9, BYTES_A_ROUND = 1 << 18 };

/* ---- The jobs */

/* A check of a message of nearly so many bytes, or, at a ceiling that is not 0, a write of a list of so many collections. */
struct job { size_t size; int pretty; uint64_t ceiling; };

/* Each job of an even number is of a size, and the next is of twice that size. */
static const struct job JOBS[] = {
    {2048, 0, 0},   {4096, 0, 0},   {65536, 0, 0}, {131072, 0, 0}, {DESK_BYTES / 2, 0, 0}, {DESK_BYTES, 0, 0},
    {2048, 1, 0},   {4096, 1, 0},   {65536, 1, 0}, {131072, 1, 0}, {DESK_BYTES / 2, 1, 0}, {DESK_BYTES, 1, 0},
    {10, 0, 1},     {20, 0, 1},     {32, 0, 1},    {64, 0, 1},
    {10, 0, 500},   {20, 0, 500},   {100, 0, 500}, {200, 0, 500},  {500, 0, 500},          {1000, 0, 500},
    {500, 0, 16},   {1000, 0, 16}, /* 32 and 64 batches */
};
enum { COUNT = sizeof JOBS / sizeof JOBS[0], CHECKS = 12 };

static uint8_t input[ROOM];
static size_t input_length;
static unsigned items;

static void make_input(const struct job *job) {
    if (job->ceiling == 0) {
        input_length = make_message(input, job->size, job->pretty, &items);
    } else {
        items = (unsigned)job->size;
        input_length = make_list(input, items);
    }
}

/* What a call gives: its answer and what it wrote. */
struct result {
    uint64_t answer[5];
    uint64_t slips[DESK_SLIPS], rows[DESK_ROWS];
    uint8_t out[DESK_BYTES];
};
static struct result results[IMPLEMENTATIONS];

static void call(const struct job *job, int implementation) {
    static checker *const CHECK[] = {desk_check, plain_check};
    static writer *const WRITE[] = {desk_write, plain_write};
    struct result *r = &results[implementation];
    if (job->ceiling == 0) {
        struct desk_checked found = CHECK[implementation](input, input_length, r->slips, DESK_SLIPS, r->rows, DESK_ROWS);
        uint64_t answer[5] = {found.number, found.place, found.batches, found.transactions, found.cents};
        memcpy(r->answer, answer, sizeof answer);
    } else {
        struct desk_written found = WRITE[implementation](input, input_length, job->ceiling, r->out, DESK_BYTES);
        uint64_t answer[5] = {found.number, found.place, found.field, 0, 0};
        memcpy(r->answer, answer, sizeof answer);
    }
}

/* ---- Times and counts */

/* Of a job: its bytes, read by a check and written by a write; the nanoseconds of a call; its instructions, 0 where unknown. */
struct figures { size_t bytes; unsigned items; double time[IMPLEMENTATIONS]; uint64_t instructions[IMPLEMENTATIONS]; };
static struct figures figures[COUNT];

static double now(void) {
    struct timespec t;
    clock_gettime(CLOCK_PROCESS_CPUTIME_ID, &t);
    return 1e9 * (double)t.tv_sec + (double)t.tv_nsec;
}

/* Whether both implementations did the job, and alike. */
static int measure(const struct job *job, struct figures *f) {
    make_input(job);
    for (int i = 0; i < IMPLEMENTATIONS; i++) call(job, i);
    if (results[LIBRARY].answer[0] != 0 || memcmp(&results[LIBRARY], &results[PLAIN], sizeof results[PLAIN]) != 0) return 0;
    f->bytes = job->ceiling == 0 ? input_length : (size_t)results[PLAIN].answer[1];
    f->items = items;
    unsigned calls = (unsigned)(BYTES_A_ROUND / f->bytes) + 1;
    for (int round = 0; round < ROUNDS; round++)
        for (int i = 0; i < IMPLEMENTATIONS; i++) {
            double start = now();
            for (unsigned n = 0; n < calls; n++) call(job, i);
            double time = (now() - start) / calls;
            if (f->time[i] == 0 || time < f->time[i]) f->time[i] = time;
        }
    return 1;
}

/* Numbers with any bytes between them, in the order of the jobs. */
static void read_counts(const char *path) {
    static char text[1 << 16];
    FILE *file = fopen(path, "rb");
    size_t length = file == NULL ? 0 : fread(text, 1, sizeof text - 1, file), i = 0;
    for (int k = 0; k < COUNT * IMPLEMENTATIONS; k++) {
        uint64_t *count = &figures[k / IMPLEMENTATIONS].instructions[k % IMPLEMENTATIONS];
        while (i < length && (text[i] < '0' || text[i] > '9')) i++;
        for (; i < length && text[i] >= '0' && text[i] <= '9'; i++) *count = 10 * *count + (uint64_t)(text[i] - '0');
    }
}

/* ---- The tables */

static const char *with_commas(uint64_t n) {
    static char texts[4][28];
    static int which;
    char *text = texts[which = (which + 1) % 4], *at = text + 27;
    *at = 0;
    for (int digits = 0; digits == 0 || n > 0; digits++, n /= 10) {
        if (digits > 0 && digits % 3 == 0) *--at = ',';
        *--at = (char)('0' + n % 10);
    }
    return at;
}

/* A figure, where it is known. */
static void print_figure(double value, int decimals) {
    if (value > 0) printf(" %.*f |", decimals, value);
    else printf(" – |");
}

/* Three columns: of the library, of the plain C, and the ratio. */
static void print_both(const double *value, int decimals) {
    for (int i = 0; i < IMPLEMENTATIONS; i++) print_figure(value[i], decimals);
    print_figure(value[PLAIN] > 0 ? value[LIBRARY] / value[PLAIN] : 0, 1);
}

static void print_name(const struct job *job) {
    if (job->ceiling == 0) printf("| %s |", job->pretty ? "pretty" : "compact");
    else printf("| %lu |", (unsigned long)job->ceiling);
}

static void print_jobs(const char *title, const char *kind, const char *items_name, int first, int end) {
    printf("%s\n\n| %s | %s | Bytes | Library, ns a byte | C, ns a byte | Ratio |", title, kind, items_name);
    printf(" Library, instructions a byte | C | Ratio |\n|---|---|---|---|---|---|---|---|---|\n");
    for (int k = first; k < end; k++) {
        const struct figures *f = &figures[k];
        double times[IMPLEMENTATIONS], counts[IMPLEMENTATIONS];
        for (int i = 0; i < IMPLEMENTATIONS; i++) {
            times[i] = f->time[i] / (double)f->bytes;
            counts[i] = (double)f->instructions[i] / (double)f->bytes;
        }
        print_name(&JOBS[k]);
        printf(" %s | %s |", with_commas(f->items), with_commas(f->bytes));
        print_both(times, 2);
        print_both(counts, 1);
        printf("\n");
    }
    printf("\n");
}

/* The figure of a job over that of the job of half its size. */
static void print_times(double half, double whole) { print_figure(half > 0 ? whole / half : 0, 2); }

static void print_growth(const char *title, const char *kind, int first, int end) {
    printf("%s\n\n| %s | n: bytes | Library, µs | C, µs | 2n: bytes | Library, µs | C, µs |", title, kind);
    printf(" 2n over n: bytes | Library's time | its instructions | C's time |\n|---|---|---|---|---|---|---|---|---|---|---|\n");
    for (int k = first; k < end; k += 2) {
        const struct figures *half = &figures[k], *whole = half + 1;
        print_name(&JOBS[k]);
        for (const struct figures *f = half; f <= whole; f++) {
            printf(" %s |", with_commas(f->bytes));
            for (int i = 0; i < IMPLEMENTATIONS; i++) print_figure(f->time[i] / 1000, 2);
        }
        print_times((double)half->bytes, (double)whole->bytes);
        print_times(half->time[LIBRARY], whole->time[LIBRARY]);
        print_times((double)half->instructions[LIBRARY], (double)whole->instructions[LIBRARY]);
        print_times(half->time[PLAIN], whole->time[PLAIN]);
        printf("\n");
    }
    printf("\n");
}

static unsigned number(const char *s) {
    unsigned value = 0;
    for (; *s >= '0' && *s <= '9'; s++) value = 10 * value + (unsigned)(*s - '0');
    return value;
}

int main(int argc, char **argv) {
    if (argc == 2 && strcmp(argv[1], "jobs") == 0) {
        printf("%d\n", (int)COUNT);
        return 0;
    }
    if (argc == 4 && strcmp(argv[1], "call") == 0 && number(argv[2]) < COUNT) {
        const struct job *job = &JOBS[number(argv[2])];
        make_input(job);
        call(job, number(argv[3]) == 0 ? LIBRARY : PLAIN);
        return 0;
    }
    if (argc > 2) {
        fprintf(stderr, "usage: bench [COUNTS] | bench call JOB WHO | bench jobs\n");
        return 2;
    }
    if (argc == 2) read_counts(argv[1]);
    for (int pass = 0; pass < PASSES; pass++)
        for (int k = 0; k < COUNT; k++)
            if (!measure(&JOBS[k], &figures[k])) {
                fprintf(stderr, "bench: job %d is refused, or the library and the plain C differ\n", k);
                return 1;
            }
    print_jobs("The check, of accepted messages, by bytes of the message:", "Message", "Transactions", 0, CHECKS);
    print_growth("The check at n bytes and at nearly twice as many:", "Message", 0, CHECKS);
    print_jobs("The writer, by bytes of the message written:", "Ceiling", "Collections", CHECKS, COUNT);
    print_growth("The writer at n collections and at twice as many:", "Ceiling", CHECKS, COUNT);
    return 0;
}
