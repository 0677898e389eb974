/* The totals in words. The exact figures of a refused message are worked out here, in integers; those of an
   accepted one are the library's. */
#include <inttypes.h>
#include <string.h>
#include "host.h"

/* ─── tags: a text has no `<`, so in a message of the form each tag is found by its bytes ─── */

int tag_stands(struct text message, size_t at, const char *tag) {
    size_t n = strlen(tag);
    return message.length - at >= n && memcmp(message.bytes + at, tag, n) == 0;
}

size_t count_tags(struct text message, const char *tag) {
    size_t n = 0;
    for (size_t at = 0; at < message.length; at++)
        if (message.bytes[at] == '<' && tag_stands(message, at, tag)) n++;
    return n;
}

/* ─── adding up ─── */

/* The number that digits spell, of a sum or an amount in cents; whether they are one, with at most `most`
   digits before the point. */
static int spelled(struct text text, size_t most, int money, uint64_t *number) {
    size_t whole = 0, decimals = 0;
    int after_point = 0;
    *number = 0;
    for (size_t i = 0; i < text.length; i++) {
        if (money && text.bytes[i] == '.' && !after_point) {
            after_point = 1;
            continue;
        }
        if (text.bytes[i] < '0' || text.bytes[i] > '9') return 0;
        if (after_point ? ++decimals > 2 : ++whole > most) return 0;
        *number = *number * 10 + (uint64_t)(text.bytes[i] - '0');
    }
    for (; money && decimals < 2; decimals++) *number *= 10;
    return whole > 0;
}

void add_up(struct text message, struct totals *totals) {
    static const char *const tags[] = {"<PmtInf>", "<PmtInfId>", "<NbOfTxs>", "<CtrlSum>",
                                       "<InstdAmt Ccy=\"EUR\">"};
    struct figures *of = &totals->all;
    memset(totals, 0, sizeof *totals);
    for (size_t at = 0; at < message.length; at++) {
        size_t tag = 0;
        if (message.bytes[at] != '<') continue;
        while (tag < 5 && !tag_stands(message, at, tags[tag])) tag++;
        if (tag == 5) continue;
        struct text text = {message.bytes + at + strlen(tags[tag]), 0};
        const uint8_t *end = memchr(text.bytes, '<', (size_t)(message.bytes + message.length - text.bytes));
        if (end) text.length = (size_t)(end - text.bytes);
        if (tag == 0) {
            of = &totals->batch[totals->batches < DESK_BATCHES ? totals->batches : DESK_BATCHES];
            totals->batches++;
        } else if (tag == 1) {
            of->id = text;
        } else if (tag == 2) {
            of->declares_count = spelled(text, 15, 0, &of->declared_count);
        } else if (tag == 3) {
            of->declares_sum = spelled(text, 15, 1, &of->declared_cents);
        } else {
            uint64_t cents;
            if (!spelled(text, 9, 1, &cents)) totals->unreadable = 1;
            of->count++;
            of->cents += cents;
            totals->all.count++;
            totals->all.cents += cents;
        }
    }
}

int add_up_so_far(struct text message, struct totals *totals) {
    static const char begin[] = "<DrctDbtTxInf>", end[] = "</DrctDbtTxInf>";
    size_t first = message.length, whole = 0, begun = count_tags(message, begin), ended = 0;
    for (size_t at = 0; at < message.length; at++) {
        if (first == message.length && tag_stands(message, at, begin)) first = at;
        if (!tag_stands(message, at, end)) continue;
        whole = at + strlen(end);
        ended++;
    }
    add_up((struct text){message.bytes, ended > 0 ? whole : first}, totals);
    return begun > ended;
}

void take_rows(struct totals *totals, size_t batches, const uint64_t *rows) {
    totals->batches = batches;
    for (size_t i = 0; i < batches; i++) {
        const uint64_t *row = rows + i * DESK_ROW;
        struct figures *of = &totals->batch[i];
        of->count = row[1];
        of->cents = row[2];
        of->declares_count = row[3] == 1;
        of->declared_count = row[4];
        of->declares_sum = row[5] == 1;
        of->declared_cents = row[6];
    }
}

/* ─── printing ─── */

/* A count, or cents as euros. */
static void print_figure(FILE *to, uint64_t n, int money) {
    if (money)
        print_euros(to, n);
    else
        fprintf(to, "%" PRIu64, n);
}

/* "2 transactions", or euros. */
static void print_amount(FILE *to, uint64_t n, int money) {
    if (money)
        print_euros(to, n);
    else if (n == 1)
        fputs("one transaction", to);
    else
        print_many(to, n, "", "transactions");
}

/* "declared 4, found 5: one transaction more than declared". */
static void print_difference(FILE *to, uint64_t declared, uint64_t found, int money) {
    fputs("declared ", to);
    print_figure(to, declared, money);
    fputs(", found ", to);
    print_figure(to, found, money);
    if (declared == found) return;
    fputs(": ", to);
    print_amount(to, declared > found ? declared - found : found - declared, money);
    fputs(found > declared ? " more" : money ? " less" : " fewer", to);
    fputs(" than declared", to);
}

static void print_compared(FILE *to, int declares, uint64_t declared, uint64_t found, int money) {
    fputs(money ? "  sum: " : "  transactions: ", to);
    if (declares) {
        print_difference(to, declared, found, money);
    } else {
        fputs("found ", to);
        print_figure(to, found, money);
        fprintf(to, "; no %s is declared, so nothing was compared", money ? "sum" : "count");
    }
    fputc('\n', to);
}

static void print_figures(FILE *to, const struct figures *of) {
    print_compared(to, of->declares_count, of->declared_count, of->count, 0);
    print_compared(to, of->declares_sum, of->declared_cents, of->cents, 1);
}

static void print_totals(FILE *to, const struct totals *totals, const uint64_t *rows) {
    for (size_t i = 0; i < totals->batches; i++) {
        fprintf(to, "Batch %zu, PmtInfId ", i + 1);
        print_text(to, totals->batch[i].id);
        if (rows)
            fprintf(to, ", %s %s", SCHEMES[rows[i * DESK_ROW + 7] / 4 % 2],
                    SEQUENCES[rows[i * DESK_ROW + 7] % 4]);
        fputc('\n', to);
        print_figures(to, &totals->batch[i]);
    }
    fputs("The whole message, declared in its header\n", to);
    print_figures(to, &totals->all);
}

/* ─── the explanations ─── */

void explain_totals(FILE *to, struct text message, uint64_t number, size_t place) {
    struct totals totals;
    size_t batch = count_tags((struct text){message.bytes, place}, "<PmtInf>");
    add_up(message, &totals);
    const struct figures *of = batch == 0 ? &totals.all : &totals.batch[batch - 1];
    fputs(number == 6 || number == 7 ? "The batch: " : "The message: ", to);
    if (number == 7 || number == 9)
        print_difference(to, of->declared_cents, of->cents, 1);
    else
        print_difference(to, of->declared_count, of->count, 0);
    fputs(".\n", to);
    print_totals(to, &totals, 0);
}

void explain_declared(FILE *to, struct text message, const uint64_t *rows) {
    struct totals totals;
    int absent = 0;
    add_up(message, &totals);
    take_rows(&totals, totals.batches, rows);
    for (size_t i = 0; i < totals.batches; i++)
        absent |= !totals.batch[i].declares_count || !totals.batch[i].declares_sum;
    print_totals(to, &totals, rows);
    if (absent)
        fputs("Where a batch declares none, only the header's total was compared. A header that was made after\n"
              "transactions were lost does not show the loss: compare such a batch with your own list.\n",
              to);
}

/* What the header declares and is not there. */
static void print_missing(FILE *to, const struct totals *totals) {
    const struct figures *all = &totals->all;
    if (!all->declares_count && !all->declares_sum) {
        fputs("What the header declares does not stand there.\n", to);
        return;
    }
    fputs("The header declares ", to);
    if (all->declares_count) print_many(to, all->declared_count, "transaction", "transactions");
    if (all->declares_count && all->declares_sum) fputs(" and ", to);
    if (all->declares_sum) print_euros(to, all->declared_cents);
    fputs(".\n", to);
    if (!all->declares_count) return;
    if (all->declared_count <= all->count) {
        fputs("So many transactions stand there; the file is not whole all the same.\n", to);
        return;
    }
    fputs("Missing: ", to);
    print_amount(to, all->declared_count - all->count, 0);
    if (all->declares_sum && !totals->unreadable && all->declared_cents > all->cents) {
        fputs(", ", to);
        print_euros(to, all->declared_cents - all->cents);
    }
    fputs(".\n", to);
}

void explain_so_far(FILE *to, struct text message) {
    struct totals totals;
    int begun = add_up_so_far(message, &totals);
    fputs("So far: ", to);
    print_many(to, totals.all.count, "whole transaction", "whole transactions");
    fputs(", ", to);
    if (totals.unreadable)
        fputs("whose sum is not known: an amount is no number", to);
    else
        print_euros(to, totals.all.cents);
    fputs(begun ? "; one more is begun and not whole.\n" : ".\n", to);
    print_missing(to, &totals);
}
