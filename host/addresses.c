/* Addresses in words: whose an address is, which parts it has, which kind they come nearest to, and what to add
   or to take out. The library has refused it for the mix of its parts; what is said here only explains that.

   Structured: town and country, no line. Hybrid: town, country and line. Street, number and post code may stand
   in both. Unstructured: line or country or both and nothing else, where the collection date is early enough. */
#include <string.h>
#include "host.h"

/* ─── parts ─── */

/* A set of parts is the sum of their numbers. */
enum {
    HAS_STREET = 1, HAS_NUMBER = 2, HAS_POST_CODE = 4, HAS_TOWN = 8, HAS_COUNTRY = 16, HAS_LINE = 32,
    NEEDED = HAS_TOWN | HAS_COUNTRY,                  /* of a structured address, and of a hybrid one */
    BESIDE = HAS_STREET | HAS_NUMBER | HAS_POST_CODE, /* what may stand beside these */
    LOOSE = HAS_COUNTRY | HAS_LINE                    /* what an unstructured address may have */
};

/* In message order. */
static const struct {
    unsigned part;
    const char *name, *tag, *is;
} PARTS[] = {
    {HAS_STREET, "StrtNm", "<StrtNm>", "street"},
    {HAS_NUMBER, "BldgNb", "<BldgNb>", "number"},
    {HAS_POST_CODE, "PstCd", "<PstCd>", "post code"},
    {HAS_TOWN, "TwnNm", "<TwnNm>", "town"},
    {HAS_COUNTRY, "Ctry", "<Ctry>", "country"},
    {HAS_LINE, "AdrLine", "<AdrLine>", "one line"},
};
enum { PARTS_COUNT = sizeof PARTS / sizeof *PARTS };

/* The first collection date at which an unstructured address is no longer good. */
#define TOO_LATE "2026-11-15"

/* ─── reading ─── */

struct address {
    unsigned has;     /* its parts */
    size_t lines;     /* how many of them are lines */
    size_t batch;     /* the batch that it stands in, from 1 */
    struct text date; /* the collection date of that batch, which the library has found good */
};

/* The text after the last of such tags; none where there is no such tag. */
static struct text last_text(struct text message, const char *tag) {
    size_t at = message.length, start, end;
    while (at > 0 && !tag_stands(message, at, tag)) at--;
    if (!tag_stands(message, at, tag)) return text_of("");
    start = end = at + strlen(tag);
    while (end < message.length && message.bytes[end] != '<') end++;
    return (struct text){message.bytes + start, end - start};
}

static struct address read_address(struct text message, size_t place) {
    struct text before = {message.bytes, place};
    struct address address = {0, 0, count_tags(before, "<PmtInf>"), last_text(before, "<ReqdColltnDt>")};
    for (size_t at = place; at < message.length && !tag_stands(message, at, "</PstlAdr>"); at++)
        for (size_t i = 0; i < PARTS_COUNT; i++) {
            if (!tag_stands(message, at, PARTS[i].tag)) continue;
            address.has |= PARTS[i].part;
            address.lines += PARTS[i].part == HAS_LINE;
        }
    return address;
}

/* It has what an unstructured address may have, and nothing else. */
static int is_unstructured(unsigned has) { return has != 0 && (has | LOOSE) == LOOSE; }

static int is_early(const struct address *address) {
    size_t n = strlen(TOO_LATE);
    return address->date.length == n && memcmp(address->date.bytes, TOO_LATE, n) < 0;
}

/* ─── saying ─── */

/* "StrtNm, BldgNb and PstCd". */
static void say_names(FILE *to, unsigned parts) {
    for (size_t i = 0; i < PARTS_COUNT; i++) {
        if (!(parts & PARTS[i].part)) continue;
        fputs(PARTS[i].name, to);
        parts &= ~PARTS[i].part;
        if (parts) fputs(parts & (parts - 1) ? ", " : " and ", to);
    }
}

/* "street (StrtNm), country (Ctry), two lines (AdrLine)". */
static void say_parts(FILE *to, const struct address *address) {
    unsigned left = address->has;
    if (left == 0) fputs("nothing", to);
    for (size_t i = 0; i < PARTS_COUNT; i++) {
        if (!(left & PARTS[i].part)) continue;
        left &= ~PARTS[i].part;
        fprintf(to, "%s (%s)%s", PARTS[i].part == HAS_LINE && address->lines > 1 ? "two lines" : PARTS[i].is,
                PARTS[i].name, left ? ", " : "");
    }
}

static void say_unstructured(FILE *to, const struct address *address) {
    fprintf(to, "unstructured, which is good only before " TOO_LATE "; the collection date of batch %zu is ",
            address->batch);
    fwrite(address->date.bytes, 1, address->date.length, to);
}

static void say_owner(FILE *to, struct text before, size_t batch, int is_debtors) {
    if (is_debtors)
        fprintf(to, "the debtor of transaction %zu, EndToEndId ", count_tags(before, "<DrctDbtTxInf>"));
    else
        fprintf(to, "the creditor of batch %zu, PmtInfId ", batch);
    print_text(to, last_text(before, is_debtors ? "<EndToEndId>" : "<PmtInfId>"));
    fputs(", Nm ", to);
    print_text(to, last_text(before, "<Nm>"));
}

static void say_kind(FILE *to, const struct address *address) {
    if (is_unstructured(address->has)) {
        fputs("Its kind: ", to);
        say_unstructured(to, address);
    } else {
        fputs(address->has & HAS_LINE ? "Nearest kind: hybrid, which has town, country and line"
                                      : "Nearest kind: structured, which has town and country, and no line",
              to);
    }
}

/* What is missing of a structured or a hybrid address; and where the date allows an unstructured one, what is
   too much for that. */
static void say_mend(FILE *to, const struct address *address) {
    unsigned missing = NEEDED & ~address->has, beside = address->has & BESIDE;
    fputs("Add ", to);
    say_names(to, missing);
    if (address->has & HAS_LINE)
        fprintf(to, ", and do not repeat %s in AdrLine", missing == NEEDED ? "them" : "it");
    fputc('.', to);
    if (!beside || !is_unstructured(address->has & ~beside) || !is_early(address)) return;
    fputs(" Or take out ", to);
    say_names(to, beside);
    fputs(": then it is ", to);
    say_unstructured(to, address);
    fputc('.', to);
}

/* ─── the explanations ─── */

void explain_address(FILE *to, struct text message, size_t place, int is_debtors) {
    struct address address = read_address(message, place);
    fputs("Address: that of ", to);
    say_owner(to, (struct text){message.bytes, place}, address.batch, is_debtors);
    fputs(".\nIt has: ", to);
    say_parts(to, &address);
    fputs(".\n", to);
    if (address.has == 0) {
        fprintf(to, "To mend: %s\n", words_of(BAD_ADDRESS)->mend);
        return;
    }
    say_kind(to, &address);
    fputs(".\nTo mend: ", to);
    say_mend(to, &address);
    fputc('\n', to);
}

void explain_address_form(FILE *to) {
    fputs("PstlAdr may have, in this order: ", to);
    for (size_t i = 0; i < PARTS_COUNT; i++) fprintf(to, "%s, ", PARTS[i].name);
    fputs("AdrLine.\n", to);
}
