/* The job of desk_write by hand, in plain C: what the library is timed against. include/desk.h says what it does.

   One pass reads the list, line by line, tries the rule of each value and keeps where the texts stand; the collections are sorted by
   terms, cut into batches, measured, and written.

   BESIDE: it is called plain_write, to stand in one program with the library. */
#ifdef BESIDE
#define desk_write plain_write
#endif
#include "desk.h"
#include "plain_rules.h"

/* ---- What is kept */

/* A text of the list: its first hexadecimal digit, and how many bytes it has. */
struct text { const uint8_t *at; unsigned length; };

enum { MESSAGE_ID, CREATION, INITIATOR, CREDITOR, CREDITOR_IBAN, CREDITOR_BIC, CREDITOR_ID, CREDITOR_TEXTS };
enum { COLLECTION_DATE, END_TO_END_ID, MANDATE_ID, SIGNATURE, DEBTOR_BIC, DEBTOR, DEBTOR_IBAN, REMITTANCE, COLLECTION_TEXTS };

/* The terms are one number: the digits of the date, times 8, and scheme and sequence. */
struct collection { uint64_t cents; unsigned terms, group; struct text text[COLLECTION_TEXTS]; };

/* A stretch of the sorted collections. */
struct batch { unsigned first, count; uint64_t cents; };

/* ---- Reading the list */

/* 16 and the value of a hexadecimal digit; 0 for any other byte. */
static const uint8_t HEX[256] = {
    ['0'] = 16, 17, 18, 19, 20, 21, 22, 23, 24, 25,
    ['A'] = 26, 27, 28, 29, 30, 31,
};

/* The byte that two digits are. */
static inline uint8_t decoded(unsigned high, unsigned low) { return (uint8_t)(high << 4 | (low & 15)); }

struct reading {
    const uint8_t *at, *end;
    int broken;     /* the line is no frame */
    uint64_t bad;   /* the number of the first value of the line that breaks its rule, 0 as long as there is none */
    uint64_t field; /* of that value */
    uint8_t decoded[255];
};

static inline unsigned byte(struct reading *r) {
    if (r->end - r->at < 2) {
        r->broken = 1;
        return 0;
    }
    unsigned high = HEX[r->at[0]], low = HEX[r->at[1]];
    r->broken |= (high & low) == 0;
    r->at += 2;
    return decoded(high, low);
}

/* A text; its bytes are decoded too. */
static inline struct text text(struct reading *r) {
    unsigned length = byte(r);
    struct text text = {r->at, length};
    if ((size_t)(r->end - r->at) < 2 * (size_t)length) {
        r->broken = 1;
        return text;
    }
    unsigned digits = 16;
    for (unsigned i = 0; i < length; i++) {
        unsigned high = HEX[text.at[2 * i]], low = HEX[text.at[2 * i + 1]];
        digits &= high & low;
        r->decoded[i] = decoded(high, low);
    }
    r->at += 2 * length;
    r->broken |= digits == 0;
    return text;
}

__attribute__((cold, noinline)) static void bad_value(struct reading *r, uint64_t number, uint64_t field) {
    if (r->bad != 0) return;
    r->bad = number;
    r->field = field;
}

/* The values before the texts, one of which breaks its rule. */
__attribute__((cold, noinline)) static void bad_bytes(struct reading *r, unsigned scheme, unsigned sequence) {
    if (scheme > 1) bad_value(r, BAD_CODE, 1);
    else if (sequence > 3) bad_value(r, BAD_CODE, 2);
    else bad_value(r, BAD_NUMBER, 3);
}

#define TEXT(into, field, kind, ...)                                             \
    do {                                                                         \
        into = text(r);                                                          \
        const uint8_t *s = r->decoded;                                           \
        size_t n = into.length;                                                  \
        if (r->broken) return;                                                   \
        if (!(__VA_ARGS__)) bad_value(r, refusal(kind, s, n), field);            \
    } while (0)
#define CREDITOR_TEXT(which, kind, ...) TEXT(creditor[which], 1 + (which), kind, __VA_ARGS__)
#define COLLECTION_TEXT(which, kind, ...) TEXT(c->text[which], 4 + (which), kind, __VA_ARGS__)

static inline void line_end(struct reading *r) {
    if (r->at == r->end || *r->at != '\n') r->broken = 1;
    else r->at++;
}

static void read_creditor(struct reading *r, struct text *creditor) {
    if (byte(r) != 1) r->broken = 1;
    CREDITOR_TEXT(MESSAGE_ID, ID_KIND, good_id(s, n));
    CREDITOR_TEXT(CREATION, DATE_KIND, good_time(s, n));
    CREDITOR_TEXT(INITIATOR, NAME_KIND, good_letters(s, n, MOST_NAME));
    CREDITOR_TEXT(CREDITOR, NAME_KIND, good_letters(s, n, MOST_NAME));
    CREDITOR_TEXT(CREDITOR_IBAN, IBAN_KIND, good_iban(s, n));
    CREDITOR_TEXT(CREDITOR_BIC, SHAPE_KIND, n == 0 || good_bic(s, n));
    CREDITOR_TEXT(CREDITOR_ID, CREDITOR_ID_KIND, good_creditor_id(s, n));
    line_end(r);
}

static void read_collection(struct reading *r, struct collection *c) {
    if (byte(r) != 2) r->broken = 1;
    unsigned scheme = byte(r), sequence = byte(r);
    c->cents = 0;
    for (int i = 0; i < 5; i++) c->cents = 256 * c->cents + byte(r);
    if (scheme > 1 || sequence > 3 || c->cents < 1 || c->cents > 99999999999) bad_bytes(r, scheme, sequence);
    COLLECTION_TEXT(COLLECTION_DATE, DATE_KIND, good_date(s, n));
    uint64_t day = 10000 * number(r->decoded, 4) + 100 * number(r->decoded + 5, 2) + number(r->decoded + 8, 2);
    c->terms = 8 * (unsigned)day + 4 * scheme + sequence;
    COLLECTION_TEXT(END_TO_END_ID, ID_KIND, good_id(s, n));
    COLLECTION_TEXT(MANDATE_ID, ID_KIND, good_id(s, n));
    COLLECTION_TEXT(SIGNATURE, DATE_KIND, good_date(s, n));
    COLLECTION_TEXT(DEBTOR_BIC, SHAPE_KIND, n == 0 || good_bic(s, n));
    COLLECTION_TEXT(DEBTOR, NAME_KIND, good_letters(s, n, MOST_NAME));
    COLLECTION_TEXT(DEBTOR_IBAN, IBAN_KIND, good_iban(s, n));
    COLLECTION_TEXT(REMITTANCE, REMITTANCE_KIND, n == 0 || good_letters(s, n, MOST_REMITTANCE));
    line_end(r);
}

/* ---- Bundling */

/* Numbers the terms in order of first appearance and counts the collections of each; gives how many terms there are. */
static unsigned group(struct collection *c, unsigned n, unsigned *count) {
    unsigned terms[DESK_COLLECTIONS], groups = 0, last = 0;
    for (unsigned i = 0; i < n; i++) {
        unsigned g = last;
        if (groups == 0 || terms[g] != c[i].terms)
            for (g = 0; g < groups && terms[g] != c[i].terms;) g++;
        if (g == groups) {
            terms[g] = c[i].terms;
            count[g] = 0;
            groups++;
        }
        count[g]++;
        c[i].group = last = g;
    }
    return groups;
}

/* Sorts by terms, each in list order; the count of each terms becomes where it ends. */
static void sort(const struct collection *c, unsigned n, unsigned *count, unsigned groups, unsigned short *order) {
    unsigned start = 0;
    for (unsigned g = 0; g < groups; g++) {
        unsigned next = start + count[g];
        count[g] = start;
        start = next;
    }
    for (unsigned i = 0; i < n; i++) order[count[c[i].group]++] = (unsigned short)i;
}

/* ---- The message */

#define BEGIN_1                                                                                                                  \
    "<?xml version=\"1.0\" encoding=\"UTF-8\"?><Document xmlns=\"urn:iso:std:iso:20022:tech:xsd:pain.008.001.08\">"                \
    "<CstmrDrctDbtInitn><GrpHdr><MsgId>"
#define BEGIN_2 "</MsgId><CreDtTm>"
#define BEGIN_3 "</CreDtTm><NbOfTxs>"
#define BEGIN_4 "</NbOfTxs><CtrlSum>"
#define BEGIN_5 "</CtrlSum><InitgPty><Nm>"
#define BEGIN_6 "</Nm></InitgPty></GrpHdr>"
#define END "</CstmrDrctDbtInitn></Document>"
#define BATCH_1 "<PmtInf><PmtInfId>B"
#define BATCH_2 "</PmtInfId><PmtMtd>DD</PmtMtd><BtchBookg>true</BtchBookg><NbOfTxs>"
#define BATCH_3 "</NbOfTxs><CtrlSum>"
#define BATCH_4 "</CtrlSum><PmtTpInf><SvcLvl><Cd>SEPA</Cd></SvcLvl><LclInstrm><Cd>"
#define BATCH_5 "</Cd></LclInstrm><SeqTp>"
#define BATCH_6 "</SeqTp></PmtTpInf><ReqdColltnDt>"
#define BATCH_7 "</ReqdColltnDt><Cdtr><Nm>"
#define BATCH_8 "</Nm></Cdtr><CdtrAcct><Id><IBAN>"
#define BATCH_9 "</IBAN></Id></CdtrAcct><CdtrAgt><FinInstnId>"
#define BATCH_10 "</FinInstnId></CdtrAgt><ChrgBr>SLEV</ChrgBr><CdtrSchmeId><Id><PrvtId><Othr><Id>"
#define BATCH_11 "</Id><SchmeNm><Prtry>SEPA</Prtry></SchmeNm></Othr></PrvtId></Id></CdtrSchmeId>"
#define BATCH_12 "</PmtInf>"
#define COLLECTION_1 "<DrctDbtTxInf><PmtId><EndToEndId>"
#define COLLECTION_2 "</EndToEndId></PmtId><InstdAmt Ccy=\"EUR\">"
#define COLLECTION_3 "</InstdAmt><DrctDbtTx><MndtRltdInf><MndtId>"
#define COLLECTION_4 "</MndtId><DtOfSgntr>"
#define COLLECTION_5 "</DtOfSgntr></MndtRltdInf></DrctDbtTx><DbtrAgt><FinInstnId>"
#define COLLECTION_6 "</FinInstnId></DbtrAgt><Dbtr><Nm>"
#define COLLECTION_7 "</Nm></Dbtr><DbtrAcct><Id><IBAN>"
#define COLLECTION_8 "</IBAN></Id></DbtrAcct>"
#define COLLECTION_9 "</DrctDbtTxInf>"
#define REMITTANCE_1 "<RmtInf><Ustrd>"
#define REMITTANCE_2 "</Ustrd></RmtInf>"
#define BIC_1 "<BICFI>"
#define BIC_2 "</BICFI>"
#define NO_BIC "<Othr><Id>NOTPROVIDED</Id></Othr>"
#define LENGTH(s) (sizeof(s) - 1)

static const char SCHEMES[2][5] = {"CORE", "B2B"};
static inline size_t scheme_length(unsigned scheme) { return scheme == 0 ? 4 : 3; }

static const char SEQUENCES[4][5] = {"FRST", "RCUR", "OOFF", "FNAL"};

/* ---- Lengths */

static size_t digits(uint64_t n) {
    size_t length = 1;
    while (n >= 10) n /= 10, length++;
    return length;
}

static size_t sum_length(uint64_t cents) { return digits(cents / 100) + 3; }

static size_t bank_length(struct text bic) { return bic.length == 0 ? LENGTH(NO_BIC) : LENGTH(BIC_1 BIC_2) + bic.length; }

static size_t collection_length(const struct collection *c) {
    const struct text *t = c->text;
    size_t remittance = t[REMITTANCE].length;
    return LENGTH(COLLECTION_1 COLLECTION_2 COLLECTION_3 COLLECTION_4 COLLECTION_5 COLLECTION_6 COLLECTION_7 COLLECTION_8 COLLECTION_9)
        + t[END_TO_END_ID].length + sum_length(c->cents) + t[MANDATE_ID].length + t[SIGNATURE].length + bank_length(t[DEBTOR_BIC])
        + t[DEBTOR].length + t[DEBTOR_IBAN].length + (remittance == 0 ? 0 : LENGTH(REMITTANCE_1 REMITTANCE_2) + remittance);
}

/* Of a batch without its collections. */
static size_t batch_length(const struct batch *b, const struct text *t, unsigned terms) {
    return LENGTH(BATCH_1 "001" BATCH_2 BATCH_3 BATCH_4 BATCH_5 "FRST" BATCH_6 "2026-11-10" BATCH_7 BATCH_8 BATCH_9)
        + LENGTH(BATCH_10 BATCH_11 BATCH_12) + digits(b->count) + sum_length(b->cents) + scheme_length(terms / 4 % 2) + t[CREDITOR].length + t[CREDITOR_IBAN].length
        + bank_length(t[CREDITOR_BIC]) + t[CREDITOR_ID].length;
}

/* Of the message without its batches. */
static size_t envelope_length(const struct text *t, uint64_t count, uint64_t cents) {
    return LENGTH(BEGIN_1 BEGIN_2 BEGIN_3 BEGIN_4 BEGIN_5 BEGIN_6 END) + t[MESSAGE_ID].length + t[CREATION].length + digits(count)
        + sum_length(cents) + t[INITIATOR].length;
}

/* ---- Writing: each takes where to write and gives where it ends. */

static inline uint8_t *put(uint8_t *at, const char *s, size_t n) {
    memcpy(at, s, n);
    return at + n;
}

#define PUT(s) (at = put(at, s, LENGTH(s)))

static inline uint8_t *put_text(uint8_t *at, struct text text) {
    for (unsigned i = 0; i < text.length; i++) at[i] = decoded(HEX[text.at[2 * i]], HEX[text.at[2 * i + 1]]);
    return at + text.length;
}

static uint8_t *put_number(uint8_t *at, uint64_t n) {
    uint8_t *end = at + digits(n);
    for (uint8_t *digit = end; digit > at; n /= 10) *--digit = (uint8_t)('0' + n % 10);
    return end;
}

static uint8_t *put_sum(uint8_t *at, uint64_t cents) {
    at = put_number(at, cents / 100);
    at[0] = '.';
    at[1] = (uint8_t)('0' + cents / 10 % 10);
    at[2] = (uint8_t)('0' + cents % 10);
    return at + 3;
}

static uint8_t *put_bank(uint8_t *at, struct text bic) {
    if (bic.length == 0) return PUT(NO_BIC);
    PUT(BIC_1);
    at = put_text(at, bic);
    return PUT(BIC_2);
}

static uint8_t *put_collection(uint8_t *at, const struct collection *c) {
    const struct text *t = c->text;
    PUT(COLLECTION_1);
    at = put_text(at, t[END_TO_END_ID]);
    PUT(COLLECTION_2);
    at = put_sum(at, c->cents);
    PUT(COLLECTION_3);
    at = put_text(at, t[MANDATE_ID]);
    PUT(COLLECTION_4);
    at = put_text(at, t[SIGNATURE]);
    PUT(COLLECTION_5);
    at = put_bank(at, t[DEBTOR_BIC]);
    PUT(COLLECTION_6);
    at = put_text(at, t[DEBTOR]);
    PUT(COLLECTION_7);
    at = put_text(at, t[DEBTOR_IBAN]);
    PUT(COLLECTION_8);
    if (t[REMITTANCE].length > 0) {
        PUT(REMITTANCE_1);
        at = put_text(at, t[REMITTANCE]);
        PUT(REMITTANCE_2);
    }
    return PUT(COLLECTION_9);
}

/* A batch as far as its collections. */
static uint8_t *put_batch(uint8_t *at, unsigned index, const struct batch *b, const struct text *t, const struct collection *first) {
    unsigned scheme = first->terms / 4 % 2;
    PUT(BATCH_1);
    *at++ = '0';
    *at++ = (uint8_t)('0' + (index + 1) / 10);
    *at++ = (uint8_t)('0' + (index + 1) % 10);
    PUT(BATCH_2);
    at = put_number(at, b->count);
    PUT(BATCH_3);
    at = put_sum(at, b->cents);
    PUT(BATCH_4);
    at = put(at, SCHEMES[scheme], scheme_length(scheme));
    PUT(BATCH_5);
    at = put(at, SEQUENCES[first->terms % 4], 4);
    PUT(BATCH_6);
    at = put_text(at, first->text[COLLECTION_DATE]);
    PUT(BATCH_7);
    at = put_text(at, t[CREDITOR]);
    PUT(BATCH_8);
    at = put_text(at, t[CREDITOR_IBAN]);
    PUT(BATCH_9);
    at = put_bank(at, t[CREDITOR_BIC]);
    PUT(BATCH_10);
    at = put_text(at, t[CREDITOR_ID]);
    return PUT(BATCH_11);
}

static uint8_t *put_header(uint8_t *at, const struct text *t, uint64_t count, uint64_t cents) {
    PUT(BEGIN_1);
    at = put_text(at, t[MESSAGE_ID]);
    PUT(BEGIN_2);
    at = put_text(at, t[CREATION]);
    PUT(BEGIN_3);
    at = put_number(at, count);
    PUT(BEGIN_4);
    at = put_sum(at, cents);
    PUT(BEGIN_5);
    at = put_text(at, t[INITIATOR]);
    return PUT(BEGIN_6);
}

/* ---- The whole */

static struct desk_written answer(uint64_t number, uint64_t place) { return (struct desk_written){number, place, 0}; }

struct desk_written desk_write(const uint8_t *list, size_t list_len, uint64_t ceiling, uint8_t *out, size_t out_len) {
    struct text creditor[CREDITOR_TEXTS] = {{0}};
    struct collection c[DESK_COLLECTIONS + 1];
    unsigned count[DESK_COLLECTIONS];
    unsigned short order[DESK_COLLECTIONS];
    struct batch batches[DESK_BATCHES];

    if (list_len > DESK_BYTES) return answer(21, 0);
    if (ceiling < 1 || ceiling > DESK_CEILING) return answer(22, 0);
    struct reading r = {.at = list, .end = list + list_len};
    struct desk_written bad = answer(0, 0);
    uint64_t lines = 0;
    while (r.at < r.end) {
        lines++;
        r.bad = 0;
        if (lines == 1) read_creditor(&r, creditor);
        else read_collection(&r, &c[lines - 2 < DESK_COLLECTIONS ? lines - 2 : DESK_COLLECTIONS]);
        if (r.broken) return answer(23, lines);
        if (r.bad != 0 && bad.number == 0) bad = (struct desk_written){r.bad, lines, r.field};
    }
    if (lines < 2) return answer(24, lines);
    if (lines - 1 > DESK_COLLECTIONS) return answer(25, DESK_COLLECTIONS + 2);
    if (bad.number != 0) return bad;

    unsigned n = (unsigned)(lines - 1), groups = group(c, n, count), most = (unsigned)ceiling, need = 0;
    for (unsigned g = 0; g < groups; g++) need += (count[g] + most - 1) / most;
    if (need > DESK_BATCHES) return answer(27, need);
    sort(c, n, count, groups, order);
    unsigned made = 0;
    for (unsigned g = 0, i = 0; g < groups; g++)
        while (i < count[g]) {
            struct batch b = {.first = i, .count = count[g] - i < most ? count[g] - i : most};
            for (unsigned end = i + b.count; i < end; i++) b.cents += c[order[i]].cents;
            batches[made++] = b;
        }

    uint64_t cents = 0;
    size_t length = 0;
    for (unsigned b = 0; b < made; b++) {
        cents += batches[b].cents;
        length += batch_length(&batches[b], creditor, c[order[batches[b].first]].terms);
    }
    for (unsigned i = 0; i < n; i++) length += collection_length(&c[i]);
    length += envelope_length(creditor, n, cents);
    if (length > out_len) return answer(28, length);

    uint8_t *at = put_header(out, creditor, n, cents);
    for (unsigned b = 0; b < made; b++) {
        unsigned i = batches[b].first, end = i + batches[b].count;
        at = put_batch(at, b, &batches[b], creditor, &c[order[i]]);
        for (; i < end; i++) at = put_collection(at, &c[order[i]]);
        PUT(BATCH_12);
    }
    PUT(END);
    return answer(0, length);
}
