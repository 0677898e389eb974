/* The messages and day lists of inputs.h. */
#include "inputs.h"
#include "plain_rules.h"

/* ---- Texts */

static uint64_t state;

static unsigned below(unsigned bound) {
    state = state * 6364136223846793005u + 1442695040888963407u;
    return (unsigned)(state >> 33) % bound;
}

/* A text of letters, and after it a 0. */
static const char *letters(unsigned least, unsigned most) {
    static const char SET[] = "abcdefghijklmnopqrstuvwxyz ABCDEFGHIJKLMNOPQRSTUVWXYZ 0123456789 -?:().,'+";
    static char text[MOST_REMITTANCE + 1];
    unsigned n = least + below(most - least + 1);
    for (unsigned i = 0; i < n; i++) text[i] = SET[below(sizeof SET - 1)];
    text[n] = 0;
    return text;
}

static void digits(char *at, unsigned n, uint64_t value) {
    while (n-- > 0) at[n] = (char)('0' + value % 10), value /= 10;
}

static const char *iban(void) {
    static char text[] = "BE00000000000000";
    digits(text + 2, 2, 0);
    digits(text + 4, 12, (uint64_t)below(1000000) * 1000000 + below(1000000));
    const uint8_t *s = (const uint8_t *)text;
    digits(text + 2, 2, 98 - rest_of_97(rest_of_97(0, s + 4, 12), s, 4));
    return text;
}

static const char *date(unsigned first_year, unsigned years) {
    static char text[] = "0000-00-00";
    digits(text, 4, first_year + below(years));
    digits(text + 5, 2, 1 + below(12));
    digits(text + 8, 2, 1 + below(28));
    return text;
}

/* A number of units of the last decimal. */
static const char *decimal(uint64_t value, unsigned decimals) {
    static char text[24];
    char *at = text + sizeof text - 1;
    *at = 0;
    for (unsigned n = 0; n <= decimals || value > 0; n++) {
        if (n == decimals && n > 0) *--at = '.';
        *--at = (char)('0' + value % 10);
        value /= 10;
    }
    return at;
}

/* ---- Messages */

static struct { uint8_t *start, *at; int pretty; unsigned depth; } to;

static void put(const char *s) {
    while (*s != 0) *to.at++ = (uint8_t)*s++;
}

static void line(void) {
    if (!to.pretty) return;
    put("\n");
    for (unsigned i = 0; i < to.depth; i++) put("  ");
}

static void open(const char *name) {
    line();
    put("<"), put(name), put(">");
    to.depth++;
}

static void close(const char *name) {
    to.depth--;
    line();
    put("</"), put(name), put(">");
}

static void leaf(const char *name, const char *attribute, const char *text) {
    line();
    put("<"), put(name), put(attribute), put(">"), put(text), put("</"), put(name), put(">");
}

static void bank(const char *name) {
    open(name), open("FinInstnId"), leaf("BICFI", "", "BANKGB2L"), close("FinInstnId"), close(name);
}

static void account(const char *name) {
    open(name), open("Id"), leaf("IBAN", "", iban()), close("Id"), close(name);
}

static void party(const char *name) {
    open(name), leaf("Nm", "", letters(8, 40)), close(name);
}

static void header(uint64_t count, uint64_t cents) {
    put("<?xml version=\"1.0\" encoding=\"UTF-8\"?>");
    line();
    put("<Document xmlns=\"urn:iso:std:iso:20022:tech:xsd:pain.008.001.08\">");
    to.depth = 1;
    open("CstmrDrctDbtInitn"), open("GrpHdr");
    leaf("MsgId", "", letters(8, 20));
    leaf("CreDtTm", "", "2026-11-02T09:30:00");
    leaf("NbOfTxs", "", decimal(count, 0));
    leaf("CtrlSum", "", decimal(cents, 2));
    party("InitgPty");
    close("GrpHdr");
}

static void batch(uint64_t count, uint64_t cents) {
    open("PmtInf");
    leaf("PmtInfId", "", letters(4, 12));
    leaf("PmtMtd", "", "DD");
    leaf("BtchBookg", "", "true");
    leaf("NbOfTxs", "", decimal(count, 0));
    leaf("CtrlSum", "", decimal(cents, 2));
    open("PmtTpInf");
    open("SvcLvl"), leaf("Cd", "", "SEPA"), close("SvcLvl");
    open("LclInstrm"), leaf("Cd", "", "CORE"), close("LclInstrm");
    leaf("SeqTp", "", "RCUR");
    close("PmtTpInf");
    leaf("ReqdColltnDt", "", date(2026, 2));
    party("Cdtr"), account("CdtrAcct"), bank("CdtrAgt");
    leaf("ChrgBr", "", "SLEV");
    open("CdtrSchmeId"), open("Id"), open("PrvtId"), open("Othr");
    leaf("Id", "", "BE69000050D000000008");
    open("SchmeNm"), leaf("Prtry", "", "SEPA"), close("SchmeNm");
    close("Othr"), close("PrvtId"), close("Id"), close("CdtrSchmeId");
}

static uint64_t transaction(void) {
    uint64_t cents = 1 + below(1000000);
    open("DrctDbtTxInf");
    open("PmtId"), leaf("EndToEndId", "", letters(5, 20)), close("PmtId");
    leaf("InstdAmt", " Ccy=\"EUR\"", decimal(cents, 2));
    open("DrctDbtTx"), open("MndtRltdInf");
    leaf("MndtId", "", letters(5, 25)), leaf("DtOfSgntr", "", date(2000, 26));
    close("MndtRltdInf"), close("DrctDbtTx");
    bank("DbtrAgt"), party("Dbtr"), account("DbtrAcct");
    open("RmtInf"), leaf("Ustrd", "", letters(40, 140)), close("RmtInf");
    close("DrctDbtTxInf");
    return cents;
}

enum { OF_A_BATCH = 100 };
struct totals { uint64_t count, cents; };

/* A message of so many transactions that declares some totals, the header's after those of the batches; gives the exact ones in
   their place. */
static void message(uint8_t *into, unsigned transactions, int pretty, struct totals *totals, unsigned batches) {
    state = 1;
    to.start = to.at = into;
    to.pretty = pretty;
    to.depth = 0;
    struct totals all = {0, 0};
    header(totals[batches].count, totals[batches].cents);
    for (unsigned i = 0, b = 0; i < transactions; b++) {
        struct totals exact = {0, 0};
        batch(totals[b].count, totals[b].cents);
        for (; i < transactions && exact.count < OF_A_BATCH; i++, exact.count++) exact.cents += transaction();
        close("PmtInf");
        totals[b] = exact;
        all.count += exact.count;
        all.cents += exact.cents;
    }
    totals[batches] = all;
    close("CstmrDrctDbtInitn"), close("Document");
    if (pretty) put("\n");
}

static size_t length_of(uint8_t *into, unsigned transactions, int pretty) {
    static struct totals totals[DESK_TRANSACTIONS / OF_A_BATCH + 1];
    unsigned batches = (transactions + OF_A_BATCH - 1) / OF_A_BATCH;
    message(into, transactions, pretty, totals, batches);
    message(into, transactions, pretty, totals, batches);
    return (size_t)(to.at - to.start);
}

size_t make_message(uint8_t *into, size_t target, int pretty, unsigned *transactions) {
    size_t first = length_of(into, 1, pretty), each = (length_of(into, OF_A_BATCH, pretty) - first) / (OF_A_BATCH - 1);
    unsigned n = target <= first ? 1 : (unsigned)((target - first + each / 2) / each) + 1;
    if (n > DESK_TRANSACTIONS) n = DESK_TRANSACTIONS;
    size_t length = length_of(into, n, pretty);
    while (length > DESK_BYTES) {
        n -= (unsigned)((length - DESK_BYTES) / each) + 1;
        length = length_of(into, n, pretty);
    }
    *transactions = n;
    return length;
}

/* ---- Lists */

static void put_byte(unsigned byte) {
    static const char DIGITS[] = "0123456789ABCDEF";
    *to.at++ = (uint8_t)DIGITS[byte / 16];
    *to.at++ = (uint8_t)DIGITS[byte % 16];
}

static void put_text(const char *text) {
    unsigned n = 0;
    while (text[n] != 0) n++;
    put_byte(n);
    for (; *text != 0; text++) put_byte((uint8_t)*text);
}

size_t make_list(uint8_t *into, unsigned collections) {
    state = 1;
    to.start = to.at = into;
    put_byte(1);
    put_text(letters(8, 20)), put_text("2026-11-02T09:30:00"), put_text(letters(8, 40)), put_text(letters(8, 40));
    put_text(iban()), put_text("BANKGB2L"), put_text("BE69000050D000000008");
    put("\n");
    for (unsigned i = 0; i < collections; i++) {
        uint64_t cents = 1 + below(1000000);
        put_byte(2), put_byte(i / 4 % 2), put_byte(i % 4);
        for (unsigned shift = 40; shift > 0;) shift -= 8, put_byte((unsigned)(cents >> shift) % 256);
        put_text("2026-11-10"), put_text(letters(5, 20)), put_text(letters(5, 25)), put_text(date(2000, 26));
        put_text(i % 8 == 0 ? "" : "BANKGB2L"), put_text(letters(8, 40)), put_text(iban()), put_text(letters(40, 140));
        put("\n");
    }
    return (size_t)(to.at - to.start);
}
