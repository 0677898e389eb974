/* The job of desk_check by hand, in plain C: what the library is timed against. include/desk.h says what it
   does.

   One pass reads the form by descent, an element a function, tries each text's rule as it comes by and keeps
   what the rows need; the tables are filled from that when nothing is left to refuse. How tags and texts are
   read stands in plain_reading.h, addresses in plain_address.h, the rules of the texts in plain_rules.h.

   BESIDE: it is called plain_check, to stand in one program with the library. */
#ifdef BESIDE
#define desk_check plain_check
#endif
#include "desk.h"
#include "plain_address.h"
#include "plain_reading.h"
#include "plain_rules.h"

/* ---- Texts */

static inline const uint8_t *id(struct reading *r, const uint8_t *p) {
    const uint8_t *q = letters(r, p, MOST_ID);
    return q == NULL || q == p || good_slashes(p, (size_t)(q - p)) ? q : bad_text(r, p);
}

static inline const uint8_t *name(struct reading *r, const uint8_t *p) { return letters(r, p, MOST_NAME); }

#define CODE(code) (STANDS(code "<") ? p + sizeof code - 1 : bad_text(r, p))

BY_RULE(date, good_date(p, n))
BY_RULE(time, good_time(p, n))
BY_RULE(iban, good_iban(p, n))
BY_RULE(bic, good_bic(p, n))
BY_RULE(creditor_id, good_creditor_id(p, n))
BY_RULE(booking, (n == 4 && memcmp(p, "true", 4) == 0) || (n == 5 && memcmp(p, "false", 5) == 0))

static inline const uint8_t *collection_date(struct reading *r, const uint8_t *p) {
    r->collected = p;
    return date(r, p);
}

static inline const uint8_t *count(struct reading *r, const uint8_t *p, struct declared *declared) {
    const uint8_t *q = text_end(r, p);
    if (q == NULL) return NULL;
    declared->at = p;
    return good_count(p, (size_t)(q - p), &declared->value) ? q : bad_text(r, p);
}

static inline const uint8_t *sum(struct reading *r, const uint8_t *p, struct declared *declared) {
    const uint8_t *q = text_end(r, p);
    if (q == NULL) return NULL;
    declared->at = p;
    return good_sum(p, (size_t)(q - p), 15, &declared->value) ? q : bad_text(r, p);
}

static inline const uint8_t *amount(struct reading *r, const uint8_t *p, uint64_t *cents) {
    const uint8_t *q = text_end(r, p);
    if (q == NULL) return NULL;
    return good_amount(p, (size_t)(q - p), cents) ? q : bad_text(r, p);
}

static const uint8_t *scheme(struct reading *r, const uint8_t *p, uint64_t *terms) {
    if (STANDS("CORE<")) return p + 4;
    if (!STANDS("B2B<")) return bad_text(r, p);
    *terms += 4;
    return p + 3;
}

static const uint8_t *sequence(struct reading *r, const uint8_t *p, uint64_t *terms) {
    if (STANDS("FRST<")) return p + 4;
    if (STANDS("RCUR<")) *terms += 1;
    else if (STANDS("OOFF<")) *terms += 2;
    else if (STANDS("FNAL<")) *terms += 3;
    else return bad_text(r, p);
    return p + 4;
}

/* A text for the slip, from `p` to `q`, which is null at a fault. */
static inline const uint8_t *kept(struct reading *r, struct text *text, const uint8_t *p, const uint8_t *q) {
    if (q == NULL) return NULL;
    text->start = (unsigned)(p - r->start);
    text->length = (unsigned)(q - p);
    return q;
}

/* ---- Elements */

static const uint8_t *header(struct reading *r, const uint8_t *p) {
    ELEMENT("MsgId", id(r, p));
    ELEMENT("CreDtTm", time(r, p));
    ELEMENT("NbOfTxs", count(r, p, &r->count));
    ELEMENT("CtrlSum", sum(r, p, &r->sum));
    TAG("<InitgPty>");
    ELEMENT("Nm", name(r, p));
    TAG("</InitgPty>");
    TAG("</GrpHdr>");
    return p;
}

/* What CdtrAgt and DbtrAgt hold. */
static const uint8_t *bank(struct reading *r, const uint8_t *p) {
    TAG("<FinInstnId>");
    if (OPTIONAL("<BICFI>")) {
        ELEMENT("BICFI", bic(r, p));
    } else {
        if (!STANDS("<Othr>")) return FAULT("<BICFI>", "<Othr>");
        PASS("<Othr>");
        ELEMENT("Id", CODE("NOTPROVIDED"));
        TAG("</Othr>");
    }
    TAG("</FinInstnId>");
    return p;
}

static const uint8_t *transaction(struct reading *r, const uint8_t *p, struct slip *slip) {
    TAG("<PmtId>");
    if (OPTIONAL("<InstrId>")) {
        ELEMENT("InstrId", id(r, p));
        SPACES();
    } else if (!STANDS("<EndToEndId>")) {
        return FAULT("<InstrId>", "<EndToEndId>");
    }
    ELEMENT("EndToEndId", kept(r, &slip->text[END_TO_END_ID], p, id(r, p)));
    TAG("</PmtId>");
    TAG("<InstdAmt Ccy=\"EUR\">");
    READ(amount(r, p, &slip->cents));
    PASS("</InstdAmt>");
    TAG("<DrctDbtTx>");
    TAG("<MndtRltdInf>");
    ELEMENT("MndtId", kept(r, &slip->text[MANDATE_ID], p, id(r, p)));
    ELEMENT("DtOfSgntr", date(r, p));
    TAG("</MndtRltdInf>");
    TAG("</DrctDbtTx>");
    TAG("<DbtrAgt>");
    READ(bank(r, p));
    TAG("</DbtrAgt>");
    TAG("<Dbtr>");
    ELEMENT("Nm", kept(r, &slip->text[DEBTOR], p, name(r, p)));
    ADDRESS_BEFORE("</Dbtr>");
    PASS("</Dbtr>");
    TAG("<DbtrAcct>");
    TAG("<Id>");
    ELEMENT("IBAN", kept(r, &slip->text[IBAN], p, iban(r, p)));
    TAG("</Id>");
    TAG("</DbtrAcct>");
    if (OPTIONAL("<RmtInf>")) {
        PASS("<RmtInf>");
        ELEMENT("Ustrd", kept(r, &slip->text[REMITTANCE], p, letters(r, p, MOST_REMITTANCE)));
        TAG("</RmtInf>");
        SPACES();
    } else {
        slip->text[REMITTANCE] = (struct text){0, 0};
        if (!STANDS("</DrctDbtTxInf>")) return FAULT("<RmtInf>", "</DrctDbtTxInf>");
    }
    PASS("</DrctDbtTxInf>");
    return p;
}

/* The transactions of a batch, and its closing tag. */
static const uint8_t *transactions(struct reading *r, const uint8_t *p, struct batch *batch) {
    TAG("<DrctDbtTxInf>");
    for (;;) {
        uint64_t n = r->transactions++;
        if (n == DESK_TRANSACTIONS) r->transaction_2001 = p - (sizeof "<DrctDbtTxInf>" - 1);
        struct slip *slip = &r->slip[n < DESK_TRANSACTIONS ? n : DESK_TRANSACTIONS];
        slip->batch = r->batches;
        slip->cents = 0;
        READ(transaction(r, p, slip));
        batch->cents += slip->cents;
        if (!OPTIONAL("<DrctDbtTxInf>")) break;
        PASS("<DrctDbtTxInf>");
    }
    if (!STANDS("</PmtInf>")) return FAULT("<DrctDbtTxInf>", "</PmtInf>");
    PASS("</PmtInf>");
    return p;
}

static const uint8_t *batch(struct reading *r, const uint8_t *p, struct batch *batch) {
    ELEMENT("PmtInfId", id(r, p));
    ELEMENT("PmtMtd", CODE("DD"));
    int may_book = 1, may_count = 1, may_sum = 1;
    if (OPTIONAL("<BtchBookg>")) {
        ELEMENT("BtchBookg", booking(r, p));
        may_book = 0;
    }
    if (OPTIONAL("<NbOfTxs>")) {
        ELEMENT("NbOfTxs", count(r, p, &batch->declared_count));
        may_book = may_count = 0;
    }
    if (OPTIONAL("<CtrlSum>")) {
        ELEMENT("CtrlSum", sum(r, p, &batch->declared_sum));
        may_book = may_count = may_sum = 0;
    }
    if (!OPTIONAL("<PmtTpInf>"))
        return FAULT("<PmtTpInf>", may_book ? "<BtchBookg>" : "", may_count ? "<NbOfTxs>" : "", may_sum ? "<CtrlSum>" : "");
    PASS("<PmtTpInf>");
    TAG("<SvcLvl>");
    ELEMENT("Cd", CODE("SEPA"));
    TAG("</SvcLvl>");
    TAG("<LclInstrm>");
    ELEMENT("Cd", scheme(r, p, &batch->terms));
    TAG("</LclInstrm>");
    ELEMENT("SeqTp", sequence(r, p, &batch->terms));
    TAG("</PmtTpInf>");
    ELEMENT("ReqdColltnDt", collection_date(r, p));
    TAG("<Cdtr>");
    ELEMENT("Nm", name(r, p));
    ADDRESS_BEFORE("</Cdtr>");
    PASS("</Cdtr>");
    TAG("<CdtrAcct>");
    TAG("<Id>");
    ELEMENT("IBAN", iban(r, p));
    TAG("</Id>");
    TAG("</CdtrAcct>");
    TAG("<CdtrAgt>");
    READ(bank(r, p));
    TAG("</CdtrAgt>");
    ELEMENT("ChrgBr", CODE("SLEV"));
    TAG("<CdtrSchmeId>");
    TAG("<Id>");
    TAG("<PrvtId>");
    TAG("<Othr>");
    ELEMENT("Id", creditor_id(r, p));
    TAG("<SchmeNm>");
    ELEMENT("Prtry", CODE("SEPA"));
    TAG("</SchmeNm>");
    TAG("</Othr>");
    TAG("</PrvtId>");
    TAG("</Id>");
    TAG("</CdtrSchmeId>");
    READ(transactions(r, p, batch));
    return p;
}

static void compare_batch(struct reading *r, const struct batch *batch) {
    if (r->differs != NULL) return;
    if (batch->declared_count.at != NULL && batch->declared_count.value != batch->count) {
        r->differs = batch->declared_count.at;
        r->differs_by = 6;
    } else if (batch->declared_sum.at != NULL && batch->declared_sum.value != batch->cents) {
        r->differs = batch->declared_sum.at;
        r->differs_by = 7;
    }
}

static const uint8_t *message(struct reading *r, const uint8_t *p) {
    static const char DECLARATION[] = "<?xml version=\"1.0\" encoding=\"UTF-8\"?>";
    static const char DOCUMENT[] = "<Document xmlns=\"urn:iso:std:iso:20022:tech:xsd:pain.008.001.08\">";
    if (STANDS(DECLARATION)) p += sizeof DECLARATION - 1;
    SPACES();
    if (!STANDS(DOCUMENT)) return p == r->start ? FAULT(DECLARATION, DOCUMENT) : FAULT(DOCUMENT);
    p += sizeof DOCUMENT - 1;
    TAG("<CstmrDrctDbtInitn>");
    TAG("<GrpHdr>");
    READ(header(r, p));
    TAG("<PmtInf>");
    for (;;) {
        uint64_t n = r->batches++;
        if (n == DESK_BATCHES) r->batch_65 = p - (sizeof "<PmtInf>" - 1);
        struct batch *now = &r->batch[n < DESK_BATCHES ? n : DESK_BATCHES];
        *now = (struct batch){.before = r->transactions};
        READ(batch(r, p, now));
        now->count = r->transactions - now->before;
        r->cents += now->cents;
        compare_batch(r, now);
        if (!OPTIONAL("<PmtInf>")) break;
        PASS("<PmtInf>");
    }
    if (!STANDS("</CstmrDrctDbtInitn>")) return FAULT("<PmtInf>", "</CstmrDrctDbtInitn>");
    PASS("</CstmrDrctDbtInitn>");
    TAG("</Document>");
    SPACES();
    return p == r->end ? p : FAULT("");
}

/* ---- Answers */

static struct desk_checked refused(uint64_t number, uint64_t place) { return (struct desk_checked){number, place, 0, 0, 0}; }

/* What the text at a place of a message of the form is, by the tag before it; of an Id by the tag after it. */
__attribute__((cold, noinline)) static enum kind kind_of(const uint8_t *p, const uint8_t *end) {
    static const struct { const char *tag; enum kind kind; } KINDS[] = {
        {"<MsgId>", ID_KIND},       {"<PmtInfId>", ID_KIND},    {"<InstrId>", ID_KIND},       {"<EndToEndId>", ID_KIND},
        {"<MndtId>", ID_KIND},      {"<Nm>", NAME_KIND},        {"<Ustrd>", REMITTANCE_KIND}, {"<NbOfTxs>", NUMBER_KIND},
        {"<CtrlSum>", NUMBER_KIND}, {"EUR\">", NUMBER_KIND},    {"<CreDtTm>", DATE_KIND},     {"<ReqdColltnDt>", DATE_KIND},
        {"<DtOfSgntr>", DATE_KIND}, {"<IBAN>", IBAN_KIND},      {"<BICFI>", SHAPE_KIND},
        {"<StrtNm>", ADDRESS_LINE_KIND}, {"<AdrLine>", ADDRESS_LINE_KIND}, {"<TwnNm>", TOWN_KIND},
        {"<BldgNb>", ADDRESS_CODE_KIND}, {"<PstCd>", ADDRESS_CODE_KIND},   {"<Ctry>", SHAPE_KIND},
    };
    for (size_t i = 0; i < sizeof KINDS / sizeof *KINDS; i++) {
        size_t n = strlen(KINDS[i].tag);
        if (memcmp(p - n, KINDS[i].tag, n) == 0) return KINDS[i].kind;
    }
    if (memcmp(p - 4, "<Id>", 4) != 0) return CODE_KIND;
    for (end += sizeof "</Id>" - 1; *end != '<'; end++) {}
    return end[1] == '/' ? CODE_KIND : CREDITOR_ID_KIND;
}

/* The number of a bad text of such a message. */
__attribute__((cold, noinline)) static uint64_t bad_text_number(const uint8_t *p) {
    const uint8_t *end = p;
    while (*end != '<') end++;
    return refusal(kind_of(p, end), p, (size_t)(end - p));
}

static void fill_slip(uint64_t *into, const struct slip *slip) {
    into[0] = slip->batch;
    into[1] = slip->cents;
    for (int i = 0; i < TEXTS; i++) {
        into[2 + 2 * i] = slip->text[i].start;
        into[3 + 2 * i] = slip->text[i].length;
    }
}

static void fill_row(uint64_t *into, const struct batch *batch) {
    into[0] = batch->before;
    into[1] = batch->count;
    into[2] = batch->cents;
    into[3] = batch->declared_count.at != NULL;
    into[4] = batch->declared_count.value;
    into[5] = batch->declared_sum.at != NULL;
    into[6] = batch->declared_sum.value;
    into[7] = batch->terms;
}

struct desk_checked desk_check(const uint8_t *bytes, size_t length, uint64_t *slips, size_t slips_len, uint64_t *rows, size_t rows_len) {
    struct batch batches[DESK_BATCHES + 1];
    struct slip kept_slips[DESK_TRANSACTIONS + 1];
    struct reading r = {.start = bytes, .end = bytes + length, .batch = batches, .slip = kept_slips};
#define PLACE(p) ((uint64_t)((p) - bytes))
    if (length > DESK_BYTES) return refused(1, DESK_BYTES);
    if (message(&r, bytes) == NULL) return refused(2, PLACE(r.fault));
    if (r.batch_65 != NULL) return refused(3, PLACE(r.batch_65));
    if (r.transaction_2001 != NULL) return refused(4, PLACE(r.transaction_2001));
    if (r.bad_text != NULL) return refused(bad_text_number(r.bad_text), PLACE(r.bad_text));
    if (r.bad_mix != NULL) return refused(59, PLACE(r.bad_mix));
    if (r.differs != NULL) return refused(r.differs_by, PLACE(r.differs));
    if (r.count.value != r.transactions) return refused(8, PLACE(r.count.at));
    if (r.sum.value != r.cents) return refused(9, PLACE(r.sum.at));
    if (slips_len < DESK_SLIP * r.transactions) return refused(10, DESK_SLIP * r.transactions);
    if (rows_len < DESK_ROW * r.batches) return refused(11, DESK_ROW * r.batches);
    for (uint64_t i = 0; i < r.transactions; i++) fill_slip(slips + DESK_SLIP * i, &kept_slips[i]);
    for (uint64_t i = 0; i < r.batches; i++) fill_row(rows + DESK_ROW * i, &batches[i]);
    return (struct desk_checked){0, 0, r.batches, r.transactions, r.cents};
}
