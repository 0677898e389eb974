/* Reading a message by hand: what is kept of it, its tags, and what its texts share. bench/plain_check.c and
   bench/plain_address.h read with this. */
#ifndef PLAIN_READING_H
#define PLAIN_READING_H

#include "plain_rules.h"

/* ---- What is kept */

struct text { unsigned start, length; };

enum { END_TO_END_ID, MANDATE_ID, DEBTOR, IBAN, REMITTANCE, TEXTS };

struct slip { uint64_t batch, cents; struct text text[TEXTS]; };

/* A declared count or sum: where its text starts, null where there is none, and its value. */
struct declared { const uint8_t *at; uint64_t value; };

struct batch { uint64_t before, count, cents, terms; struct declared declared_count, declared_sum; };

struct reading {
    const uint8_t *start, *end;
    const uint8_t *fault;       /* the first byte that cannot stand in the form */
    const uint8_t *batch_65, *transaction_2001, *bad_text, *bad_mix; /* null as long as there is none */
    const uint8_t *differs;     /* the first total of a batch that differs, null as long as there is none */
    uint64_t differs_by;        /* its number */
    const uint8_t *collected;   /* the text of the batch's collection date */
    struct declared count, sum; /* the header's */
    uint64_t batches, transactions, cents;
    struct batch *batch;        /* of DESK_BATCHES + 1 */
    struct slip *slip;          /* of DESK_TRANSACTIONS + 1 */
};

/* ---- The form
   A function for an element takes the byte after its opening tag and gives the one after its closing tag; a
   function for a text takes its start and gives its end. Either gives null at a fault of the form. */

static inline int stands(const uint8_t *p, const uint8_t *end, const char *s, size_t n) {
    return (size_t)(end - p) >= n && memcmp(p, s, n) == 0;
}

/* None of the tags stands here: the fault is after the longest beginning that is shared with one of them. */
__attribute__((cold, noinline))
static const uint8_t *fault(struct reading *r, const uint8_t *p, const char *const *tags) {
    r->fault = p;
    for (const char *tag; (tag = *tags) != NULL; tags++) {
        const uint8_t *q = p;
        while (q < r->end && *tag != 0 && *q == (uint8_t)*tag) q++, tag++;
        if (q > r->fault) r->fault = q;
    }
    return NULL;
}

#define STANDS(tag) stands(p, r->end, tag, sizeof tag - 1)
#define FAULT(...) fault(r, p, (const char *const[]){__VA_ARGS__, NULL})
#define SPACES() (p = run(p, r->end, SPACE))
#define PASS(tag)                            \
    do {                                     \
        if (!STANDS(tag)) return FAULT(tag); \
        p += sizeof tag - 1;                 \
    } while (0)
#define TAG(tag)   \
    do {           \
        SPACES();  \
        PASS(tag); \
    } while (0)
#define OPTIONAL(tag) (SPACES(), STANDS(tag))
#define READ(part)                            \
    do {                                      \
        if ((p = (part)) == NULL) return NULL; \
    } while (0)
/* An element that has text. */
#define ELEMENT(name, text)  \
    do {                     \
        TAG("<" name ">");   \
        READ(text);          \
        PASS("</" name ">"); \
    } while (0)

/* ---- Texts */

static inline const uint8_t *text_end(struct reading *r, const uint8_t *p) {
    while (p < r->end && *p != '<') p++;
    return p < r->end ? p : FAULT("");
}

/* A text that breaks its rule. */
__attribute__((cold, noinline)) static const uint8_t *bad_text(struct reading *r, const uint8_t *p) {
    if (r->bad_text == NULL) r->bad_text = p;
    return text_end(r, p);
}

static inline const uint8_t *letters(struct reading *r, const uint8_t *p, size_t most) {
    const uint8_t *q = run(p, r->end, LETTER);
    size_t n = (size_t)(q - p);
    return q < r->end && *q == '<' && n >= 1 && n <= most ? q : bad_text(r, p);
}

/* A text that is good where the test of its `n` bytes from `p` on says so. */
#define BY_RULE(name, ...)                                                        \
    static inline const uint8_t *name(struct reading *r, const uint8_t *p) {      \
        const uint8_t *q = text_end(r, p);                                        \
        if (q == NULL) return NULL;                                               \
        size_t n = (size_t)(q - p);                                               \
        return (__VA_ARGS__) ? q : bad_text(r, p);                                \
    }

#endif
