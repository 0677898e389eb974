/* A postal address by hand: what PstlAdr holds, and whether its parts go together. bench/plain_check.c asks for
   one in each Cdtr and Dbtr. */
#ifndef PLAIN_ADDRESS_H
#define PLAIN_ADDRESS_H

#include "plain_reading.h"

/* The parts, in their order. */
enum { STREET, BUILDING_NUMBER, POST_CODE, TOWN, COUNTRY, LINE, SECOND_LINE, PARTS };

/* The first collection date at which an unstructured address is bad. */
#define UNSTRUCTURED_ENDS "2026-11-15"

/* The batch's collection date is before that. A bad one may be shorter; its closing tag makes up for that. */
static int is_early(const struct reading *r) {
    return memcmp(r->collected, UNSTRUCTURED_ENDS, sizeof UNSTRUCTURED_ENDS - 1) < 0;
}

/* Town and country, with anything else; or country or line, with nothing else, at an early date. */
static int good_mix(const struct reading *r, const int *has) {
    if (has[TOWN]) return has[COUNTRY];
    if (has[STREET] || has[BUILDING_NUMBER] || has[POST_CODE]) return 0;
    return (has[COUNTRY] || has[LINE]) && is_early(r);
}

BY_RULE(country, good_country(p, n))

/* A part of the address, if it stands here. */
#define PART(part, name, text)        \
    do {                              \
        if (OPTIONAL("<" name ">")) { \
            ELEMENT(name, text);      \
            has[part] = 1;            \
            next = part + 1;          \
        }                             \
    } while (0)

static const uint8_t *address(struct reading *r, const uint8_t *p) {
    static const char *const TAGS[PARTS + 2] = {
        "<StrtNm>", "<BldgNb>", "<PstCd>", "<TwnNm>", "<Ctry>", "<AdrLine>", "<AdrLine>", "</PstlAdr>", NULL};
    const uint8_t *start = p - (sizeof "<PstlAdr>" - 1);
    int has[PARTS] = {0}, next = 0;
    PART(STREET, "StrtNm", letters(r, p, MOST_ADDRESS_LINE));
    PART(BUILDING_NUMBER, "BldgNb", letters(r, p, MOST_ADDRESS_CODE));
    PART(POST_CODE, "PstCd", letters(r, p, MOST_ADDRESS_CODE));
    PART(TOWN, "TwnNm", letters(r, p, MOST_TOWN));
    PART(COUNTRY, "Ctry", country(r, p));
    PART(LINE, "AdrLine", letters(r, p, MOST_ADDRESS_LINE));
    PART(SECOND_LINE, "AdrLine", letters(r, p, MOST_ADDRESS_LINE));
    if (!OPTIONAL("</PstlAdr>")) return fault(r, p, TAGS + next);
    PASS("</PstlAdr>");
    if (r->bad_mix == NULL && !good_mix(r, has)) r->bad_mix = start;
    return p;
}

/* An address, if one stands here, and the spaces up to the closing tag of its holder. */
#define ADDRESS_BEFORE(closing)                                           \
    do {                                                                  \
        if (!OPTIONAL(closing)) {                                         \
            if (!STANDS("<PstlAdr>")) return FAULT("<PstlAdr>", closing); \
            PASS("<PstlAdr>");                                            \
            READ(address(r, p));                                          \
            SPACES();                                                     \
        }                                                                 \
    } while (0)

#endif
