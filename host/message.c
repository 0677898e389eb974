/* The check's answer in words: line and column of a place, the element and the text there, and what may stand
   there, which is asked of the library. */
#include <inttypes.h>
#include <string.h>
#include "host.h"

/* ─── where a place is ─── */

enum { DEPTH = 16 };

/* The elements that are open at a place, outermost first, and the start of the tag that the place lies in, or
   the place itself. */
struct spot {
    size_t depth, tag;
    struct text open[DEPTH];
};

static void find(struct text message, size_t place, struct spot *spot) {
    size_t at = 0;
    spot->depth = 0;
    spot->tag = place;
    while (at < place) {
        const uint8_t *tag = memchr(message.bytes + at, '<', place - at);
        const uint8_t *end = tag ? memchr(tag, '>', (size_t)(message.bytes + place - tag)) : 0;
        if (!tag) return;
        if (!end) {
            spot->tag = (size_t)(tag - message.bytes);
            return;
        }
        if (tag[1] == '/') {
            if (spot->depth > 0) spot->depth--;
        } else if (tag[1] != '?' && spot->depth < DEPTH) {
            size_t n = 1;
            while (tag[n] != ' ' && tag[n] != '>') n++;
            spot->open[spot->depth++] = (struct text){tag + 1, n - 1};
        }
        at = (size_t)(end - message.bytes) + 1;
    }
}

/* The n-th element from the inside has this name. */
static int named(const struct spot *spot, size_t n, const char *name) {
    if (n >= spot->depth) return 0;
    struct text open = spot->open[spot->depth - 1 - n];
    return open.length == strlen(name) && memcmp(open.bytes, name, open.length) == 0;
}

static int within(const struct spot *spot, const char *name) {
    for (size_t n = 0; n < spot->depth; n++)
        if (named(spot, n, name)) return 1;
    return 0;
}

static enum rule rule_at(const struct spot *spot) {
    for (size_t i = 0; i < ELEMENTS_COUNT; i++) {
        const struct element *e = &ELEMENTS[i];
        if (named(spot, 0, e->name) && (!e->within || named(spot, 1, e->within) || named(spot, 2, e->within)))
            return e->rule;
    }
    return HOLDER;
}

void line_and_column(struct text message, size_t place, size_t *line, size_t *column) {
    size_t start = 0;
    *line = 1;
    for (size_t i = 0; i < place; i++)
        if (message.bytes[i] == '\n') {
            ++*line;
            start = i + 1;
        }
    *column = place - start + 1;
}

static void print_place(FILE *to, struct text message, size_t place) {
    size_t line, column;
    line_and_column(message, place, &line, &column);
    fprintf(to, "Place: byte %zu, line %zu, column %zu%s.\n", place, line, column,
            place == message.length ? ", the end of the file" : "");
}

static void print_element(FILE *to, struct text message, const struct spot *spot, size_t place) {
    struct text before = {message.bytes, place};
    fputs("Element: ", to);
    if (spot->depth == 0) fputs("none is open", to);
    for (size_t i = 0; i < spot->depth; i++) {
        if (i > 0) fputc('/', to);
        fwrite(spot->open[i].bytes, 1, spot->open[i].length, to);
    }
    if (within(spot, "PmtInf")) fprintf(to, ", batch %zu", count_tags(before, "<PmtInf>"));
    if (within(spot, "DrctDbtTxInf"))
        fprintf(to, ", transaction %zu of the message", count_tags(before, "<DrctDbtTxInf>"));
    fputs(".\n", to);
}

/* ─── what may stand there ─── */

/* Whether some message of the form begins with the first `keep` bytes of this one and then the tag: the
   library is asked. */
static int may_stand(struct text message, size_t keep, const char *tag) {
    static uint8_t asked[DESK_BYTES];
    uint64_t none[1];
    size_t length = keep + strlen(tag);
    if (length > DESK_BYTES) return 0;
    memcpy(asked, message.bytes, keep);
    memcpy(asked + keep, tag, length - keep);
    struct desk_checked answer = desk_check(asked, length, none, 0, none, 0);
    return answer.number != 2 || answer.place == length;
}

/* Prints the tag where it may stand, after as many as were printed before; answers how many are printed then. */
static size_t print_if_allowed(FILE *to, struct text message, const struct spot *spot, const char *tag,
                               size_t printed) {
    if (!may_stand(message, spot->tag, tag)) return printed;
    fprintf(to, "%s%s", printed == 0 ? "There may stand: " : " or ", tag);
    return printed + 1;
}

static const char *attribute_of(const char *name) {
    if (strcmp(name, "Document") == 0) return " xmlns=\"urn:iso:std:iso:20022:tech:xsd:pain.008.001.08\"";
    return strcmp(name, "InstdAmt") == 0 ? " Ccy=\"EUR\"" : "";
}

/* In message order: the declaration, the elements, the closing tag. */
static void print_allowed(FILE *to, struct text message, const struct spot *spot) {
    char tag[80];
    if (spot->tag + sizeof tag > DESK_BYTES) return;
    size_t printed = print_if_allowed(to, message, spot, "<?xml version=\"1.0\" encoding=\"UTF-8\"?>", 0);
    for (size_t i = 0; i < ELEMENTS_COUNT; i++) {
        const char *name = ELEMENTS[i].name;
        if (i > 0 && strcmp(name, ELEMENTS[i - 1].name) == 0) continue;
        snprintf(tag, sizeof tag, "<%s%s>", name, attribute_of(name));
        printed = print_if_allowed(to, message, spot, tag, printed);
    }
    if (spot->depth > 0) {
        struct text open = spot->open[spot->depth - 1];
        snprintf(tag, sizeof tag, "</%.*s>", (int)open.length, (const char *)open.bytes);
        printed = print_if_allowed(to, message, spot, tag, printed);
    }
    fputs(printed > 0 ? ".\n" : "There may stand: nothing but white space.\n", to);
}

/* ─── the refusals ─── */

int lies_in_message(uint64_t number) {
    return (number >= 2 && number <= 9) || is_flaw(number) || number == BAD_ADDRESS;
}

static struct text without_white_end(struct text text) {
    while (text.length > 0 && text.bytes[text.length - 1] <= ' ') text.length--;
    return text;
}

static void explain_cut_off(FILE *to, struct text message) {
    struct spot spot;
    struct text last = without_white_end(message);
    if (last.length == 0) {
        fputs("The file is empty.\nTo mend: Fetch it again.\n", to);
        return;
    }
    find(message, message.length, &spot);
    fputs("The file is cut off: it ends before the message does.\n", to);
    print_place(to, message, message.length);
    print_element(to, message, &spot, message.length);
    print_marked(to, "It ends: ", last, last.length);
    explain_so_far(to, message);
    fputs("To mend: Fetch the file again, whole. "
          "Never close the tags by hand: what is missing would not be collected.\n",
          to);
}

static void explain_form(FILE *to, struct text message, const struct spot *spot, size_t place) {
    print_marked(to, "There stands: ", message, place);
    explain_namespace(to, message, place);
    print_allowed(to, message, spot);
    if (named(spot, 0, "PstlAdr")) explain_address_form(to);
}

static void explain_text(FILE *to, struct text message, const struct spot *spot, uint64_t number,
                         size_t place) {
    const uint8_t *end = memchr(message.bytes + place, '<', message.length - place);
    struct text text = {message.bytes + place,
                        end ? (size_t)(end - message.bytes) - place : message.length - place};
    enum rule rule = rule_at(spot);
    size_t at = explain_flaw(to, number, rule, text);
    fputc('\n', to);
    print_marked(to, "Text: ", text, at);
    fprintf(to, "Its rule: %s.\n", RULE[rule]);
    if (text.length == 0 && named(spot, 1, "PstlAdr"))
        fputs("It need not stand in an address: where there is nothing to fill in, take the element out.\n", to);
}

static void explain_refused(FILE *to, struct text message, uint64_t number, size_t place) {
    const struct words *words = words_of(number);
    const struct hint *hint = number == 2 ? hint_of_message(message, place) : 0;
    struct spot spot;
    fprintf(to, "%s\n", words->means);
    if (hint) fprintf(to, "%s\n", hint->is);
    if (lies_in_message(number)) {
        find(message, place, &spot);
        print_place(to, message, place);
        print_element(to, message, &spot, place);
    }
    if (number == 2) explain_form(to, message, &spot, place);
    if (number == 3) fprintf(to, "The message has %zu batches.\n", count_tags(message, "<PmtInf>"));
    if (number == 4)
        fprintf(to, "The message has %zu transactions.\n", count_tags(message, "<DrctDbtTxInf>"));
    if (is_flaw(number)) explain_text(to, message, &spot, number, place);
    if (number >= 6 && number <= 9) explain_totals(to, message, number, place);
    if (number == BAD_ADDRESS)
        explain_address(to, message, place, within(&spot, "Dbtr"));
    else
        fprintf(to, "To mend: %s\n", hint ? hint->mend : words->mend);
}

/* ─── the answers ─── */

static void explain_accepted(FILE *to, struct text message, const struct desk_checked *answer,
                             const uint64_t *rows) {
    fputs("The message is accepted: ", to);
    print_many(to, answer->batches, "batch", "batches");
    fputs(", ", to);
    print_many(to, answer->transactions, "transaction", "transactions");
    fputs(", ", to);
    print_euros(to, answer->cents);
    fputs(".\n", to);
    explain_declared(to, message, rows);
}

int is_cut_off(struct text message, const struct desk_checked *answer) {
    return answer->number == 2 && answer->place == message.length;
}

void explain_check(FILE *to, struct text message, const struct desk_checked *answer, const uint64_t *rows) {
    if (answer->number == 0)
        explain_accepted(to, message, answer, rows);
    else if (is_cut_off(message, answer))
        explain_cut_off(to, message);
    else
        explain_refused(to, message, answer->number, (size_t)answer->place);
}
