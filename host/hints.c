/* Hints for what really happens: files of another kind or of another encoding, and messages of another kind.
   They explain a refusal; none of them makes one. */
#include <string.h>
#include "host.h"

static int begins(struct text text, const char *with, size_t length) {
    return text.length >= length && memcmp(text.bytes, with, length) == 0;
}

/* The first line is hexadecimal digits of either case, two at least. */
static int is_list(struct text text) {
    size_t n = 0;
    while (n < text.length && text.bytes[n] && strchr("0123456789ABCDEFabcdef", text.bytes[n])) n++;
    return n > 1 && (n == text.length || text.bytes[n] == '\n' || text.bytes[n] == '\r');
}

/* The first line has two separators of a CSV at least, and no tag before them. */
static int is_csv(struct text text) {
    size_t separators = 0;
    for (size_t i = 0; i < text.length && text.bytes[i] != '\n' && text.bytes[i] != '<'; i++)
        separators += text.bytes[i] == ',' || text.bytes[i] == ';';
    return separators > 1;
}

static int is_message(struct text text) {
    size_t n = 0;
    while (n < text.length && (text.bytes[n] == ' ' || (text.bytes[n] >= '\t' && text.bytes[n] <= '\r'))) n++;
    return n < text.length && text.bytes[n] == '<';
}

/* ─── namespaces ─── */

/* The namespace in the opening tag of Document, without its urn; whether the place lies in that tag before
   the end of it. */
static int find_namespace(struct text message, size_t place, struct text *name) {
    static const char tag[] = "<Document xmlns=\"", urn[] = "urn:iso:std:iso:20022:tech:xsd:";
    size_t at = 0;
    while (at < place && !begins((struct text){message.bytes + at, message.length - at}, tag, strlen(tag)))
        at++;
    if (at == place) return 0;
    *name = (struct text){message.bytes + at + strlen(tag), message.length - at - strlen(tag)};
    const uint8_t *end = memchr(name->bytes, '"', name->length);
    if (!end || message.bytes + place > end) return 0;
    name->length = (size_t)(end - name->bytes);
    if (begins(*name, urn, strlen(urn))) {
        name->bytes += strlen(urn);
        name->length -= strlen(urn);
    }
    return 1;
}

/* Messages that a bureau meets, by the beginning of their names. */
static const struct {
    const char *name, *is;
} KINDS[] = {
    {"pain.008.", ", a direct-debit message of another version"},
    {"pain.001.", ", a credit transfer"},
    {"pain.002.", ", a status report of the bank"},
    {"pain.007.", ", a reversal"},
    {"camt.05", ", a statement or report of an account"},
    {"pacs.", ", a message between banks"},
    {"", ""},
};

void explain_namespace(FILE *to, struct text message, size_t place) {
    struct text name;
    size_t i = 0;
    if (!find_namespace(message, place, &name)) return;
    while (!begins(name, KINDS[i].name, strlen(KINDS[i].name))) i++;
    fputs("The namespace is that of ", to);
    print_text(to, name);
    fprintf(to, "%s; the desk reads pain.008.001.08.\n", KINDS[i].is);
}

/* ─── what it is, and what to mend ─── */

static const struct hint MARKED = {"The file begins with a byte order mark (bytes EF BB BF).",
                                   "Save it as UTF-8 without a byte order mark."};
static const struct hint UTF16 = {"The file is UTF-16.", "Save it as UTF-8 without a byte order mark."};
static const struct hint PACKED = {"The file is packed.", "Unpack it first."};
static const struct hint A_SHEET = {"This looks like a spreadsheet's own file, or a packed one.",
                                    "Save the sheet as CSV in UTF-8, and give that file."};
static const struct hint A_LIST = {"This looks like a day list.",
                                   "`desk write LIST --ceiling N` writes its message."};
static const struct hint A_MESSAGE = {"This looks like a message.", "`desk check FILE` checks it."};
static const struct hint A_CSV = {"This looks like a CSV.",
                                  "`desk list CSV -o LIST` makes a day list of it."};
static const struct hint ZEROS = {"From here on the file has zero bytes: it was not written whole.",
                                  "Fetch it again."};
static const struct hint OTHER_KIND = {
    "The message is of another kind or version.",
    "Have the file made as pain.008.001.08. A changed namespace alone does not make it one."};
static const struct hint COMMENT = {"A comment stands there; the profile has none.", "Take it out."};
static const struct hint CDATA = {"A CDATA section stands there; the profile has none.",
                                  "Write the text alone."};
static const struct hint DOCTYPE = {"A DOCTYPE stands there; the profile has none.", "Take it out."};
static const struct hint EMPTY_TAG = {"An empty-element tag stands there; the profile has none.",
                                      "Write the opening tag, the content and the closing tag; or take the "
                                      "element out, where it may be missing."};

static const struct hint *hint_of_file(struct text file) {
    if (begins(file, "\xEF\xBB\xBF", 3)) return &MARKED;
    if (begins(file, "\xFF\xFE", 2) || begins(file, "\xFE\xFF", 2) || begins(file, "<\0", 2) ||
        begins(file, "\0<", 2))
        return &UTF16;
    if (begins(file, "PK\3\4", 4) || begins(file, "\x1F\x8B", 2)) return &PACKED;
    return 0;
}

/* A tag that begins before the place, with what no tag of the profile has. */
static const struct hint *hint_of_tag(struct text from) {
    if (begins(from, "!--", 3)) return &COMMENT;
    if (begins(from, "![CDATA[", 8)) return &CDATA;
    if (begins(from, "!DOCTYPE", 8)) return &DOCTYPE;
    if (begins(from, "/>", 2)) return &EMPTY_TAG;
    return 0;
}

const struct hint *hint_of_message(struct text message, size_t place) {
    struct text name;
    const struct hint *hint = hint_of_file(message);
    if (hint) return hint;
    if (is_list(message)) return &A_LIST;
    if (place == 0 && is_csv(message)) return &A_CSV;
    if (message.bytes[place] == 0) return &ZEROS;
    if (find_namespace(message, place, &name)) return &OTHER_KIND;
    return hint_of_tag((struct text){message.bytes + place, message.length - place});
}

const struct hint *hint_of_list(struct text list) {
    const struct hint *hint = hint_of_file(list);
    if (hint) return hint;
    if (is_message(list)) return &A_MESSAGE;
    return is_csv(list) ? &A_CSV : 0;
}

/* A CSV may begin with a byte order mark. */
const struct hint *hint_of_csv(struct text csv) {
    const struct hint *hint = hint_of_file(csv);
    if (hint == &PACKED) return &A_SHEET;
    if (hint == &UTF16) return hint;
    if (is_message(csv)) return &A_MESSAGE;
    return is_list(csv) ? &A_LIST : 0;
}
