/* Mutated inputs: COUNT files in FOLDER, numbered from 0, each made of one of the FILES, whose ending it has, by
   a few changes.
       mutate SEED COUNT FOLDER FILE.. */
#include <stdint.h>
#include <stdio.h>
#include <stdlib.h>
#include <string.h>

enum { ROOM = 1 << 16 };

struct bytes {
    size_t length;
    uint8_t at[ROOM];
};

static uint64_t state;

/* A number below n. */
static size_t below(size_t n) {
    state = state * 6364136223846793005U + 1442695040888963407U;
    return n ? (size_t)(state >> 33) % n : 0;
}

static struct bytes read_file(const char *name) {
    struct bytes bytes;
    FILE *file = fopen(name, "rb");
    if (!file) {
        perror(name);
        exit(2);
    }
    bytes.length = fread(bytes.at, 1, ROOM / 2, file);
    fclose(file);
    return bytes;
}

/* Puts bytes in at a place, in the stead of so many that stand there. */
static void put(struct bytes *to, size_t at, size_t instead, const void *bytes, size_t length) {
    if (to->length - instead + length > ROOM) return;
    memmove(to->at + at + length, to->at + at + instead, to->length - at - instead);
    memmove(to->at + at, bytes, length);
    to->length = to->length - instead + length;
}

/* What hostile and broken files have in them. */
#define PIECE(s) {s, sizeof s - 1}
static const struct {
    const char *bytes;
    size_t length;
} PIECES[] = {
    PIECE("<"), PIECE(">"), PIECE("/"), PIECE("//"), PIECE("\""), PIECE("\"\""), PIECE(","), PIECE(";"),
    PIECE("\n"), PIECE("\r\n"), PIECE("\0"), PIECE(" "), PIECE("."), PIECE("0"), PIECE("FF"), PIECE("a"),
    PIECE("\xEF\xBB\xBF"), PIECE("\xC3\xAB"), PIECE("\xE2\x82\xAC"), PIECE("\xE2\x80\xAE"), PIECE("\xC3"),
    PIECE("\xF0\x9F\x92\xB6"), PIECE("\xFF"), PIECE("&apos;"), PIECE("<!--"), PIECE("NOTPROVIDED"),
    PIECE("<PmtInf>"), PIECE("</PmtInf>"), PIECE("<DrctDbtTxInf>"), PIECE("</DrctDbtTxInf>"),
    PIECE("<PstlAdr>"), PIECE("</PstlAdr>"), PIECE("<TwnNm>"), PIECE("<Ctry>CH</Ctry>"), PIECE("2026-11-15"),
    PIECE("<InstdAmt Ccy=\"EUR\">99999999999999999999<"), PIECE("99999999999999999999"), PIECE("2026-02-30"),
    PIECE("AAAAAAAAAAAAAAAAAAAAAAAAAAAAAAAAAAAAAAAAAAAAAAAAAAAAAAAAAAAAAAAAAAAAAAAAAAAAAAAA"),
};

static void mutate(struct bytes *to, const struct bytes *other) {
    size_t at = below(to->length + 1), left = to->length - at, some = below(left < 40 ? left + 1 : 40);
    size_t piece = below(sizeof PIECES / sizeof *PIECES);
    uint8_t byte = (uint8_t)below(256);
    switch (below(7)) {
    case 0: put(to, at, left > 0, &byte, 1); return;
    case 1: put(to, at, 0, PIECES[piece].bytes, PIECES[piece].length); return;
    case 2: put(to, at, some, PIECES[piece].bytes, PIECES[piece].length); return;
    case 3: put(to, at, some, "", 0); return;
    case 4: to->length = at; return;
    case 5: put(to, at, 0, to->at + at, some); return;
    default: {
        size_t from = below(other->length + 1);
        put(to, at, some, other->at + from, below(other->length - from < 400 ? other->length - from + 1 : 400));
    }
    }
}

int main(int argc, char **argv) {
    static struct bytes one, other;
    if (argc < 5) return 2;
    state = strtoull(argv[1], 0, 10);
    for (size_t n = 0, count = strtoull(argv[2], 0, 10); n < count; n++) {
        char name[4096];
        size_t changes = 1 + below(2) * below(4);
        const char *from = argv[4 + below((size_t)argc - 4)], *ending = strrchr(from, '.');
        one = read_file(from);
        other = read_file(argv[4 + below((size_t)argc - 4)]);
        while (changes-- > 0) mutate(&one, &other);
        snprintf(name, sizeof name, "%s/%zu%s", argv[3], n, ending ? ending : "");
        FILE *file = fopen(name, "wb");
        if (!file || fwrite(one.at, 1, one.length, file) != one.length || fclose(file) != 0) {
            perror(name);
            return 2;
        }
    }
    return 0;
}
