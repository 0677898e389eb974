/* The words: what each number means and what to mend, the rules of texts, and which element has which rule. */
#include <string.h>
#include "host.h"

#define FIND_LOST(what, figure) "Find the " what ". Correct the " figure " only where it was declared wrong."

static const struct words WORDS[] = {
    {1, "The message is longer than 1,048,576 bytes.", "Split the run into several messages."},
    {2, "The message is not of the profile's form.",
     "Correct what stands at the place, or add what is missing there. docs/FORMATS.md has the whole tree."},
    {3, "The message has more than 64 batches.", "Split the run into several messages."},
    {4, "The message has more than 2,000 transactions.", "Split the run into several messages."},
    {51, "A plain text (identifier, name, remittance, part of an address but the country) is empty or too long.",
     "Fill it in, or shorten it."},
    {52, "A text has a letter that is not in the letter set.",
     "Write it with letters of the set, which has none with an accent, no & and no _."},
    {53, "An identifier begins or ends with a slash, or has two in a row.", "Take that slash out."},
    {54, "A number has not the shape of its rule, or is out of its range.",
     "Write the right number, in the shape and the range of its rule."},
    {55, "A date or a time is no real one of the years 1900 to 2099, or is not written as its rule says.",
     "Write a real day of the years 1900 to 2099 as 2026-11-10, a time as 2026-11-10T09:30:00."},
    {56, "A code is none of those that may stand there.", "Write one of those that its rule names."},
    {57, "An IBAN, a BIC, a creditor identifier or a country is not as its rule says, or a BIC is NOTPROVIDED.",
     "Write it as its rule says, without spaces. Take it from the document it was copied from; do not guess "
     "it. A BIC that is not known is left out."},
    {58, "The check digits of an IBAN or a creditor identifier do not fit.",
     "Compare it with the document it was copied from, character by character. Never change the check digits "
     "to make them fit."},
    {BAD_ADDRESS,
     "An address is neither structured nor hybrid, nor unstructured with a collection date before 2026-11-15.",
     "Take PstlAdr out, or add TwnNm and Ctry at least."},
    {6, "The count that a batch declares differs from the number of its transactions.",
     FIND_LOST("transactions that were lost or are too many", "count")},
    {7, "The sum that a batch declares differs from the exact sum of its amounts.",
     FIND_LOST("amounts that were lost, changed or are too many", "sum")},
    {8, "The count that the header declares differs from the number of all transactions.",
     FIND_LOST("transactions that were lost or are too many", "count")},
    {9, "The sum that the header declares differs from the exact sum of all amounts.",
     FIND_LOST("amounts that were lost, changed or are too many", "sum")},
    {10, "The slip table is too short.", "Lend a table of as many numbers as the place says."},
    {11, "The batch table is too short.", "Lend a table of as many numbers as the place says."},
    {21, "The list is longer than 1,048,576 bytes.", "Split the list."},
    {22, "The ceiling is not 1 to 500.", "Give a ceiling of 1 to 500 collections a batch."},
    {23, "A line is not a frame of its kind, or lacks its LF.",
     "Correct that line. docs/FORMATS.md takes a line apart, byte by byte."},
    {24, "The list has no creditor line, or no collection.",
     "Complete the list: the creditor on line 1, a collection on each further line."},
    {25, "The list has more than 1,000 collections.", "Split the list."},
    {27,
     "More than 64 batches are needed: no message carries these collections with no batch above the ceiling.",
     "Raise the ceiling, or split the list."},
    {28, "The output is too short.", "Lend an output of as many bytes as the place says."},
};

const struct words *words_of(uint64_t number) {
    static const struct words unknown = {0, "This number is not known to the command.",
                                         "Use a command and a library of the same version."};
    for (size_t i = 0; i < sizeof WORDS / sizeof *WORDS; i++)
        if (WORDS[i].number == number) return &WORDS[i];
    return &unknown;
}

int is_flaw(uint64_t number) { return number >= BAD_LENGTH && number <= BAD_CHECK_DIGITS; }

#define OF_LETTERS "of a-z A-Z 0-9 / - ? : ( ) . , ' + and space"

const char *const RULE[RULES] = {
    [HOLDER] = "holds elements, no text",
    [IDENTIFIER] = "1 to 35 characters " OF_LETTERS "; no / at either end, no // inside",
    [NAME] = "1 to 70 characters " OF_LETTERS,
    [REMITTANCE] = "1 to 140 characters " OF_LETTERS,
    [LETTERS_16] = "1 to 16 characters " OF_LETTERS,
    [LETTERS_35] = "1 to 35 characters " OF_LETTERS,
    [COUNTRY] = "two capital letters, as CH",
    [COUNT] = "1 to 15 digits",
    [SUM] = "1 to 15 digits, then optionally a point and 1 or 2 digits",
    [AMOUNT] = "1 to 9 digits, then optionally a point and 1 or 2 digits; 0.01 to 999999999.99",
    [DATE] = "a real day as YYYY-MM-DD, years 1900 to 2099",
    [TIME] = "a real day, T and a time as YYYY-MM-DDThh:mm:ss, years 1900 to 2099",
    [IBAN] = "two capitals, two digits, 1 to 30 letters or digits, the check digits being right",
    [BIC] = "four capitals or digits, two capitals, two capitals or digits, optionally three more; not "
            "NOTPROVIDED",
    [CREDITOR] = "two capitals, two digits, three capitals or digits, then 1 to 28 capitals or digits, "
                 "the check digits being right",
    [METHOD] = "DD",
    [BOOKING] = "true or false",
    [SEPA] = "SEPA",
    [SCHEME] = "CORE or B2B",
    [SEQUENCE] = "FRST, RCUR, OOFF or FNAL",
    [CHARGES] = "SLEV",
    [NOBANK] = "NOTPROVIDED",
    [SCHEME_BYTE] = "0 (CORE) or 1 (B2B)",
    [SEQUENCE_BYTE] = "0 (FRST), 1 (RCUR), 2 (OOFF) or 3 (FNAL)",
    [CENTS] = "1 to 99999999999 cents",
};

const char *const SCHEMES[] = {"CORE", "B2B", 0};
const char *const SEQUENCES[] = {"FRST", "RCUR", "OOFF", "FNAL", 0};

/* BtchBookg stands before the count and the sum of a batch; the header, which has those first, has no
   BtchBookg. */
const struct element ELEMENTS[] = {
    {"Document", 0, HOLDER},
    {"CstmrDrctDbtInitn", 0, HOLDER},
    {"GrpHdr", 0, HOLDER},
    {"MsgId", 0, IDENTIFIER},
    {"CreDtTm", 0, TIME},
    {"BtchBookg", 0, BOOKING},
    {"NbOfTxs", 0, COUNT},
    {"CtrlSum", 0, SUM},
    {"InitgPty", 0, HOLDER},
    {"Nm", 0, NAME},
    {"PmtInf", 0, HOLDER},
    {"PmtInfId", 0, IDENTIFIER},
    {"PmtMtd", 0, METHOD},
    {"PmtTpInf", 0, HOLDER},
    {"SvcLvl", 0, HOLDER},
    {"LclInstrm", 0, HOLDER},
    {"Cd", "SvcLvl", SEPA},
    {"Cd", "LclInstrm", SCHEME},
    {"SeqTp", 0, SEQUENCE},
    {"ReqdColltnDt", 0, DATE},
    {"Cdtr", 0, HOLDER},
    {"PstlAdr", 0, HOLDER},
    {"StrtNm", 0, NAME},
    {"BldgNb", 0, LETTERS_16},
    {"PstCd", 0, LETTERS_16},
    {"TwnNm", 0, LETTERS_35},
    {"Ctry", 0, COUNTRY},
    {"AdrLine", 0, NAME},
    {"CdtrAcct", 0, HOLDER},
    {"IBAN", 0, IBAN},
    {"CdtrAgt", 0, HOLDER},
    {"FinInstnId", 0, HOLDER},
    {"BICFI", 0, BIC},
    {"Othr", 0, HOLDER},
    {"ChrgBr", 0, CHARGES},
    {"CdtrSchmeId", 0, HOLDER},
    {"PrvtId", 0, HOLDER},
    {"Id", "PrvtId", CREDITOR},
    {"Id", "FinInstnId", NOBANK},
    {"Id", 0, HOLDER},
    {"SchmeNm", 0, HOLDER},
    {"Prtry", 0, SEPA},
    {"DrctDbtTxInf", 0, HOLDER},
    {"PmtId", 0, HOLDER},
    {"InstrId", 0, IDENTIFIER},
    {"EndToEndId", 0, IDENTIFIER},
    {"InstdAmt", 0, AMOUNT},
    {"DrctDbtTx", 0, HOLDER},
    {"MndtRltdInf", 0, HOLDER},
    {"MndtId", 0, IDENTIFIER},
    {"DtOfSgntr", 0, DATE},
    {"DbtrAgt", 0, HOLDER},
    {"Dbtr", 0, HOLDER},
    {"DbtrAcct", 0, HOLDER},
    {"RmtInf", 0, HOLDER},
    {"Ustrd", 0, REMITTANCE},
};
const size_t ELEMENTS_COUNT = sizeof ELEMENTS / sizeof *ELEMENTS;
