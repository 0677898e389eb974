/* The collection desk for C: the check of a SEPA direct-debit message (pain.008.001.08), and the writing of one from a day list.

   Both functions are proved: they take any bytes of any length, end, and leave answer and buffers exactly as said here.
   docs/PROMISES.md names the theorems, docs/NUMBERS.md has an example of each number.

   A pointer goes to as many elements as the length after it says; it is not null, also where that length is 0.
   The buffers of one call do not overlap. Nothing is allocated, and nothing is kept between calls; a call needs at most DESK_STACK bytes of stack. */
#ifndef DESK_H
#define DESK_H

#include <stddef.h>
#include <stdint.h>

#ifdef __cplusplus
extern "C" {
#endif

/* Of this header, of the library and of the command; CHANGELOG.md says what each version brought. */
#define DESK_VERSION "2.2.1"

/* The limits of the profile. */
#define DESK_BYTES 1048576      /* of a message, of a day list */
#define DESK_BATCHES 64         /* of a message */
#define DESK_TRANSACTIONS 2000  /* of a message */
#define DESK_COLLECTIONS 1000   /* of a day list */
#define DESK_CEILING 500        /* the highest; the lowest is 1 */
#define DESK_SLIP 12            /* numbers of a slip */
#define DESK_ROW 8              /* numbers of a batch row */
#define DESK_STACK 32768        /* bytes of stack of a call */

/* Tables of these lengths hold every accepted message. An output of DESK_BYTES bytes holds every written one. */
#define DESK_SLIPS (DESK_SLIP * DESK_TRANSACTIONS)
#define DESK_ROWS (DESK_ROW * DESK_BATCHES)

/* ─── The check ───

   number 0: accepted. place is 0; batches, transactions and cents are those of the message.
   Other numbers: refused. place is as said below; batches, transactions and cents are 0.
   Positions in a message count bytes from 0. The stages run in this order, each over the whole message; the first that finds a
   fault answers.

     1  The message is longer than 1,048,576 bytes.
        Place: 1,048,576, whatever the length. Mend: split the run into several messages.
     2  The message is not of the profile's form: a tag is misspelled, missing, out of order or not of the profile, or the file is
        cut off.
        Place: the length of the longest beginning that it shares with some message of the form: the first byte that cannot stand
        there, or the length of the message where it ends too soon. Mend: what stands there, or what is missing there.
     3  There are more than 64 batches.
        Place: the `<` of the 65th PmtInf. Mend: split the run into several messages.
     4  There are more than 2,000 transactions.
        Place: the `<` of the 2,001st DrctDbtTxInf. Mend: split the run into several messages.
    51 to 58, one stage: a text breaks its rule. The number says which of its tests it fails first. Plain texts: length, letters,
        slashes; an IBAN or a creditor identifier: shape, then check digits; every other text has one test.
        Place: the start of the first such text. Mend: that text.
    51  A plain text (identifier, name, remittance, part of an address but the country) is empty, or has more
        bytes than its rule allows.
    52  It has a byte that is none of the letter set.
    53  An identifier begins or ends with a slash, or has two in a row.
    54  It is no number of the shape and range of its rule.
    55  It is no real day of the years 1900 to 2099 written as 2026-11-10, or no such day and time.
    56  It is none of the codes that may stand there.
    57  It has not the shape of an IBAN, a BIC, a creditor identifier or a country, or is NOTPROVIDED in the
        place of a BIC.
    58  It has the shape of an IBAN or a creditor identifier, and its check digits do not fit.
    59  The parts of an address do not go together. It is good where it has TwnNm and Ctry: structured without an
        AdrLine, hybrid with one or two. Where the ReqdColltnDt of its batch is before 2026-11-15 it is also good
        where it is unstructured: AdrLine or Ctry or both, and nothing else.
        Place: the `<` of the first PstlAdr that is not good. Mend: add TwnNm and Ctry, or take PstlAdr out.
     6  The count that a batch declares differs from the number of its transactions.
        Place: the start of that NbOfTxs. Mend: find the transactions that were lost or are too many; correct the count only where
        it was declared wrong.
     7  The sum that a batch declares differs from the exact sum of its amounts.
        Place: the start of that CtrlSum. Mend: find the amounts that were lost, changed or are too many; correct the sum only
        where it was declared wrong.
     8  The count that the header declares differs from the number of all transactions.
        Place: the start of the header's NbOfTxs. Mend: as for 6.
     9  The sum that the header declares differs from the exact sum of all amounts.
        Place: the start of the header's CtrlSum. Mend: as for 7.
    10  The slip table is too short.
        Place: the numbers needed, 12 for each transaction. Mend: lend a table of that length; DESK_SLIPS always suffices.
    11  The batch table is too short.
        Place: the numbers needed, 8 for each batch. Mend: lend a table of that length; DESK_ROWS always suffices.

   6 and 7 go batch by batch: the count of a batch, its sum, the next batch. A count or sum that a batch does not declare is
   compared with nothing and reported as absent.

   A refusal changes neither table. An accepted message puts its rows at the start of each; every number beyond them stays.

   A slip, twelve numbers, one for each transaction in the order of the message:
      0       the batch, from 1
      1       the amount, in cents
      2,  3   start and length of EndToEndId
      4,  5   start and length of MndtId
      6,  7   start and length of the debtor's Nm
      8,  9   start and length of the debtor's IBAN
     10, 11   start and length of Ustrd; 0 and 0 where there is none
   A start counts bytes of the message from 0; a length is in bytes.

   A batch row, eight numbers, one for each batch in the order of the message:
      0   the number of transactions before it
      1   its number of transactions
      2   the exact sum of its amounts, in cents
      3   1 where it declares a count, 0 where it declares none
      4   that count, or 0
      5   1 where it declares a sum, 0 where it declares none
      6   that sum in cents, or 0
      7   4 × scheme + sequence: CORE 0, B2B 1; FRST 0, RCUR 1, OOFF 2, FNAL 3 */
struct desk_checked { uint64_t number, place, batches, transactions, cents; };
struct desk_checked desk_check(const uint8_t *message, size_t message_len, uint64_t *slips, size_t slips_len, uint64_t *rows, size_t rows_len);

/* ─── The writer ───

   number 0: written. place is the length of the message, which stands at the start of out; every byte beyond it stays.
   Other numbers: refused. place is as said below, and no byte of out is changed.
   field is 0 except for 51 to 58. Fields count from 1. A creditor line: 1 message id, 2 creation time, 3 initiating name,
   4 creditor name, 5 IBAN, 6 BIC, 7 creditor identifier. A collection: 1 scheme, 2 sequence, 3 cents, 4 collection date,
   5 end-to-end id, 6 mandate id, 7 signature date, 8 BIC, 9 debtor name, 10 IBAN, 11 remittance.
   Lines of a list count from 1. The stages run in this order, each over the whole list; the first that finds a fault answers.

    21  The list is longer than 1,048,576 bytes.
        Place: 0. Mend: split the list.
    22  The ceiling, the most collections of one batch, is not 1 to 500.
        Place: 0. Mend: the ceiling.
    23  A line is not a frame of its kind, a creditor on line 1 and a collection on every other, or lacks its LF.
        Place: the first such line. Mend: that line: pairs of the digits 0-9 A-F, ended by LF alone.
    24  There is no creditor line, or no collection.
        Place: the lines present, 0 or 1. Mend: complete the list.
    25  There are more than 1,000 collections.
        Place: 1,002, the line of the first that is too many. Mend: split the list.
    51 to 58, one stage: a value breaks its rule. The numbers mean what they mean in the check; a scheme above 1 and a sequence
        above 3 are 56, cents outside 1 to 99,999,999,999 are 54. A BIC and a remittance of length 0 are good: there is none.
        Place: the first such line. Field: the first such field of that line. Mend: that value.
    27  More than 64 batches are needed: no message carries these collections with no batch above the ceiling.
        Place: the batches needed. Mend: raise the ceiling, or split the list.
    28  The output is too short.
        Place: the bytes needed. Mend: lend an output of that length; DESK_BYTES always suffices.

   The written message carries exactly the collections of the list, is accepted by desk_check, and has as few batches as any
   accepted message that carries them with no batch above the ceiling. */
struct desk_written { uint64_t number, place, field; };
struct desk_written desk_write(const uint8_t *list, size_t list_len, uint64_t ceiling, uint8_t *out, size_t out_len);

#ifdef __cplusplus
}
#endif

#endif
