/* Messages and day lists for bench/bench.c: good ones, with texts of many lengths, the same on every run. */
#ifndef INPUTS_H
#define INPUTS_H

#include "desk.h"

enum { ROOM = 2 * DESK_BYTES };

/* An accepted message of nearly so many bytes with 1 to 2,000 transactions, at most 100 in a batch; pretty: each tag that holds
   elements and each element with text on a line of its own, indented. Gives its length. `into` has ROOM bytes. */
size_t make_message(uint8_t *into, size_t target, int pretty, unsigned *transactions);

/* A list of so many collections, of eight terms in turn, each with a remittance. Gives its length. `into` has ROOM bytes. */
size_t make_list(uint8_t *into, unsigned collections);

#endif
