/* The library in C: the slips of a message that is accepted, one line each. */
#include <inttypes.h>
#include <stdio.h>
#include "desk.h"

static uint8_t message[DESK_BYTES + 1];
static uint64_t slips[DESK_SLIPS], rows[DESK_ROWS];

int main(void) {
    size_t length = fread(message, 1, sizeof message, stdin);
    struct desk_checked answer = desk_check(message, length, slips, DESK_SLIPS, rows, DESK_ROWS);
    if (answer.number != 0) return fprintf(stderr, "refused: %" PRIu64 " at %" PRIu64 "\n", answer.number, answer.place), 1;
    for (uint64_t *slip = slips; slip < slips + DESK_SLIP * answer.transactions; slip += DESK_SLIP)
        printf("batch %" PRIu64 ", %" PRIu64 " cents, %.*s\n", slip[0], slip[1], (int)slip[3], (const char *)message + slip[2]);
    return 0;
}
