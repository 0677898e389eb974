/* How much stack a call of the library takes: each is made on a stack of its own that was filled with a known pattern, and the deepest
   byte that changed is looked for. include/desk.h promises that DESK_STACK bytes are enough.

   Prints the most of each operation. Exit status 0: at most DESK_STACK; 1: more, or a call does not answer the number that it should. */
#define _XOPEN_SOURCE 700
#include "inputs.h"
#include <stdio.h>
#include <string.h>
#include <ucontext.h>

enum { STACK = 1 << 20, PATTERN = 0xA5 };

static uint8_t stack[STACK], input[ROOM], out[DESK_BYTES];
static uint64_t slips[DESK_SLIPS], rows[DESK_ROWS];
static size_t input_length, room;
static uint64_t number;

static void check(void) { number = desk_check(input, input_length, slips, DESK_SLIPS, rows, DESK_ROWS).number; }

static void write(void) { number = desk_write(input, input_length, DESK_CEILING, out, room).number; }

/* The bytes of stack that a call takes; all of them where it does not answer this number. */
static size_t taken(void (*call)(void), uint64_t expected) {
    static ucontext_t here, there;
    memset(stack, PATTERN, STACK);
    getcontext(&there);
    there.uc_stack.ss_sp = stack;
    there.uc_stack.ss_size = STACK;
    there.uc_link = &here;
    makecontext(&there, call, 0);
    swapcontext(&here, &there);
    size_t deepest = 0;
    while (deepest < STACK && stack[deepest] == PATTERN) deepest++;
    return number == expected ? STACK - deepest : STACK;
}

static int told(const char *name, size_t bytes) {
    printf("stack: %s takes %zu bytes, at most %d are promised\n", name, bytes, DESK_STACK);
    return bytes <= DESK_STACK;
}

static size_t larger(size_t a, size_t b) { return a < b ? b : a; }

int main(void) {
    unsigned transactions;
    input_length = make_message(input, DESK_BYTES, 0, &transactions);
    size_t checked = taken(check, 0);
    input[input_length - 1] = '!';
    checked = larger(checked, taken(check, 2));
    input_length = make_list(input, DESK_COLLECTIONS);
    room = DESK_BYTES;
    size_t written = taken(write, 0);
    room = 0;
    written = larger(written, taken(write, 28));
    int check_fits = told("a check", checked), write_fits = told("a write", written);
    return check_fits && write_fits ? 0 : 1;
}
