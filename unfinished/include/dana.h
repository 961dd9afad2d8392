/*
 * dana.h: the calls of the Dana chain for C hosts, with every rule that a host must keep. docs/C_HOST.md is the guide.
 *
 * Rules for all calls. The library can test none of them; a call that breaks one may do anything.
 *
 *  - Pointers are never null, not even where a length is 0.
 *  - A pointer to a struct is to a whole one, aligned to 8 bytes. A `code` pointer is aligned to 8 bytes too, and a
 *    `table` pointer need not be aligned.
 *  - A length counts elements: bytes of a table, words of code (not bytes). So many elements are there from the
 *    pointer on, set to some value, and stay allocated until the call returns.
 *  - What a call may change (a pointer without const) overlaps nothing else that the call is given. What it only reads
 *    may overlap what it only reads.
 *  - While a call runs nothing else reads what it may change, and nothing else changes what it is given.
 *  - A struct dana_controller comes from dana_arm and a struct dana_line from dana_line. From then on only the calls
 *    change them; a host may read their fields, and copy, move or forget a whole struct at any time.
 *
 * The library keeps nothing between calls, allocates nothing, writes only where this file says, and every call returns.
 * So calls on different structs may run at the same time in different threads. The stack must have room for the call:
 * docs/C_HOST.md tells how much was measured.
 */
#ifndef DANA_H
#define DANA_H

#include <stdbool.h>
#include <stddef.h>
#include <stdint.h>

#ifdef __cplusplus
extern "C" {
#define DANA_LAYOUT(holds) static_assert(holds, #holds)
#else
#define DANA_LAYOUT(holds) _Static_assert(holds, #holds)
#endif

/* The most bytes that a table has, and the most words that its code has. */
#define DANA_TABLE_MAX 24771
#define DANA_CODE_MAX 8224

/* The budgets that a turn accepts are 1 to this. */
#define DANA_BUDGET_MAX 1000000

/* What a line holds: bytes that may wait at once, and bytes that may be sent in all. */
#define DANA_HOLD 256
#define DANA_ROOM 1024

/* What a turn came to. */
enum {
    DANA_RUNS = 0,    /* the budget is used; the program runs on */
    DANA_WAITS = 1,   /* it stands at a read that needs more bytes than wait */
    DANA_ENDED = 2,   /* it has ended */
    DANA_FAULT = 3,   /* it has stopped at a fault */
    DANA_REFUSED = 4  /* no turn was made */
};

/* What a call came to that is done or refused. */
struct dana_outcome {
    uint16_t number; /* 0: done. Else the refusal's number, as in docs/REFUSALS.md */
    size_t place;    /* the refusal's place, and 0 where there is none */
    size_t words;    /* of a check or a load that is done: the words of the code; else 0 */
};

/* What a turn came to. */
struct dana_answer {
    uint8_t kind;   /* DANA_RUNS to DANA_REFUSED */
    uint8_t number; /* of a fault its cause, 60 to 65; of a refusal its number, 40; else 0 */
    size_t place;   /* of a fault its node; else 0 */
    uint32_t steps; /* the steps that were made, at most the budget */
};

/* One call of a function that has not yet closed. */
struct dana_activation {
    int16_t cells[64]; /* its variables, then its operands */
    size_t variables;  /* how many cells are variables */
    size_t count;      /* how many cells are in use */
    bool gives;        /* whether its function has a result */
    size_t back;       /* the address where its caller goes on */
};

/* An armed controller: a program somewhere in its run. The code is not in it. */
struct dana_controller {
    struct dana_activation activations[32]; /* main's first; those from `depth` on mean nothing */
    size_t depth;                           /* how many are open; 0 before the first step */
    size_t at;                              /* the address of the next word */
    uint8_t latch;                          /* 0 it runs, 1 it has ended, 2 it is at a fault */
    uint8_t cause;                          /* of a fault its cause */
    uint16_t node;                          /* of a fault its node */
};

/* A line: the bytes that wait for the program, and the bytes that it has sent. */
struct dana_line {
    uint8_t inbox[DANA_HOLD]; /* the byte that waits as number i is inbox[(first + i) % DANA_HOLD] */
    size_t first;
    size_t count;              /* how many bytes wait; DANA_HOLD - count more may be fed */
    uint8_t outbox[DANA_ROOM]; /* the bytes sent, oldest first; they stay */
    size_t written;            /* how many bytes were sent; the room left is DANA_ROOM - written */
};

/* The layouts are the library's only if all of these hold. */
DANA_LAYOUT(sizeof(size_t) == 8 && sizeof(bool) == 1);
DANA_LAYOUT(sizeof(struct dana_outcome) == 24);
DANA_LAYOUT(offsetof(struct dana_outcome, place) == 8 && offsetof(struct dana_outcome, words) == 16);
DANA_LAYOUT(sizeof(struct dana_answer) == 24);
DANA_LAYOUT(offsetof(struct dana_answer, number) == 1 && offsetof(struct dana_answer, place) == 8);
DANA_LAYOUT(offsetof(struct dana_answer, steps) == 16);
DANA_LAYOUT(sizeof(struct dana_activation) == 160);
DANA_LAYOUT(offsetof(struct dana_activation, variables) == 128 && offsetof(struct dana_activation, count) == 136);
DANA_LAYOUT(offsetof(struct dana_activation, gives) == 144 && offsetof(struct dana_activation, back) == 152);
DANA_LAYOUT(sizeof(struct dana_controller) == 5144);
DANA_LAYOUT(offsetof(struct dana_controller, depth) == 5120 && offsetof(struct dana_controller, at) == 5128);
DANA_LAYOUT(offsetof(struct dana_controller, latch) == 5136 && offsetof(struct dana_controller, cause) == 5137);
DANA_LAYOUT(offsetof(struct dana_controller, node) == 5138);
DANA_LAYOUT(sizeof(struct dana_line) == 1304);
DANA_LAYOUT(offsetof(struct dana_line, first) == 256 && offsetof(struct dana_line, count) == 264);
DANA_LAYOUT(offsetof(struct dana_line, outbox) == 272 && offsetof(struct dana_line, written) == 1296);

/*
 * Whether a table passes the check.
 *
 *   table, length: any bytes, any number of them, 0 too; only read.
 *
 * Answers number 0 with the words of its code (at most DANA_CODE_MAX), or the first rule broken, number 1 to 19, with
 * its place.
 */
struct dana_outcome dana_check(const uint8_t *table, size_t length);

/*
 * Checks a table and writes its code.
 *
 *   table, length:   any bytes, any number of them, 0 too; only read.
 *   code, capacity:  the memory for the code, in words; it overlaps the table nowhere. The words must be set to some
 *                    value before the call. DANA_CODE_MAX words are enough for every table.
 *
 * Answers number 0 with the words of the code: so many words of the memory are then the code, and those behind are as
 * they were. A refusal leaves the whole memory as it was: number 1 to 19 is the check's, with its place, and 30 says
 * that the memory is too short, with the words needed as its place.
 */
struct dana_outcome dana_load(const uint8_t *table, size_t length, uint64_t *code, size_t capacity);

/* An empty line: nothing waits, nothing was sent, DANA_HOLD bytes may be fed and DANA_ROOM sent. Never refused. */
struct dana_line dana_line(void);

/*
 * An armed controller: its program is before its first step, no activation is open. Never refused. Which program it
 * runs is said by the code that its turns are given.
 */
struct dana_controller dana_arm(void);

/*
 * One turn: steps of the program until it ends, is at a fault, waits or has made `budget` steps.
 *
 *   controller:    from dana_arm; it overlaps neither code nor line. Changed.
 *   code, length:  in words; only read. Any words are allowed: where they are no code the program stops at fault 60.
 *                  For a loaded program they are the first words that dana_load wrote, or those with more behind, and
 *                  the same at every turn since arming. length may be 0.
 *   budget:        1 to DANA_BUDGET_MAX; any other is refused.
 *   line:          from dana_line; it overlaps neither code nor controller. Changed: bytes are taken and sent.
 *
 * Answers one of the kinds above with the steps made. A wait uses no step; an end and a fault use one. After an end or
 * a fault a turn tells the same again with 0 steps and changes nothing. The refusal, kind DANA_REFUSED with number 40
 * and place 0, leaves controller and line as they were.
 */
struct dana_answer dana_turn(struct dana_controller *controller, const uint64_t *code, size_t length, uint32_t budget,
                             struct dana_line *line);

/*
 * Feeds one byte: it goes behind those that wait.
 *
 *   line: from dana_line. Changed.
 *
 * Answers number 0 and words 0; or the refusal 50 with place 0, exactly where DANA_HOLD bytes wait, which leaves the
 * line as it was. What a turn takes makes place for as many bytes.
 */
struct dana_outcome dana_feed(struct dana_line *line, uint8_t byte);

/*
 * The value of main's variable in a slot, from 0 on: an int, or a byte as 0 to 255.
 *
 *   controller: from dana_arm; only read.
 *   slot:       any number. A slot that main has not, and every slot before the first step, is answered by 0.
 */
int16_t dana_variable(const struct dana_controller *controller, size_t slot);

#ifdef __cplusplus
}
#endif
#endif
