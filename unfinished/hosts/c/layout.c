/* Tests by running that every field of dana.h's structs is where the library has it, and that nothing behind a struct
 * is written. The status is 0 exactly if all is so. */
#include <stdio.h>
#include <string.h>

#include "dana.h"

static int failures;

#define EXPECT(holds)                                             \
    do {                                                          \
        if (!(holds)) {                                           \
            printf("layout.c:%d: not so: %s\n", __LINE__, #holds); \
            failures++;                                           \
        }                                                         \
    } while (0)

/* A word of stack code, and the entry word of a function (docs/CODE.md). */
#define WORD(op, aux, node, operand) ((uint64_t)(op) << 56 | (uint64_t)(aux) << 48 | (uint64_t)(node) << 32 | (operand))
#define ENTRY(result, parameters, variables, address) \
    ((uint64_t)(result) << 30 | (uint64_t)(parameters) << 26 | (uint64_t)(variables) << 20 | (address))

/* Main sets its variable 1 to 7, sends on one byte, and calls function 1 above an operand; there bad code stands. */
static const uint64_t code[] = {
    ENTRY(0, 0, 2, 2),   ENTRY(1, 1, 3, 9),   WORD(1, 0, 11, 7),  WORD(33, 0, 12, 1), WORD(16, 2, 13, 0),
    WORD(42, 2, 14, 0),  WORD(1, 0, 15, 300), WORD(1, 0, 16, 5),  WORD(13, 0, 17, 1), WORD(255, 0, 18, 0),
};
enum { WORDS = sizeof code / sizeof code[0] };

/* One function with a block of one skip. */
static const uint8_t smallest[15] = {0x10, 0x40, 0x02, 0, 0, 0, 0, 0, 0, 0xA4, 0, 1, 0x80, 0, 0};

static struct {
    struct dana_controller controller;
    uint8_t behind_controller[256];
    struct dana_line line;
    uint8_t behind_line[256];
} kept;

static bool untouched(const uint8_t guard[256]) {
    for (int i = 0; i < 256; i++) {
        if (guard[i] != 0xA5) {
            return false;
        }
    }
    return true;
}

static void outcomes(void) {
    uint64_t memory[3] = {1, 2, 3};
    struct dana_outcome short_table = dana_check(smallest, 2);
    EXPECT(short_table.number == 1 && short_table.place == 2 && short_table.words == 0);
    struct dana_outcome short_memory = dana_load(smallest, sizeof smallest, memory, 1);
    EXPECT(short_memory.number == 30 && short_memory.place == 2 && short_memory.words == 0 && memory[0] == 1);
    struct dana_outcome loaded = dana_load(smallest, sizeof smallest, memory, 3);
    EXPECT(loaded.number == 0 && loaded.place == 0 && loaded.words == 2);
    EXPECT(memory[0] == ENTRY(0, 0, 0, 1) && memory[1] == WORD(41, 0, 0, 0) && memory[2] == 3);
}

static void a_run(void) {
    struct dana_controller *c = &kept.controller;
    struct dana_line *l = &kept.line;
    EXPECT(c->depth == 0 && c->at == 0 && c->latch == 0 && l->first == 0 && l->count == 0 && l->written == 0);
    for (int i = 0; i < 3; i++) {
        EXPECT(dana_feed(l, (uint8_t)"xyz"[i]).number == 0);
    }
    EXPECT(l->count == 3 && memcmp(l->inbox, "xyz", 3) == 0);

    struct dana_answer none = dana_turn(c, code, WORDS, 0, l);
    EXPECT(none.kind == DANA_REFUSED && none.number == 40 && none.place == 0 && none.steps == 0);
    struct dana_answer runs = dana_turn(c, code, WORDS, 7, l);
    EXPECT(runs.kind == DANA_RUNS && runs.number == 0 && runs.place == 0 && runs.steps == 7);
    EXPECT(l->first == 1 && l->count == 2 && l->inbox[1] == 'y' && l->written == 1 && l->outbox[0] == 'x');

    const struct dana_activation *main_one = &c->activations[0], *called = &c->activations[1];
    EXPECT(c->depth == 2 && c->at == 9 && c->latch == 0);
    EXPECT(main_one->variables == 2 && main_one->count == 3 && !main_one->gives);
    EXPECT(main_one->cells[0] == 0 && main_one->cells[1] == 7 && main_one->cells[2] == 300);
    EXPECT(called->variables == 3 && called->count == 3 && called->gives && called->back == 9);
    EXPECT(called->cells[0] == 5 && called->cells[1] == 0 && called->cells[2] == 0);
    EXPECT(dana_variable(c, 1) == 7 && dana_variable(c, 2) == 0);

    struct dana_answer fault = dana_turn(c, code, WORDS, 7, l);
    EXPECT(fault.kind == DANA_FAULT && fault.number == 60 && fault.place == 18 && fault.steps == 1);
    EXPECT(c->latch == 2 && c->cause == 60 && c->node == 18);
}

static void a_full_line(void) {
    kept.line = dana_line();
    for (int i = 0; i < DANA_HOLD; i++) {
        EXPECT(dana_feed(&kept.line, (uint8_t)i).number == 0);
    }
    struct dana_outcome full = dana_feed(&kept.line, 0);
    EXPECT(full.number == 50 && full.place == 0 && kept.line.count == DANA_HOLD && kept.line.inbox[255] == 255);
}

int main(void) {
    memset(&kept, 0xA5, sizeof kept);
    kept.controller = dana_arm();
    kept.line = dana_line();
    outcomes();
    a_run();
    a_full_line();
    EXPECT(untouched(kept.behind_controller) && untouched(kept.behind_line));
    printf("layout: %s\n", failures == 0 ? "as in dana.h" : "NOT as in dana.h");
    return failures == 0 ? 0 : 1;
}
