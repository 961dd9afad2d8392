/*
 * An example host: host TABLE FEED EXPECT
 *
 * Loads a table, runs it in turns, feeds it a few bytes between turns, and prints what it sends. The status is 0
 * exactly if all bytes sent are those of EXPECT and the program is at no fault.
 */
#include <inttypes.h>
#include <stdio.h>
#include <stdlib.h>
#include <string.h>

#include "dana.h"

enum { PIECE = 10, BUDGET = 100 };

struct bytes {
    uint8_t at[DANA_TABLE_MAX];
    size_t length;
};

static void read_file(const char *path, struct bytes *bytes) {
    FILE *file = fopen(path, "rb");
    if (file == NULL) {
        perror(path);
        exit(2);
    }
    bytes->length = fread(bytes->at, 1, sizeof bytes->at, file);
    if (ferror(file) || fgetc(file) != EOF) {
        fprintf(stderr, "%s: cannot be read, or is longer than any table\n", path);
        exit(2);
    }
    fclose(file);
}

/* Feeds the next bytes, at most PIECE, as long as the line has hold for them: the place of the next byte to feed. */
static size_t feed_piece(struct dana_line *line, const struct bytes *feed, size_t next) {
    for (int i = 0; i < PIECE && next < feed->length; i++, next++) {
        if (dana_feed(line, feed->at[next]).number != 0) {
            break;
        }
    }
    return next;
}

/* How the program stands. */
static void print_standing(struct dana_answer answer) {
    switch (answer.kind) {
    case DANA_RUNS: printf("runs on\n"); break;
    case DANA_WAITS: printf("waits\n"); break;
    case DANA_ENDED: printf("ended\n"); break;
    case DANA_FAULT: printf("fault %d at node %zu\n", answer.number, answer.place); break;
    default: printf("turn refused: %d at %zu\n", answer.number, answer.place);
    }
}

int main(int count, char **arguments) {
    static struct bytes table, feed, expect;
    static uint64_t code[DANA_CODE_MAX];
    if (count != 4) {
        fprintf(stderr, "usage: host TABLE FEED EXPECT\n");
        return 2;
    }
    read_file(arguments[1], &table);
    read_file(arguments[2], &feed);
    read_file(arguments[3], &expect);

    struct dana_outcome loaded = dana_load(table.at, table.length, code, DANA_CODE_MAX);
    if (loaded.number != 0) {
        fprintf(stderr, "table refused: %d at %zu\n", loaded.number, loaded.place);
        return 1;
    }
    printf("loaded: %zu words\n", loaded.words);

    struct dana_controller controller = dana_arm();
    struct dana_line line = dana_line();
    struct dana_answer answer;
    uint64_t steps = 0;
    size_t next = 0, before;
    do {
        before = next;
        next = feed_piece(&line, &feed, next);
        size_t told = line.written;
        answer = dana_turn(&controller, code, loaded.words, BUDGET, &line);
        steps += answer.steps;
        fwrite(line.outbox + told, 1, line.written - told, stdout);
    } while (answer.kind == DANA_RUNS || (answer.kind == DANA_WAITS && next > before));

    printf("after %" PRIu64 " steps and %zu of %zu bytes fed: ", steps, next, feed.length);
    print_standing(answer);
    printf("main's first variables: %d %d %d %d\n", dana_variable(&controller, 0), dana_variable(&controller, 1),
           dana_variable(&controller, 2), dana_variable(&controller, 3));

    bool as_expected = line.written == expect.length && memcmp(line.outbox, expect.at, expect.length) == 0;
    printf("%zu bytes sent, %s\n", line.written, as_expected ? "as expected" : "NOT as expected");
    return as_expected && (answer.kind == DANA_WAITS || answer.kind == DANA_ENDED) ? 0 : 1;
}
