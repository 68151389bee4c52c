/* A store that the program holds: opened, given commands, asked, dumped. Each result is checked; the exit status is 0
 * only if all is as it must be, else 1, and the message says what is not. */
#include <stdint.h>
#include <stdio.h>
#include <stdlib.h>
#include <string.h>

#include "lupinadze.h"
#include "put.h"

static uint8_t store[LUPINADZE_STORE_BYTES];

static void expect(int holds, const char *what) {
    if (!holds) {
        fprintf(stderr, "example: not as expected: %s\n", what);
        exit(1);
    }
}

/* One table of two tablets, 5; group mark 1. */
static const uint8_t opening[] = {1, 1, 0, 0, 0, 0, 0, 0, 0, 5, 0, 0, 0, 0, 0, 0, 0, 2, 0, 0, 0};

static uint8_t *put_node(uint8_t *at, uint64_t id, const char *endpoints[4], const char *zone) {
    *at++ = LUPINADZE_COMMAND_REGISTERING;
    at = put_number(at, id, 8);
    for (int field = 0; field < 4; field++)
        at = put_text(at, endpoints[field], LUPINADZE_NAME_WIDTH);
    at = put_text(at, "north", LUPINADZE_LABEL_WIDTH);
    at = put_text(at, zone, LUPINADZE_LABEL_WIDTH);
    at = put_absent(at, LUPINADZE_LABEL_WIDTH); /* no rack */
    at = put_text(at, "ssd", LUPINADZE_LABEL_WIDTH);
    *at++ = LUPINADZE_LIFECYCLE_ACTIVE;
    return at;
}

static void print_answers(const uint64_t *answers, uint64_t count) {
    for (uint64_t i = 0; i < count; i++, answers += LUPINADZE_ANSWER_NUMBERS)
        printf("answer %llu: %llu %llu %llu\n", (unsigned long long)answers[0], (unsigned long long)answers[1],
               (unsigned long long)answers[2], (unsigned long long)answers[3]);
}

static void apply(void) {
    static const char *first[4] = {"raft.1:7000", "snapshot.1:7000", "sql.1:7000", "admin.1:7000"};
    static const char *second[4] = {"raft.2:7000", "snapshot.2:7000", "sql.1:7000", "admin.2:7000"};
    uint8_t commands[LUPINADZE_NAMING_BYTES + 2 * LUPINADZE_REGISTERING_BYTES + LUPINADZE_PICKING_BYTES];
    uint64_t answers[4 * LUPINADZE_ANSWER_NUMBERS];
    uint8_t *at = commands;

    *at++ = LUPINADZE_COMMAND_NAMING;
    at = put_text(at, "plates", LUPINADZE_NAME_WIDTH);
    at = put_node(at, 1, first, "a");
    at = put_node(at, 2, second, "b"); /* its sql endpoint is node 1's */
    *at++ = LUPINADZE_COMMAND_PICKING;
    expect(at == commands + sizeof commands, "the commands have their sizes");

    expect(lupinadze_apply(store, sizeof store, commands, sizeof commands, answers, 16) == 4, "four answers");
    print_answers(answers, 4);
    expect(answers[0] == LUPINADZE_ANSWER_APPLIED, "the cluster is named");
    expect(answers[4] == LUPINADZE_ANSWER_APPLIED, "node 1 is registered");
    expect(answers[8] == LUPINADZE_ANSWER_NODE_ENDPOINT_CONFLICT, "an endpoint of node 2 is taken");
    expect(answers[9] == 1 && answers[10] == 2 && answers[11] == LUPINADZE_ENDPOINT_SQL, "by node 1, its sql endpoint");
    expect(answers[12] == LUPINADZE_ANSWER_PICKED && answers[13] == 1 && answers[14] == 0, "node 1 is picked alone");
}

static void ask(void) {
    uint8_t row[LUPINADZE_NODE_ROW_BYTES];
    uint64_t numbers[LUPINADZE_INITIAL_PLACEMENT_NUMBERS];

    expect(lupinadze_node(store, sizeof store, 1, row, sizeof row) == sizeof row, "node 1 has a row");
    expect(row[8] == 11 && memcmp(row + 9, "raft.1:7000", 11) == 0, "its raft endpoint stands behind its id");
    expect(row[LUPINADZE_NODE_ROW_BYTES - 1] == LUPINADZE_LIFECYCLE_ACTIVE, "its lifecycle is the last byte");
    expect(lupinadze_node(store, sizeof store, 2, row, sizeof row) == LUPINADZE_NONE, "node 2 was refused");
    expect(lupinadze_next_replica_id(store, sizeof store, numbers, 1) == 1 && numbers[0] == 1, "no replica yet");
    expect(lupinadze_is_complete(store, sizeof store, 5) == 0, "table 5 has no tablets yet");
    expect(lupinadze_initial_placement(store, sizeof store, numbers, 7) == 1, "one node is chosen");
    expect(numbers[0] == 1 && numbers[3] == 1, "node 1, replication factor 1");
}

static void dump(void) {
    uint8_t line[LUPINADZE_LINE_BYTES];
    uint64_t bytes;
    uint64_t lines = 0;

    while ((bytes = lupinadze_dump(store, sizeof store, lines, line, sizeof line)) != LUPINADZE_NONE) {
        expect(bytes <= sizeof line && line[bytes - 1] == '\n', "a line with its line feed");
        expect(fwrite(line, 1, bytes, stdout) == bytes, "standard output takes it");
        lines++;
    }
    expect(lines == 6, "name, node, table, marks, next replica and first choice");
}

int main(void) {
    uint64_t answer[LUPINADZE_ANSWER_NUMBERS];

    expect(lupinadze_store_bytes() == LUPINADZE_STORE_BYTES, "the library is this header's");
    expect(lupinadze_open(store, sizeof store, opening, sizeof opening, answer, 4) == sizeof opening, "all is taken");
    expect(answer[0] == LUPINADZE_ANSWER_APPLIED, "the opening is accepted");
    apply();
    ask();
    dump();
    return 0;
}
