/* Every function of the library, with each of its codes, on a full store, on a thread whose stack is what the header
 * names. The exit status is 0 only if all is as it must be. */
#define _POSIX_C_SOURCE 200809L
#include <pthread.h>
#include <stdint.h>
#include <stdio.h>
#include <stdlib.h>
#include <string.h>

#include "lupinadze.h"
#include "put.h"

/* Nothing large stands on the stack: it is the library's. */
static uint8_t store[LUPINADZE_STORE_BYTES];
static uint8_t before[LUPINADZE_STORE_BYTES];
static uint8_t tape[1 << 16];
static uint64_t out[1 << 12];
static uint64_t list[1 << 12];
static uint8_t line[LUPINADZE_LINE_BYTES];

static void fail(const char *what, const char *file, int at) {
    fprintf(stderr, "%s:%d: not so: %s\n", file, at, what);
    exit(1);
}

#define EXPECT(holds) ((holds) ? (void)0 : fail(#holds, __FILE__, __LINE__))

/* Ids with as many digits as there are, so that lines are long. */
#define ID(number) (UINT64_C(18446744073709550000) + (number))

enum { TABLES = 16, NODES = 32, TABLETS = 64, HASHES = 32, REPLICAS = 7, RETIRED = 4 };
enum { COMMANDS = 1 + NODES + 2 * TABLETS + TABLETS * RETIRED };

/* The width of the texts: what the tape has room for. */
static const char *text_of(const char *kind, unsigned number, int width) {
    static char text[64];
    snprintf(text, sizeof text, "%s-%02u-%s", kind, number, "................................................");
    text[width] = 0;
    return text;
}

static uint8_t *put_opening(uint8_t *at) {
    *at++ = TABLES;
    at = put_number(at, 1, 8);
    for (unsigned table = 1; table <= TABLES; table++) {
        at = put_number(at, ID(table), 8);
        at = put_number(at, table == 1 ? HASHES : 1, 4);
    }
    return at;
}

static uint8_t *put_node(uint8_t *at, unsigned node) {
    static const char *services[4] = {"raft", "snapshot", "sql", "admin"};
    *at++ = LUPINADZE_COMMAND_REGISTERING;
    at = put_number(at, ID(node), 8);
    for (int field = 0; field < 4; field++)
        at = put_text(at, text_of(services[field], node, LUPINADZE_NAME_WIDTH), LUPINADZE_NAME_WIDTH);
    at = put_text(at, text_of("region", node % 4, LUPINADZE_LABEL_WIDTH), LUPINADZE_LABEL_WIDTH);
    at = put_text(at, text_of("zone", node % 8, LUPINADZE_LABEL_WIDTH), LUPINADZE_LABEL_WIDTH);
    at = put_text(at, text_of("rack", node % 16, LUPINADZE_LABEL_WIDTH), LUPINADZE_LABEL_WIDTH);
    at = put_text(at, text_of("class", 0, LUPINADZE_LABEL_WIDTH), LUPINADZE_LABEL_WIDTH);
    *at++ = LUPINADZE_LIFECYCLE_ACTIVE;
    return at;
}

/* The row of a range from the one key to the other, in the second table. */
static uint8_t *put_range(uint8_t *at, unsigned tablet, const char *start, const char *end) {
    at = put_number(at, ID(tablet), 8);
    at = put_number(at, ID(2), 8);
    at = put_number(at, ID(100 + tablet), 8);
    at = put_number(at, 1, 8);
    *at++ = LUPINADZE_KIND_RANGE;
    at = put_number(at, 0, 8);
    at = put_text(at, start, LUPINADZE_KEY_WIDTH);
    return put_text(at, end, LUPINADZE_KEY_WIDTH);
}

static uint8_t *put_hash(uint8_t *at, unsigned tablet) {
    at = put_number(at, ID(tablet), 8);
    at = put_number(at, ID(1), 8);
    at = put_number(at, ID(100 + tablet), 8);
    at = put_number(at, 1, 8);
    *at++ = LUPINADZE_KIND_HASH;
    at = put_number(at, tablet - 1, 4);
    at = put_number(at, HASHES, 4);
    at = put_text(at, "", LUPINADZE_KEY_WIDTH);
    return put_text(at, "", LUPINADZE_KEY_WIDTH);
}

/* The first half of the tablets are buckets, the others ranges, from one number to the next. */
static uint8_t *put_tablet(uint8_t *at, unsigned tablet) {
    char end[LUPINADZE_KEY_WIDTH + 1];
    *at++ = LUPINADZE_COMMAND_TABLET;
    if (tablet <= HASHES)
        return put_hash(at, tablet);
    strcpy(end, text_of("key", tablet + 1, LUPINADZE_KEY_WIDTH));
    return put_range(at, tablet, text_of("key", tablet, LUPINADZE_KEY_WIDTH), end);
}

static uint8_t *put_placement(uint8_t *at, unsigned tablet) {
    *at++ = LUPINADZE_COMMAND_PLACEMENT;
    at = put_number(at, ID(tablet), 8);
    at = put_number(at, 1, 8);
    *at++ = REPLICAS;
    for (unsigned replica = 1; replica <= REPLICAS; replica++) {
        at = put_number(at, ID(replica), 8);
        at = put_number(at, ID((tablet + replica) % NODES + 1), 8);
        *at++ = LUPINADZE_ROLE_VOTER;
    }
    at = put_number(at, REPLICAS, 4);
    for (unsigned domain = 0; domain < 3; domain++)
        at = put_number(at, domain == 0 ? 4 : REPLICAS, 4);
    at = put_text(at, text_of("class", 0, LUPINADZE_LABEL_WIDTH), LUPINADZE_LABEL_WIDTH);
    *at++ = LUPINADZE_PLACES;
    for (unsigned leader = 1; leader <= LUPINADZE_PLACES; leader++)
        at = put_number(at, ID(leader), 8);
    return at;
}

static uint8_t *put_retirement(uint8_t *at, unsigned tablet, unsigned replica) {
    *at++ = LUPINADZE_COMMAND_RETIREMENT;
    at = put_number(at, ID(100 + tablet), 8);
    at = put_number(at, ID(10 + replica), 8);
    at = put_number(at, 1, 8);
    for (unsigned number = 0; number < 3; number++)
        at = put_number(at, ID(number), 8);
    return at;
}

/* Commands that take all the room there is. */
static uint8_t *put_commands(uint8_t *at) {
    *at++ = LUPINADZE_COMMAND_NAMING;
    at = put_text(at, text_of("plates", 0, LUPINADZE_NAME_WIDTH), LUPINADZE_NAME_WIDTH);
    for (unsigned node = 1; node <= NODES; node++)
        at = put_node(at, node);
    for (unsigned tablet = 1; tablet <= TABLETS; tablet++)
        at = put_tablet(at, tablet);
    for (unsigned tablet = 1; tablet <= TABLETS; tablet++)
        at = put_placement(at, tablet);
    for (unsigned tablet = 1; tablet <= TABLETS; tablet++)
        for (unsigned replica = 1; replica <= RETIRED; replica++)
            at = put_retirement(at, tablet, replica);
    return at;
}

/* An answer's place in the list has these numbers. */
static int is_answer(unsigned place, uint64_t number, uint64_t a, uint64_t b, uint64_t c) {
    const uint64_t *answer = out + LUPINADZE_ANSWER_NUMBERS * place;
    return answer[0] == number && answer[1] == a && answer[2] == b && answer[3] == c;
}

/* What list and store are before a call. */
static void mark(void) {
    memset(out, 0xA5, sizeof out);
    memcpy(list, out, sizeof out);
    memcpy(before, store, sizeof store);
}

/* The call before gave a code: list and store are as they were. */
static int nothing_written(void) {
    return memcmp(out, list, sizeof out) == 0 && memcmp(store, before, sizeof store) == 0;
}

static size_t opening_bytes, tape_bytes;

static void whole_tape(void) {
    opening_bytes = (size_t)(put_opening(tape) - tape);
    tape_bytes = (size_t)(put_commands(tape + opening_bytes) - tape);
    EXPECT(opening_bytes == LUPINADZE_OPENING_HEAD_BYTES + TABLES * LUPINADZE_OPENING_TABLE_BYTES);
    EXPECT(tape_bytes - opening_bytes
           == LUPINADZE_NAMING_BYTES + NODES * LUPINADZE_REGISTERING_BYTES
                  + TABLETS * (LUPINADZE_TABLET_BYTES + LUPINADZE_PLACEMENT_BYTES)
                  + TABLETS * RETIRED * LUPINADZE_RETIREMENT_BYTES);
    EXPECT(lupinadze_answers(tape, tape_bytes) == COMMANDS);
    mark();
    EXPECT(lupinadze_run(tape, tape_bytes, out, 4 * COMMANDS - 1) == LUPINADZE_SHORT && nothing_written());
    EXPECT(lupinadze_run(tape, tape_bytes, out, 4 * COMMANDS) == COMMANDS);
    for (unsigned place = 0; place < COMMANDS; place++)
        EXPECT(is_answer(place, LUPINADZE_ANSWER_APPLIED, 0, 0, 0));
    EXPECT(lupinadze_run(tape, 0, out, 4) == 1 && is_answer(0, LUPINADZE_ANSWER_BAD_TAPE, LUPINADZE_TAPE_CUT, 0, 0));
}

static void open_store(void) {
    uint8_t many[LUPINADZE_OPENING_HEAD_BYTES] = {TABLES + 1};
    EXPECT(lupinadze_store_bytes() == sizeof store);
    memset(store, 0xA5, sizeof store);
    mark();
    EXPECT(lupinadze_open(store, sizeof store - 1, tape, opening_bytes, out, 0) == LUPINADZE_NOT_A_STORE);
    EXPECT(lupinadze_open(store, sizeof store, tape, opening_bytes, out, 3) == LUPINADZE_SHORT && nothing_written());
    EXPECT(lupinadze_open(store, sizeof store, tape, opening_bytes - 1, out, 4) == 0);
    EXPECT(is_answer(0, LUPINADZE_ANSWER_BAD_TAPE, LUPINADZE_TAPE_CUT, 0, 0));
    EXPECT(memcmp(store, before, sizeof store) == 0 && lupinadze_is_sound(store, sizeof store) == 0);
    EXPECT(lupinadze_open(store, sizeof store, many, sizeof many, out, 4) == sizeof many);
    EXPECT(is_answer(0, LUPINADZE_ANSWER_INVALID_COMMAND, LUPINADZE_REASON_OPENING, 0, 0));
    memset(before, 0, sizeof before);
    EXPECT(memcmp(store, before, sizeof store) == 0 && lupinadze_is_sound(store, sizeof store) == 1);
    EXPECT(lupinadze_open(store, sizeof store, tape, tape_bytes, out, 4) == opening_bytes);
    EXPECT(is_answer(0, LUPINADZE_ANSWER_APPLIED, 0, 0, 0) && lupinadze_is_sound(store, sizeof store) == 1);
}

static void apply_commands(void) {
    const uint8_t *commands = tape + opening_bytes;
    size_t bytes = tape_bytes - opening_bytes;
    mark();
    EXPECT(lupinadze_apply(store, sizeof store, commands, bytes, out, 4 * COMMANDS - 1) == LUPINADZE_SHORT);
    EXPECT(nothing_written());
    EXPECT(lupinadze_apply(store, sizeof store, commands, 0, out, 0) == 0 && nothing_written());
    for (uint64_t answer = LUPINADZE_ANSWER_APPLIED; answer <= LUPINADZE_ANSWER_ALREADY_APPLIED; answer++) {
        EXPECT(lupinadze_apply(store, sizeof store, commands, bytes, out, 4 * COMMANDS) == COMMANDS);
        for (unsigned place = 0; place < COMMANDS; place++)
            EXPECT(is_answer(place, answer, 0, 0, 0));
        EXPECT(out[4 * COMMANDS] == list[4 * COMMANDS]);
    }
}

/* Commands that a full store refuses, or that change little. */
static void apply_more(void) {
    uint8_t *at = tape;
    *at++ = LUPINADZE_COMMAND_PICKING;
    at = put_node(at, NODES + 1);
    at = put_tablet(at, TABLETS + 1);
    at = put_retirement(at, 1, RETIRED + 1);
    *at++ = LUPINADZE_COMMAND_LIFECYCLE;
    at = put_number(at, ID(NODES), 8);
    *at++ = LUPINADZE_LIFECYCLE_DRAINING;
    *at++ = LUPINADZE_COMMAND_PLACEMENT; /* and no more */
    EXPECT(lupinadze_apply(store, sizeof store, tape, (size_t)(at - tape), out, 24) == 6);
    EXPECT(out[0] == LUPINADZE_ANSWER_PICKED && out[1] != 0 && out[2] != 0 && out[3] != 0);
    EXPECT(is_answer(1, LUPINADZE_ANSWER_TABLE_FULL, LUPINADZE_TABLE_NODES, LUPINADZE_NODE_ROOM, 0));
    EXPECT(is_answer(2, LUPINADZE_ANSWER_TABLE_FULL, LUPINADZE_TABLE_TABLETS, LUPINADZE_TABLET_ROOM, 0));
    EXPECT(is_answer(3, LUPINADZE_ANSWER_TABLE_FULL, LUPINADZE_TABLE_RETIREMENTS, LUPINADZE_RETIREMENT_ROOM, 0));
    EXPECT(is_answer(4, LUPINADZE_ANSWER_APPLIED, 0, 0, 0));
    EXPECT(is_answer(5, LUPINADZE_ANSWER_BAD_TAPE, LUPINADZE_TAPE_CUT, LUPINADZE_COMMAND_PLACEMENT, 0));
}

static int untouched(void) {
    for (size_t at = 0; at < sizeof line; at++)
        if (line[at] != 0xA5)
            return 0;
    return 1;
}

/* The row that a question gave is the command's at `tape`, and the list's rest is as it was. */
static int is_row(uint64_t given, size_t width) {
    int row = given == width && memcmp(line, tape + 1, width) == 0 && line[width] == 0xA5;
    memset(line, 0xA5, sizeof line);
    return row;
}

static void ask_rows(void) {
    size_t node = LUPINADZE_NODE_ROW_BYTES, tablet = LUPINADZE_TABLET_ROW_BYTES;
    size_t placement = LUPINADZE_PLACEMENT_ROW_BYTES, retirement = LUPINADZE_RETIREMENT_ROW_BYTES;
    memset(line, 0xA5, sizeof line);
    put_node(tape, 7);
    EXPECT(lupinadze_node(store, sizeof store, 7, line, 0) == LUPINADZE_NONE);
    EXPECT(lupinadze_node(store, sizeof store, ID(7), line, node - 1) == LUPINADZE_SHORT && untouched());
    EXPECT(is_row(lupinadze_node(store, sizeof store, ID(7), line, sizeof line), node));
    put_tablet(tape, 40);
    EXPECT(lupinadze_tablet(store, sizeof store, 40, line, 0) == LUPINADZE_NONE);
    EXPECT(lupinadze_tablet(store, sizeof store, ID(40), line, tablet - 1) == LUPINADZE_SHORT && untouched());
    EXPECT(is_row(lupinadze_tablet(store, sizeof store, ID(40), line, sizeof line), tablet));
    put_placement(tape, 40);
    EXPECT(lupinadze_placement(store, sizeof store, 40, line, 0) == LUPINADZE_NONE);
    EXPECT(lupinadze_placement(store, sizeof store, ID(40), line, placement - 1) == LUPINADZE_SHORT && untouched());
    EXPECT(is_row(lupinadze_placement(store, sizeof store, ID(40), line, sizeof line), placement));
    put_retirement(tape, 40, 2);
    EXPECT(lupinadze_retirement(store, sizeof store, ID(140), 12, line, 0) == LUPINADZE_NONE);
    EXPECT(lupinadze_retirement(store, sizeof store, ID(140), ID(12), line, retirement - 1) == LUPINADZE_SHORT);
    EXPECT(untouched());
    EXPECT(is_row(lupinadze_retirement(store, sizeof store, ID(140), ID(12), line, sizeof line), retirement));
}

static void ask_numbers(void) {
    mark();
    EXPECT(lupinadze_next_replica_id(store, sizeof store, out, 0) == LUPINADZE_SHORT && nothing_written());
    EXPECT(lupinadze_next_replica_id(store, sizeof store, out, 1) == 1 && out[0] == ID(REPLICAS + 1));
    EXPECT(lupinadze_is_complete(store, sizeof store, ID(1)) == 1);
    EXPECT(lupinadze_is_complete(store, sizeof store, ID(2)) == 0);
    EXPECT(lupinadze_is_complete(store, sizeof store, 1) == 0);
    mark();
    EXPECT(lupinadze_initial_placement(store, sizeof store, out, 6) == LUPINADZE_SHORT && nothing_written());
    EXPECT(lupinadze_initial_placement(store, sizeof store, out, 7) == 3);
    EXPECT(out[0] == ID(1) && out[1] == ID(2) && out[2] == ID(3)); /* three of each label: lowest ids */
    EXPECT(out[3] == 3 && out[4] == 3 && out[5] == 3 && out[6] == 3 && out[7] == list[7]);
}

static void ask_overlap(void) {
    size_t row = LUPINADZE_TABLET_ROW_BYTES;
    char end[LUPINADZE_KEY_WIDTH + 1];
    memset(line, 0xA5, sizeof line);
    put_range(tape, 70, "key-40-more", "");
    EXPECT(lupinadze_overlap_start(store, sizeof store, ID(40), tape, row - 1, line, 32) == LUPINADZE_SHORT);
    EXPECT(lupinadze_overlap_start(store, sizeof store, ID(40), tape, row, line, 10) == LUPINADZE_SHORT && untouched());
    EXPECT(lupinadze_overlap_start(store, sizeof store, ID(40), tape, sizeof tape, line, sizeof line) == 11);
    EXPECT(memcmp(line, "key-40-more", 11) == 0 && line[11] == 0xA5); /* the later start is the command's */
    EXPECT(lupinadze_overlap_start(store, sizeof store, ID(39), tape, row, line, 0) == LUPINADZE_NONE);
    EXPECT(lupinadze_overlap_start(store, sizeof store, 40, tape, row, line, 0) == LUPINADZE_NONE);
    strcpy(end, text_of("key", 50, LUPINADZE_KEY_WIDTH));
    put_range(tape, 70, "", end);
    EXPECT(lupinadze_overlap_start(store, sizeof store, ID(40), tape, row, line, sizeof line) == LUPINADZE_KEY_WIDTH);
    EXPECT(memcmp(line, text_of("key", 40, LUPINADZE_KEY_WIDTH), LUPINADZE_KEY_WIDTH) == 0); /* the stored one's */
    put_range(tape, 70, "", "");
    EXPECT(lupinadze_overlap_start(store, sizeof store, ID(1), tape, row, line, 0) == 0); /* a Hash tablet: all keys */
}

static void dump_lines(void) {
    uint64_t number, bytes, longest = 0;
    for (number = 0;; number++) {
        memset(line, 0xA5, sizeof line);
        bytes = lupinadze_dump(store, sizeof store, number, line, sizeof line);
        if (bytes == LUPINADZE_NONE)
            break;
        EXPECT(bytes <= sizeof line && line[bytes - 1] == '\n' && memchr(line, '\n', bytes - 1) == NULL);
        EXPECT(bytes == sizeof line || line[bytes] == 0xA5);
        longest = bytes > longest ? bytes : longest;
        memset(line, 0xA5, sizeof line);
        EXPECT(lupinadze_dump(store, sizeof store, number, line, bytes - 1) == LUPINADZE_SHORT && untouched());
    }
    EXPECT(untouched());
    EXPECT(number == 1 + NODES + TABLES + TABLETS + TABLETS + TABLETS * RETIRED + 3);
    EXPECT(lupinadze_dump(store, sizeof store, UINT64_MAX, line, 0) == LUPINADZE_NONE);
    /* a node's: its word, id, four names, four labels, lifecycle, line feed */
    EXPECT(longest == 4 + 21 + 4 * (2 + 2 * LUPINADZE_NAME_WIDTH) + 4 * (2 + 2 * LUPINADZE_LABEL_WIDTH) + 2 + 1);
}

/* The longest line of a sound store is that of a placement which no command can leave: here that of the last tablet is
 * changed by hand. */
static void dump_longest_line(void) {
    uint64_t number = 1 + NODES + TABLES + TABLETS + TABLETS - 1;
    uint64_t longest = 9 + 21 + 21 + 9 + LUPINADZE_PLACES * (1 + 20 + 1 + 20 + 1 + 3) + 7 + 11 + 7 + 3 * 11 + 6
                       + (2 + 2 * LUPINADZE_LABEL_WIDTH) + 8 + LUPINADZE_PLACES * 21 + 1;
    uint8_t *row = NULL;
    put_placement(tape, TABLETS);
    for (size_t at = 0; at + LUPINADZE_PLACEMENT_ROW_BYTES <= sizeof store; at++)
        if (memcmp(store + at, tape + 1, LUPINADZE_PLACEMENT_ROW_BYTES) == 0)
            row = store + at;
    EXPECT(row != NULL);
    put_number(row + 8, UINT64_MAX, 8);
    for (unsigned place = 0; place < LUPINADZE_PLACES; place++)
        row[17 + 17 * place + 16] = 255;
    memset(row + 136, 255, 16);
    EXPECT(lupinadze_is_sound(store, sizeof store) == 1);
    EXPECT(lupinadze_dump(store, sizeof store, number, line, sizeof line) == longest);
    EXPECT(longest <= LUPINADZE_LINE_BYTES && line[longest - 1] == '\n' && memcmp(line, "placement ", 10) == 0);
}

/* Of memory that is no store each function says so before all else. */
static void ask_no_store(const uint8_t *memory, size_t bytes) {
    memset(line, 0xA5, sizeof line);
    mark();
    EXPECT(lupinadze_is_sound(memory, bytes) == 0);
    EXPECT(lupinadze_dump(memory, bytes, UINT64_MAX, line, 0) == LUPINADZE_NOT_A_STORE);
    EXPECT(lupinadze_node(memory, bytes, 1, line, 0) == LUPINADZE_NOT_A_STORE);
    EXPECT(lupinadze_tablet(memory, bytes, 1, line, 0) == LUPINADZE_NOT_A_STORE);
    EXPECT(lupinadze_placement(memory, bytes, 1, line, 0) == LUPINADZE_NOT_A_STORE);
    EXPECT(lupinadze_retirement(memory, bytes, 1, 1, line, 0) == LUPINADZE_NOT_A_STORE);
    EXPECT(lupinadze_next_replica_id(memory, bytes, out, 0) == LUPINADZE_NOT_A_STORE);
    EXPECT(lupinadze_is_complete(memory, bytes, 1) == LUPINADZE_NOT_A_STORE);
    EXPECT(lupinadze_initial_placement(memory, bytes, out, 0) == LUPINADZE_NOT_A_STORE);
    EXPECT(lupinadze_overlap_start(memory, bytes, 1, tape, 0, line, 0) == LUPINADZE_NOT_A_STORE);
    EXPECT(untouched() && nothing_written());
}

static void unsound(void) {
    ask_no_store(store, sizeof store - 1);
    ask_no_store(store, 0);
    store[sizeof store - 9] ^= 0xFF; /* the group mark is below a group */
    ask_no_store(store, sizeof store);
    tape[0] = LUPINADZE_COMMAND_PICKING;
    tape[1] = 0x2A;
    EXPECT(lupinadze_apply(store, sizeof store, tape, 2, out, 7) == LUPINADZE_SHORT && nothing_written());
    for (size_t bytes = sizeof store - 1; bytes <= sizeof store; bytes++) {
        EXPECT(lupinadze_apply(store, bytes, tape, 2, out, 8) == 2 && memcmp(store, before, sizeof store) == 0);
        EXPECT(is_answer(0, LUPINADZE_ANSWER_INVALID_COMMAND, LUPINADZE_REASON_UNSOUND_STORE, 0, 0));
        EXPECT(is_answer(1, LUPINADZE_ANSWER_BAD_TAPE, LUPINADZE_TAPE_UNKNOWN, 0x2A, 0));
    }
}

static void *calls(void *nothing) {
    whole_tape();
    open_store();
    apply_commands();
    apply_more();
    ask_rows();
    ask_numbers();
    ask_overlap();
    dump_lines();
    dump_longest_line();
    unsound();
    return nothing;
}

int main(void) {
    pthread_attr_t attributes;
    pthread_t thread;
    /* below the stack stands more than any frame takes, so that none steps over it */
    EXPECT(pthread_attr_init(&attributes) == 0 && pthread_attr_setguardsize(&attributes, 1 << 20) == 0);
    EXPECT(pthread_attr_setstacksize(&attributes, LUPINADZE_STACK_BYTES) == 0);
    EXPECT(pthread_create(&thread, &attributes, calls, NULL) == 0);
    EXPECT(pthread_join(thread, NULL) == 0);
    printf("calls: all as it must be, on a stack of %d bytes\n", LUPINADZE_STACK_BYTES);
    return 0;
}
