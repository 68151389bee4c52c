/* Lupinadze: the placement tables of a tablet store, as a static library for C11 and C++. `rt lib` in crates/lupinadze
 * writes out/liblupinadze.a there. docs/FORMAT.md says what each byte of an opening, a command and a row is, what each
 * answer means, and what a person does about it; every function is proved to do so. The library has no state,
 * allocates nothing, calls nothing of the system, and may be called from several threads at once, on one store as long
 * as none of the calls writes to it.
 *
 * Slices: a list is passed as two arguments, a pointer to its first element and the number of its elements. The
 * pointer is not null, also where the number is 0, and is aligned for its type. The lists of one call do not overlap,
 * and nothing else writes to any of them during the call; nor does anything read one that the call writes to.
 *
 * A store is LUPINADZE_STORE_BYTES bytes that the caller holds, aligned as bytes are. lupinadze_open makes one of
 * them; they may be copied, kept in a file and brought back, on a machine of any byte order. Nothing has to be freed.
 * A byte that is changed by other means can leave a store that is not sound, which every function tells; that the rows
 * of a sound store are those that commands have left, no function can tell.
 *
 * Answers: four numbers for each, in the order of the tape: the answer's number and its three operands, as document
 * 01 has them. */
#ifndef LUPINADZE_H
#define LUPINADZE_H

#include <stddef.h>
#include <stdint.h>

/* The version of this file. It goes up in
 * MAJOR where a program that uses the library may have to change, or a store that was kept is no longer one: where a
 *       function, a number or the layout of a store is another;
 * MINOR where something is added: a program for an older version of the same MAJOR compiles and links, and reads its
 *       stores;
 * PATCH where neither is so. */
#define LUPINADZE_VERSION_MAJOR 1
#define LUPINADZE_VERSION_MINOR 0
#define LUPINADZE_VERSION_PATCH 0

/* The bytes of a store. */
#define LUPINADZE_STORE_BYTES 44185

/* No line of the dump has more bytes, its line feed included. */
#define LUPINADZE_LINE_BYTES 811

/* A thread with a stack of so many bytes can call every function below, with 8 KiB of it for the caller's frames and
 * what the system puts there. Only lupinadze_answers and lupinadze_run go deep, since they hold a store; no other takes
 * more than 8 KiB. bindings/test calls all of them on a thread with exactly this stack, and bench/run measures each. */
#define LUPINADZE_STACK_BYTES 65536

/* ---- codes: above every count that a function gives. Where one is given, nothing was run and nothing written. */

/* A list is too short for what would be written to it (or, of lupinadze_overlap_start, for the row that would be
 * read). */
#define LUPINADZE_SHORT UINT64_MAX

/* Memory of another length than a store's, or that is not sound. */
#define LUPINADZE_NOT_A_STORE (UINT64_MAX - 1)

/* There is no such row, line or number. */
#define LUPINADZE_NONE (UINT64_MAX - 2)

/* ---- answers (docs/FORMAT.md, Answers). 0 to 2 are no refusals, all others
 * are, and a refused command changes no byte of the store. In brackets the operands; those that are missing are 0. */

#define LUPINADZE_ANSWER_APPLIED 0
#define LUPINADZE_ANSWER_ALREADY_APPLIED 1
#define LUPINADZE_ANSWER_PICKED 2                              /* (three nodes, 0 for an unfilled place) */
#define LUPINADZE_ANSWER_INVALID_COMMAND 10                    /* (reason) */
#define LUPINADZE_ANSWER_NOT_INITIALIZED 11                    /* the cluster has no name */
#define LUPINADZE_ANSWER_CLUSTER_CONFLICT 12                   /* it has another name */
#define LUPINADZE_ANSWER_NODE_ID_CONFLICT 13                   /* (node) */
#define LUPINADZE_ANSWER_NODE_ENDPOINT_CONFLICT 14             /* (existing node, new node, LUPINADZE_ENDPOINT) */
#define LUPINADZE_ANSWER_INVALID_NODE_LIFECYCLE_TRANSITION 15  /* (node, from, to): from 5: not registered */
#define LUPINADZE_ANSWER_NODE_STILL_EXPECTED 16                /* (node, group, replica) */
#define LUPINADZE_ANSWER_UNKNOWN_NODE 17                       /* (node) */
#define LUPINADZE_ANSWER_TABLET_ID_CONFLICT 18                 /* (tablet) */
#define LUPINADZE_ANSWER_RAFT_GROUP_CONFLICT 19                /* (group) */
#define LUPINADZE_ANSWER_UNKNOWN_TABLE 20                      /* (table) */
#define LUPINADZE_ANSWER_PARTITION_COUNT_MISMATCH 21           /* (table, expected, received) */
#define LUPINADZE_ANSWER_PARTITION_CONFLICT 22                 /* (table, bucket) */
#define LUPINADZE_ANSWER_TABLET_COUNT_EXCEEDED 23              /* (table, limit) */
#define LUPINADZE_ANSWER_RANGE_OVERLAP 24                      /* (the overlapping tablet with the lowest id) */
#define LUPINADZE_ANSWER_UNKNOWN_TABLET 25                     /* (tablet); of a retirement: it has no placement */
#define LUPINADZE_ANSWER_NODE_NOT_ELIGIBLE 26                  /* (node, lifecycle) */
#define LUPINADZE_ANSWER_PLACEMENT_STORAGE_CLASS_MISMATCH 27   /* (node) */
#define LUPINADZE_ANSWER_RETIRED_REPLICA_REUSE 28              /* (group, replica) */
#define LUPINADZE_ANSWER_PLACEMENT_DOMAIN_UNSATISFIED 29       /* (LUPINADZE_DOMAIN, required, observed) */
#define LUPINADZE_ANSWER_INITIAL_PLACEMENT_EPOCH 30            /* (tablet, received) */
#define LUPINADZE_ANSWER_PLACEMENT_EPOCH_EXHAUSTED 31          /* (tablet) */
#define LUPINADZE_ANSWER_PLACEMENT_EPOCH_MISMATCH 32           /* (tablet, expected, received) */
#define LUPINADZE_ANSWER_REPLICA_HOST_CHANGED 33               /* (replica, old node, new node) */
#define LUPINADZE_ANSWER_UNSUPPORTED_VOTER_DEMOTION 34         /* (replica) */
#define LUPINADZE_ANSWER_UNKNOWN_RAFT_GROUP 35                 /* (group) */
#define LUPINADZE_ANSWER_RETIREMENT_STILL_DESIRED 36           /* (group, replica) */
#define LUPINADZE_ANSWER_RETIREMENT_PROOF_CONFLICT 37          /* (group, replica) */
#define LUPINADZE_ANSWER_NO_REGISTERED_NODES 38                /* no node is Active */
#define LUPINADZE_ANSWER_TABLE_FULL 39                         /* (LUPINADZE_TABLE, its room) */
#define LUPINADZE_ANSWER_BAD_TAPE 40                           /* (LUPINADZE_TAPE, command byte; 0: opening) */

/* Why a command, an opening or a store is not admitted, answer 10: the lowest reason that applies. */
#define LUPINADZE_REASON_ZERO_ID 1         /* an id in use is zero, a preferred leader excepted */
#define LUPINADZE_REASON_TEXT 2            /* a text or key: its length, a byte that is not allowed, padding not zero */
#define LUPINADZE_REASON_EQUAL_ENDPOINTS 3 /* two endpoints of a node are equal */
#define LUPINADZE_REASON_BLANK_CLASS 4     /* a storage class, or a required class, is empty or all spaces */
#define LUPINADZE_REASON_UNKNOWN_VARIANT 5 /* a lifecycle above 4, or a role or partition kind above 1 */
#define LUPINADZE_REASON_PARTITION 6       /* bucket not below count, start not below end, the other kind's operands */
#define LUPINADZE_REASON_REPLICAS 7        /* not 1 to 7, another factor, an id twice, an unused place not zero */
#define LUPINADZE_REASON_MINIMA 8          /* a minimum above the replication factor */
#define LUPINADZE_REASON_LEADERS 9         /* more than 7, one zero or twice, an unused place not zero */
#define LUPINADZE_REASON_OPENING 10        /* more than 16 tables, a table id zero or twice, or a tablet count zero */
#define LUPINADZE_REASON_UNSOUND_STORE 12  /* the memory is no sound store */

/* What answers and rows name. */
#define LUPINADZE_LIFECYCLE_ACTIVE 0
#define LUPINADZE_LIFECYCLE_DRAINING 1
#define LUPINADZE_LIFECYCLE_DECOMMISSIONING 2
#define LUPINADZE_LIFECYCLE_DECOMMISSIONED 3
#define LUPINADZE_LIFECYCLE_TOMBSTONED 4
#define LUPINADZE_ENDPOINT_RAFT 0
#define LUPINADZE_ENDPOINT_SNAPSHOT 1
#define LUPINADZE_ENDPOINT_SQL 2
#define LUPINADZE_ENDPOINT_ADMIN 3
#define LUPINADZE_ROLE_VOTER 0
#define LUPINADZE_ROLE_LEARNER 1
#define LUPINADZE_KIND_HASH 0
#define LUPINADZE_KIND_RANGE 1
#define LUPINADZE_DOMAIN_REGION 0
#define LUPINADZE_DOMAIN_ZONE 1
#define LUPINADZE_DOMAIN_RACK 2
#define LUPINADZE_TABLE_NODES 0
#define LUPINADZE_TABLE_TABLETS 1
#define LUPINADZE_TABLE_RETIREMENTS 2
#define LUPINADZE_TAPE_UNKNOWN 1 /* a byte that is no command */
#define LUPINADZE_TAPE_CUT 2     /* a command or an opening that is cut short */

/* ---- the tape: numbers little-endian; a text or key is a length byte, then its full width, with zeros behind it; a
 * count is a byte, then all places, with zeros in the unused ones */

/* An opening: table count 1, group mark 8, then for each table id 8 and tablet count 4. */
#define LUPINADZE_OPENING_HEAD_BYTES 9
#define LUPINADZE_OPENING_TABLE_BYTES 12

/* The bytes that commands begin with. */
#define LUPINADZE_COMMAND_NAMING 0x01
#define LUPINADZE_COMMAND_REGISTERING 0x02
#define LUPINADZE_COMMAND_LIFECYCLE 0x03
#define LUPINADZE_COMMAND_TABLET 0x04
#define LUPINADZE_COMMAND_PLACEMENT 0x05
#define LUPINADZE_COMMAND_RETIREMENT 0x06
#define LUPINADZE_COMMAND_PICKING 0x07

/* How many bytes commands have, that byte included. */
#define LUPINADZE_NAMING_BYTES 50       /* text 48 */
#define LUPINADZE_REGISTERING_BYTES 306 /* a node's row */
#define LUPINADZE_LIFECYCLE_BYTES 10    /* node 8, lifecycle 1 */
#define LUPINADZE_TABLET_BYTES 108      /* a tablet's row */
#define LUPINADZE_PLACEMENT_BYTES 235   /* a placement's row */
#define LUPINADZE_RETIREMENT_BYTES 49   /* a retirement's row */
#define LUPINADZE_PICKING_BYTES 1

/* How many bytes rows have. Their fields in order:
 * node: id 8; raft, snapshot, sql and admin endpoint, texts 48; region, zone, rack, texts 24; storage class, text 24;
 *       lifecycle 1
 * tablet: tablet 8, table 8, group 8, epoch 8, kind 1, bucket 4, bucket count 4; start and end key, texts 32
 * placement: tablet 8, epoch 8, count 1, seven of (replica 8, node 8, role 1), replication factor 4, minima of regions,
 *       zones and racks 4 each; required class, text 24; leader count 1, seven nodes 8
 * retirement: group 8, replica 8, desired epoch 8, conf-state version 8, index 8, term 8 */
#define LUPINADZE_NODE_ROW_BYTES 305
#define LUPINADZE_TABLET_ROW_BYTES 107
#define LUPINADZE_PLACEMENT_ROW_BYTES 234
#define LUPINADZE_RETIREMENT_ROW_BYTES 48

/* How many bytes a text has room for: the name and an endpoint, a label or storage class, a key. The length byte of a
 * label or required class that is absent. */
#define LUPINADZE_NAME_WIDTH 48
#define LUPINADZE_LABEL_WIDTH 24
#define LUPINADZE_KEY_WIDTH 32
#define LUPINADZE_ABSENT 255

/* What a store has room for; and a placement, in replicas and in preferred leaders. */
#define LUPINADZE_NODE_ROOM 32
#define LUPINADZE_TABLE_ROOM 16
#define LUPINADZE_TABLET_ROOM 64
#define LUPINADZE_RETIREMENT_ROOM 256
#define LUPINADZE_PLACES 7

/* How many numbers an answer has, and the first choice. */
#define LUPINADZE_ANSWER_NUMBERS 4
#define LUPINADZE_INITIAL_PLACEMENT_NUMBERS 7

#ifdef __cplusplus
extern "C" {
#endif

/* ---- a whole tape, on a store that the library holds during the call */

/* How many answers the tape gets. The list for lupinadze_run needs four times as many numbers. */
uint64_t lupinadze_answers(const uint8_t *tape, size_t tape_bytes);

/* Runs the tape: writes the answers to the start of the list, leaves the rest of it as it was, and gives the number of
 * answers. Line numbers are not written: the first answer is line 1, the second line 2; but where the opening is
 * refused its answer is the only one and is line 0. That is so for 10 10 0 0 and 40 2 0 0, which no command gets.
 * SHORT: the list is too short. */
uint64_t lupinadze_run(const uint8_t *tape, size_t tape_bytes, uint64_t *out, size_t out_numbers);

/* ---- a store that the caller holds */

/* LUPINADZE_STORE_BYTES, as the library has it. */
uint64_t lupinadze_store_bytes(void);

/* Makes a store of the memory, whatever it held: with the tables and the group mark of the opening that stands at the
 * start of `opening`. Gives how many bytes of it the opening takes, and writes its answer to the first four numbers of
 * the list: 0 0 0 0 where it is accepted. With 10 10 0 0 (reason 10) a store with no tables and all marks zero is made;
 * of more than 16 tables none is read, which takes 9 bytes. With 40 2 0 0 (cut short) 0 is given, and the memory is as
 * it was. NOT_A_STORE: the memory has another length. SHORT: the list has fewer than four numbers. */
uint64_t lupinadze_open(uint8_t *store, size_t store_bytes,
                        const uint8_t *opening, size_t opening_bytes,
                        uint64_t *out, size_t out_numbers);

/* Gives the store the commands that stand in `commands`, one behind the other. Gives the number of answers: one for
 * each command, and 40 with the byte as the last one where a byte that is no command, or a command that is cut short,
 * ends them. They are written to the start of the list, and the rest of it stays. A store that is not sound, or memory
 * of another length, gets 10 12 0 0 for each command, and no byte of it changes. SHORT: the list has fewer than four
 * numbers for each answer. `4 * commands_bytes` numbers are always enough. */
uint64_t lupinadze_apply(uint8_t *store, size_t store_bytes,
                         const uint8_t *commands, size_t commands_bytes,
                         uint64_t *out, size_t out_numbers);

/* 1 where the memory is a sound store, else 0: its length, no more rows than there is room for, which rise by their
 * ids, zeros behind them and behind each text, no node twice in a placement, and marks that are not below an id. */
uint64_t lupinadze_is_sound(const uint8_t *store, size_t store_bytes);

/* ---- questions. Of memory that is no sound store each gives NOT_A_STORE, before all else; then NONE; then SHORT
 * where the list is too short. */

/* One line of the dump, counted from 0, with its line feed: gives how many bytes it has, and writes them to the start
 * of the list. A line for the name, each node, table, tablet, placement and retired replica, the marks, the next
 * replica id and the first choice; texts and keys as `=` and their bytes in hexadecimal, `-` where absent. NONE:
 * behind the last line. */
uint64_t lupinadze_dump(const uint8_t *store, size_t store_bytes, uint64_t line, uint8_t *out, size_t out_bytes);

/* The row of a node, a tablet, a tablet's placement, a retired replica, as the tape has it behind the command's byte:
 * gives its width, and writes it to the start of the list. NONE: there is no such row. */
uint64_t lupinadze_node(const uint8_t *store, size_t store_bytes, uint64_t node,
                        uint8_t *out, size_t out_bytes);
uint64_t lupinadze_tablet(const uint8_t *store, size_t store_bytes, uint64_t tablet,
                          uint8_t *out, size_t out_bytes);
uint64_t lupinadze_placement(const uint8_t *store, size_t store_bytes, uint64_t tablet,
                             uint8_t *out, size_t out_bytes);
uint64_t lupinadze_retirement(const uint8_t *store, size_t store_bytes, uint64_t group, uint64_t replica,
                              uint8_t *out, size_t out_bytes);

/* The replica id above all that were wanted: gives 1, and writes it to the first number of the list. NONE: the numbers
 * are at their end. */
uint64_t lupinadze_next_replica_id(const uint8_t *store, size_t store_bytes, uint64_t *out, size_t out_numbers);

/* 1 where the table has as many tablets as its tablet count, else 0, also where there is no such table. */
uint64_t lupinadze_is_complete(const uint8_t *store, size_t store_bytes, uint64_t table);

/* The first choice: gives how many Active nodes are chosen, 0 to 3, and writes seven numbers to the start of the list:
 * the nodes in the order of choice, 0 for an unfilled place, then its policy, which is replication factor and the
 * minima of distinct regions, zones and racks (it has no class and no leaders). */
uint64_t lupinadze_initial_placement(const uint8_t *store, size_t store_bytes, uint64_t *out, size_t out_numbers);

/* From which key on the range of `other`, a tablet's row as the tape has it behind the command's byte, overlaps that of
 * the stored tablet which answer 24 names: gives the key's length, 0 to 32, and writes its bytes to the start of the
 * list. Tables and kinds are not asked; a Hash tablet's two empty keys are the range of all keys. What stands behind a
 * row in `other` is not read. NONE: they do not overlap, or no such tablet is stored. SHORT: also where `other` has
 * fewer bytes than a row. */
uint64_t lupinadze_overlap_start(const uint8_t *store, size_t store_bytes, uint64_t tablet,
                                 const uint8_t *other, size_t other_bytes,
                                 uint8_t *out, size_t out_bytes);

#ifdef __cplusplus
}
#endif

#endif
