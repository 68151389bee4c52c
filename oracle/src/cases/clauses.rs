//! Each clause of reason 12 at its limit and one past it.

use super::bases::Base;
use super::{Cases, long, mark};
use crate::blocks::{
    self, Clause, LEADER_COUNT, LEADERS, MARKS, NAME, PLACEMENTS, PLACES, REPLICA_COUNT,
    REPLICA_WIDTH, REPLICAS, RETIREMENTS, TABLES, TABLETS, Table, TextPlace,
};
use crate::model;

pub fn of_zeros(cases: &mut Cases, zeros: &Base) {
    cases.sound(zeros, "as they are", vec![]);
    texts(cases, zeros, "the directory", 0, &NAME);
    cases.lengths(zeros);
    for table in blocks::ALL {
        behind(cases, zeros, &table);
    }
}

pub fn of_three_rows(cases: &mut Cases, three: &Base) {
    cases.sound(three, "as it is", vec![]);
    cases.lengths(three);
    texts(cases, three, "the directory", 0, &NAME);
    for table in blocks::ALL {
        behind(cases, three, &table);
        order(cases, three, &table, 1);
        order(cases, three, &table, three.last(&table));
        for row in [0, three.last(&table)] {
            for text in table.texts() {
                let start = table.row(row).start;
                texts(
                    cases,
                    three,
                    &format!("{}, row {row}", table.name),
                    start,
                    &text,
                );
            }
        }
    }
    for row in [0, three.last(&PLACEMENTS)] {
        places(cases, three, row);
    }
    marks_of_three_rows(cases, three);
}

/// A text that stands behind `start`: its length, and the bytes behind it.
fn texts(cases: &mut Cases, base: &Base, place: &str, start: usize, text: &TextPlace) {
    let at = start + text.at;
    let width = text.width;
    let name = |what: &str| format!("{place}, {}: {what}", text.name);
    let whole = |length: usize, field: Vec<u8>| vec![(at, [vec![length as u8], field].concat())];
    // The byte at a place of the field, and zeros else.
    let one = |place: usize| {
        let mut field = vec![0; width];
        field[place] = 1;
        field
    };
    let room = Clause::TextRoom(*text);
    let padding = Clause::TextPadding(*text);
    cases.sound(
        base,
        name(&format!("{width} bytes")),
        whole(width, vec![b'x'; width]),
    );
    cases.breaks(
        base,
        name(&format!("length {}", width + 1)),
        whole(width + 1, vec![b'x'; width]),
        room,
    );
    cases.breaks(base, name("length 254"), whole(254, vec![0; width]), room);
    match text.optional {
        true => {
            cases.sound(base, name("absent"), whole(255, vec![0; width]));
            cases.breaks(
                base,
                name("absent, first byte"),
                whole(255, one(0)),
                padding,
            );
            cases.breaks(
                base,
                name("absent, last byte"),
                whole(255, one(width - 1)),
                padding,
            );
        }
        false => cases.breaks(base, name("length 255"), whole(255, vec![0; width]), room),
    }
    cases.sound(base, name("no bytes"), whole(0, vec![0; width]));
    cases.breaks(
        base,
        name("no bytes, first byte"),
        whole(0, one(0)),
        padding,
    );
    cases.sound(base, name("3 bytes, the last of them"), whole(3, one(2)));
    cases.breaks(
        base,
        name("3 bytes, the first behind"),
        whole(3, one(3)),
        padding,
    );
    cases.breaks(
        base,
        name("3 bytes, the last of the field"),
        whole(3, one(width - 1)),
        padding,
    );
    cases.breaks(
        base,
        name(&format!("{} bytes and one", width - 1)),
        whole(width - 1, vec![b'x'; width]),
        padding,
    );
}

/// The first and the last byte behind the rows in use, and a row that the count leaves out.
fn behind(cases: &mut Cases, base: &Base, table: &Table) {
    let clause = Clause::RowPadding(*table);
    let used = table.used(&base.block);
    let name = |what: &str| format!("{}: {what}", table.name);
    let first = table.row(used).start;
    cases.breaks(
        base,
        name("first byte behind the rows"),
        vec![(first, vec![1])],
        clause,
    );
    cases.breaks(
        base,
        name("last byte behind the rows"),
        vec![(table.part().end - 1, vec![1])],
        clause,
    );
    if used > 0 {
        cases.breaks(
            base,
            name("one row fewer"),
            vec![(table.at, long(used as u64 - 1))],
            clause,
        );
    }
}

/// The key of a row against that of the row before it.
fn order(cases: &mut Cases, base: &Base, table: &Table, row: usize) {
    let clause = Clause::Rising(*table);
    let [before, at] = [row - 1, row].map(|row| table.row(row).start);
    let name = |what: &str| format!("{}, row {row}: {what}", table.name);
    let id = model::long(&base.block, before);
    if *table == RETIREMENTS {
        let replica = model::long(&base.block, before + 8);
        let key = |group: u64, replica: u64| vec![(at, [long(group), long(replica)].concat())];
        cases.sound(
            base,
            name("the same group, replica one above"),
            key(id, replica + 1),
        );
        cases.breaks(base, name("the same key"), key(id, replica), clause);
        cases.breaks(
            base,
            name("the same group, replica one below"),
            key(id, replica - 1),
            clause,
        );
        cases.breaks(
            base,
            name("group one below"),
            key(id - 1, replica + 1),
            clause,
        );
        return;
    }
    cases.sound(base, name("id one above"), vec![(at, long(id + 1))]);
    cases.breaks(base, name("the same id"), vec![(at, long(id))], clause);
    cases.breaks(base, name("id one below"), vec![(at, long(id - 1))], clause);
}

/// The counts of replicas and leaders, the places behind them, and a node twice.
fn places(cases: &mut Cases, base: &Base, row: usize) {
    let at = PLACEMENTS.row(row).start;
    let name = |what: &str| format!("placements, row {row}: {what}");
    let replica = |number: usize| at + REPLICAS + REPLICA_WIDTH * number;
    let leader = |number: usize| at + LEADERS + 8 * number;
    // Places with replica 1 on nodes 1, 2 and so on, and zeros behind.
    let replicas = |count: usize, nodes: &[u64]| {
        let mut bytes = vec![count as u8];
        for node in nodes {
            bytes.extend([long(1), long(*node), vec![1]].concat());
        }
        bytes.resize(1 + REPLICA_WIDTH * PLACES, 0);
        (at + REPLICA_COUNT, bytes)
    };
    let leaders = |count: usize, used: usize| {
        let mut bytes = vec![count as u8];
        bytes.extend(vec![9; 8 * used]);
        bytes.resize(1 + 8 * PLACES, 0);
        (at + LEADER_COUNT, bytes)
    };
    let seven = [1, 2, 3, 4, 5, 6, 7];
    cases.sound(base, name("7 replicas"), vec![replicas(7, &seven)]);
    for count in [8, 255] {
        let patches = vec![replicas(count, &seven)];
        cases.breaks(
            base,
            name(&format!("replica count {count}")),
            patches,
            Clause::ReplicaRoom,
        );
    }
    cases.sound(base, name("no replicas"), vec![replicas(0, &[])]);
    for (used, unused, what) in [
        (0, 0, "no replicas"),
        (2, 2, "2 replicas"),
        (6, 6, "6 replicas"),
        (2, 6, "2 replicas"),
    ] {
        for (byte, of) in [(0, "first byte"), (8, "node"), (REPLICA_WIDTH - 1, "role")] {
            let patches = vec![
                replicas(used, &seven[..used]),
                (replica(unused) + byte, vec![1]),
            ];
            let name = name(&format!("{what}, {of} of place {unused}"));
            cases.breaks(base, name, patches, Clause::ReplicaPadding);
        }
    }
    cases.sound(base, name("7 leaders"), vec![leaders(7, 7)]);
    for count in [8, 255] {
        let patches = vec![leaders(count, 7)];
        cases.breaks(
            base,
            name(&format!("leader count {count}")),
            patches,
            Clause::LeaderRoom,
        );
    }
    cases.sound(base, name("no leaders"), vec![leaders(0, 0)]);
    for (used, unused) in [(0, 0), (6, 6), (1, 6)] {
        for byte in [0, 7] {
            let patches = vec![leaders(used, used), (leader(unused) + byte, vec![1])];
            let name = name(&format!("{used} leaders, byte {byte} of place {unused}"));
            cases.breaks(base, name, patches, Clause::LeaderPadding);
        }
    }
    let twice = [
        (vec![1, 1], "places 0 and 1"),
        (vec![1, 2, 3, 4, 5, 6, 1], "places 0 and 6"),
        (vec![1, 2, 3, 4, 5, 6, 6], "places 5 and 6"),
        (vec![0, 0], "places 0 and 1, node 0"),
    ];
    for (nodes, what) in twice {
        let patches = vec![replicas(nodes.len(), &nodes)];
        cases.breaks(
            base,
            name(&format!("a node twice, {what}")),
            patches,
            Clause::NodeTwice,
        );
    }
    let apart = vec![replicas(2, &[1, 1 + (1 << 56)])];
    cases.sound(base, name("two nodes that differ in one byte"), apart);
    cases.sound(
        base,
        name("a replica and node 0 in one place"),
        vec![replicas(1, &[0])],
    );
}

const MARK_NAMES: [&str; 4] = ["table", "tablet", "group", "replica"];

/// Where the ids stand that a mark is not below, in a row of each table.
fn marked_id(which: usize, row: usize) -> usize {
    match which {
        0 => TABLES.row(row).start,
        1 => TABLETS.row(row).start,
        2 => TABLETS.row(row).start + 16,
        _ => PLACEMENTS.row(row).start + REPLICAS,
    }
}

pub fn marks_of_one_row(cases: &mut Cases, base: &Base) {
    for (which, mark_name) in MARK_NAMES.into_iter().enumerate() {
        let at = marked_id(which, 0);
        let id = model::long(&base.block, at);
        let name = |what: &str| format!("{mark_name} mark: {what}");
        let clause = Clause::Mark(which);
        cases.sound(base, name("the row's id"), vec![mark(which, id)]);
        cases.breaks(
            base,
            name("one below the row's id"),
            vec![mark(which, id - 1)],
            clause,
        );
        cases.breaks(base, name("0"), vec![mark(which, 0)], clause);
        let last = vec![(at, long(u64::MAX)), mark(which, u64::MAX)];
        cases.sound(base, name("2^64 - 1, the row's id too"), last);
        let above = vec![(at, long(u64::MAX)), mark(which, u64::MAX - 1)];
        cases.breaks(base, name("2^64 - 2, the row's id 2^64 - 1"), above, clause);
        let high = vec![(at, long(1 << 56)), mark(which, (1 << 56) - 1)];
        cases.breaks(base, name("2^56 - 1, the row's id 2^56"), high, clause);
    }
}

/// Ids at a mark and one above it, in the first and in the last row.
fn marks_of_three_rows(cases: &mut Cases, base: &Base) {
    for (which, mark_name) in MARK_NAMES.into_iter().enumerate() {
        let number = model::long(&base.block, MARKS + 8 * which);
        let clause = Clause::Mark(which);
        // Rows that rise by the id have the highest in the last.
        let rows = match which {
            0 | 1 => vec![2],
            _ => vec![0, 2],
        };
        if rows.len() == 1 {
            let first = model::long(&base.block, marked_id(which, 0));
            let below = vec![mark(which, first - 1)];
            let name = format!("{mark_name} mark: one below the first row's id");
            cases.breaks(base, name, below, clause);
        }
        for row in rows {
            let at = marked_id(which, row);
            let name = |what: &str| format!("{mark_name} mark, row {row}: {what}");
            cases.sound(base, name("id at the mark"), vec![(at, long(number))]);
            cases.breaks(
                base,
                name("id one above"),
                vec![(at, long(number + 1))],
                clause,
            );
        }
        cases.breaks(
            base,
            format!("{mark_name} mark: one lower"),
            vec![mark(which, number - 1)],
            clause,
        );
    }
    for row in [0, 2] {
        let used = base.block[PLACEMENTS.row(row).start + REPLICA_COUNT] as usize;
        let at = marked_id(3, row) + REPLICA_WIDTH * (used - 1);
        let number = model::long(&base.block, MARKS + 24);
        let name = |what: &str| format!("replica mark, row {row}, last place: {what}");
        cases.sound(base, name("id at the mark"), vec![(at, long(number))]);
        cases.breaks(
            base,
            name("id one above"),
            vec![(at, long(number + 1))],
            Clause::Mark(3),
        );
    }
}

/// Every table at its room, and one more.
pub fn rooms(cases: &mut Cases, base: &Base) {
    cases.sound(base, "every table at its room", vec![]);
    for table in blocks::ALL {
        let room = table.room as u64;
        let last = base.last(&table);
        let name = |what: &str| format!("{}: {what}", table.name);
        let over = Clause::Room(table);
        cases.breaks(
            base,
            name(&format!("{} rows", room + 1)),
            vec![(table.at, long(room + 1))],
            over,
        );
        cases.breaks(
            base,
            name("2^64 - 1 rows"),
            vec![(table.at, long(u64::MAX))],
            over,
        );
        cases.breaks(
            base,
            name("the highest byte of the count"),
            vec![(table.at + 7, vec![1])],
            over,
        );
        let fewer = vec![(table.at, long(room - 1))];
        cases.breaks(
            base,
            name("one row fewer"),
            fewer,
            Clause::RowPadding(table),
        );
        order(cases, base, &table, 1);
        order(cases, base, &table, last);
        for text in table.texts() {
            let at = table.row(last).start + text.at;
            let short = |byte: u8| {
                let mut bytes = vec![0; 1 + text.width];
                bytes[text.width] = byte;
                bytes[0] = text.width as u8 - 1;
                vec![(at, bytes)]
            };
            let name = |what: &str| name(&format!("row {last}, {}: {what}", text.name));
            cases.sound(base, name("last byte 0"), short(0));
            cases.breaks(
                base,
                name("last byte 1"),
                short(1),
                Clause::TextPadding(text),
            );
        }
    }
    for (which, mark_name) in MARK_NAMES.into_iter().enumerate() {
        let number = model::long(&base.block, MARKS + 8 * which);
        let name = format!("{mark_name} mark one lower");
        cases.breaks(
            base,
            name,
            vec![mark(which, number - 1)],
            Clause::Mark(which),
        );
    }
}
