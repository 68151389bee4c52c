//! The tapes whose stores are changed by hand.

use crate::blocks::{self, Table};
use crate::generate::encode;
use crate::model::{self, NodeRow, Part, PlacementRow, TabletRow};

/// A tape, and commands of every kind for what it leaves.
pub struct Base {
    pub name: &'static str,
    pub tape: Vec<u8>,
    pub block: Vec<u8>,
    pub commands: Vec<u8>,
}

impl Base {
    fn new(name: &'static str, tape: Vec<u8>, commands: Vec<u8>) -> Self {
        let (_, model) = model::run(&tape);
        Self {
            name,
            block: blocks::bytes(&model),
            tape,
            commands,
        }
    }

    pub fn last(&self, table: &Table) -> usize {
        table.used(&self.block) - 1
    }
}

pub fn node_row(id: u64) -> NodeRow {
    NodeRow {
        endpoints: ["raft", "snapshot", "sql", "admin"]
            .map(|service| format!("{service}.{id}:70").into_bytes()),
        labels: [
            Some(format!("r{}", id / 20).into_bytes()),
            None,
            Some(Vec::new()),
        ],
        class: b"ssd".to_vec(),
        lifecycle: 0,
    }
}

pub fn tablet_of(id: u64, table: u64, group: u64, part: Part) -> Vec<u8> {
    let row = TabletRow {
        table,
        group,
        epoch: 1,
        part,
    };
    encode::tablet(id, &row)
}

pub fn hash(id: u64, table: u64, bucket: u32, count: u32) -> Vec<u8> {
    tablet_of(id, table, 1000 + id, Part::Hash(bucket, count))
}

pub fn range(id: u64, table: u64, start: &[u8], end: &[u8]) -> Vec<u8> {
    tablet_of(
        id,
        table,
        1000 + id,
        Part::Range(start.to_vec(), end.to_vec()),
    )
}

/// A key as a row has it.
pub fn key(bytes: &[u8]) -> Vec<u8> {
    let mut key = vec![bytes.len() as u8];
    key.extend(bytes);
    key.resize(33, 0);
    key
}

/// No minima, no class, no leaders.
pub fn placement(tablet: u64, epoch: u64, replicas: &[(u64, u64, u8)]) -> Vec<u8> {
    led(tablet, epoch, replicas, &[])
}

pub fn led(tablet: u64, epoch: u64, replicas: &[(u64, u64, u8)], leaders: &[u64]) -> Vec<u8> {
    let row = PlacementRow {
        epoch,
        replicas: replicas.to_vec(),
        factor: replicas.len() as u32,
        minima: [0; 3],
        class: None,
        leaders: leaders.to_vec(),
    };
    encode::placement(tablet, &row)
}

/// Memory that was only cleared: no tape.
pub fn zeros(three: &Base) -> Base {
    Base::new("zeros", Vec::new(), three.commands.clone())
}

/// A row in each table.
pub fn one() -> Base {
    let tape = [
        encode::opening(2, &[(10, 2)]),
        encode::naming(b"plates"),
        encode::node(10, &node_row(10)),
        tablet_of(10, 10, 110, Part::Range(b"b".to_vec(), b"d".to_vec())),
        placement(10, 1, &[(5, 10, 0)]),
        encode::retirement(110, 51, [1, 7, 8, 9]),
    ];
    let commands = [
        encode::naming(b"plates"),
        encode::node(20, &node_row(20)),
        encode::lifecycle(10, 1),
        tablet_of(20, 10, 90, Part::Range(b"d".to_vec(), vec![])),
        placement(10, 2, &[(4, 20, 0)]),
        encode::retirement(110, 70, [2, 1, 1, 1]),
        encode::pick(),
    ];
    Base::new("one row", tape.concat(), commands.concat())
}

/// Three rows in each table.
pub fn three() -> Base {
    let part = |start: &[u8], end: &[u8]| Part::Range(start.to_vec(), end.to_vec());
    let tape = [
        encode::opening(2, &[(30, 3), (10, 2), (20, 4)]),
        encode::naming(b"plates"),
        encode::node(30, &node_row(30)),
        encode::node(10, &node_row(10)),
        encode::node(20, &node_row(20)),
        tablet_of(20, 20, 130, part(b"b", b"d")),
        tablet_of(10, 10, 110, Part::Hash(0, 2)),
        tablet_of(30, 20, 120, part(b"m", b"")),
        led(30, 1, &[(6, 30, 0), (7, 10, 1)], &[30]),
        led(10, 1, &[(1, 10, 0), (2, 20, 0), (3, 30, 0)], &[10, 20]),
        placement(20, 1, &[(4, 20, 0), (5, 10, 0)]),
        encode::retirement(110, 60, [1, 1, 1, 1]),
        encode::retirement(120, 53, [1, 2, 2, 2]),
        encode::retirement(110, 51, [1, 7, 8, 9]),
    ];
    let commands = [
        encode::naming(b"another"),
        encode::node(40, &node_row(40)),
        encode::lifecycle(10, 1),
        hash(40, 30, 0, 3),
        placement(20, 2, &[(4, 20, 0), (9, 30, 1)]),
        encode::retirement(110, 70, [1, 1, 1, 1]),
        encode::pick(),
    ];
    Base::new("three rows", tape.concat(), commands.concat())
}

/// Every table at its room.
pub fn full() -> Base {
    let tables: Vec<(u64, u32)> = (1..=16).map(|number| (10 * number, 200)).collect();
    let mut tape = vec![encode::opening(2, &tables), encode::naming(b"plates")];
    for number in 1..=32 {
        tape.push(encode::node(10 * number, &node_row(10 * number)));
    }
    for number in 1..=64 {
        let (id, group) = (10 * number, 100 + 10 * number);
        tape.push(tablet_of(id, 10, group, Part::Hash(number as u32, 200)));
        let host = 10 * (1 + (number - 1) % 32);
        tape.push(placement(id, 1, &[(number, host, 0)]));
        for replica in [200, 210, 220, 230] {
            tape.push(encode::retirement(group, replica, [1, number, 0, 0]));
        }
    }
    let commands = [
        encode::naming(b"plates"),
        encode::node(15, &node_row(15)),
        encode::lifecycle(320, 1),
        hash(15, 20, 0, 200),
        placement(10, 2, &[(1, 10, 0), (65, 30, 1)]),
        encode::retirement(110, 240, [2, 1, 1, 1]),
        encode::pick(),
    ];
    Base::new("full", tape.concat(), commands.concat())
}
