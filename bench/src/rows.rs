//! The command sequences that are timed. A row is the part of a tape behind `before`.

use std::ops::RangeInclusive;

use oracle::generate::encode;
use oracle::generate::{self, Kind};
use oracle::handlers;
use oracle::model::{NodeRow, Part, PlacementRow, TabletRow};
use oracle::tape::{Next, Reader};

pub struct Row {
    pub name: String,
    pub before: Vec<u8>,
    pub timed: Vec<u8>,
    /// The number of the answer that every timed command gets.
    pub answer: u64,
}

const APPLIED: u64 = 0;
const ALREADY: u64 = 1;
const PICKED: u64 = 2;

/// How often a command that changes nothing is repeated.
const REPEATS: usize = 200;

const HASHED: u64 = 1;
const RANGED: u64 = 2;

fn opening() -> Vec<u8> {
    encode::opening(2, &[(HASHED, 64), (RANGED, 64)])
}

fn named() -> Vec<u8> {
    [opening(), naming()].concat()
}

fn naming() -> Vec<u8> {
    encode::naming(b"multispectral plates")
}

/// Four regions, eight zones, sixteen racks.
fn node(id: u64) -> Vec<u8> {
    node_at(id, id)
}

fn node_at(id: u64, address: u64) -> Vec<u8> {
    let row = NodeRow {
        endpoints: ["raft", "snapshot", "sql", "admin"]
            .map(|service| format!("{service}.node-{address}.plates.example:7000").into_bytes()),
        labels: [("region", 4), ("zone", 8), ("rack", 16)]
            .map(|(kind, count)| Some(format!("{kind}-{}", id % count).into_bytes())),
        class: b"ssd".to_vec(),
        lifecycle: 0,
    };
    encode::node(id, &row)
}

fn hash_bucket(id: u64, bucket: u32) -> Vec<u8> {
    let row = TabletRow {
        table: HASHED,
        group: 100 + id,
        epoch: 1,
        part: Part::Hash(bucket, 64),
    };
    encode::tablet(id, &row)
}

fn hash(id: u64) -> Vec<u8> {
    hash_bucket(id, id as u32 - 1)
}

fn range_from(id: u64, from: u64) -> Vec<u8> {
    let key = |at: u64| format!("papyrus/{at:04}/band").into_bytes();
    let row = TabletRow {
        table: RANGED,
        group: 100 + id,
        epoch: 1,
        part: Part::Range(key(from), key(from + 1)),
    };
    encode::tablet(id, &row)
}

fn range(id: u64) -> Vec<u8> {
    range_from(id, id)
}

/// Tablet 1 on the first nodes, one of which is preferred. The next epoch has the same replicas on the same
/// nodes in another order.
fn placement(replicas: u64, epoch: u64) -> Vec<u8> {
    let turned = |place: u64| (place + epoch) % replicas + 1;
    let row = PlacementRow {
        epoch,
        replicas: (0..replicas)
            .map(|place| (turned(place), turned(place), 0))
            .collect(),
        factor: replicas as u32,
        minima: [2, 2, 2],
        class: Some(b"ssd".to_vec()),
        leaders: vec![1],
    };
    encode::placement(1, &row)
}

fn retirement(replica: u64) -> Vec<u8> {
    encode::retirement(101, 1000 + replica, [1, 7, 40 + replica, 3])
}

fn many(ids: RangeInclusive<u64>, command: impl Fn(u64) -> Vec<u8>) -> Vec<u8> {
    ids.flat_map(command).collect()
}

fn row(name: String, before: Vec<u8>, timed: Vec<u8>, answer: u64) -> Row {
    Row {
        name,
        before,
        timed,
        answer,
    }
}

fn repeated(name: &str, before: Vec<u8>, command: Vec<u8>, answer: u64) -> Row {
    row(name.to_string(), before, command.repeat(REPEATS), answer)
}

fn ordinal(number: u64) -> String {
    match number {
        1 => "1st".to_string(),
        32 => "32nd".to_string(),
        number => format!("{number}th"),
    }
}

/// Rows at several fills of one table. Behind many rows one command more is lost in the noise, so the last
/// eighth of them is timed together.
fn fills(name: &str, before: &[u8], numbers: &[u64], command: fn(u64) -> Vec<u8>) -> Vec<Row> {
    numbers
        .iter()
        .map(|last| {
            let first = last - (last / 8).max(1) + 1;
            let name = match first == *last {
                true => format!("{name}, {}", ordinal(*last)),
                false => format!("{name}, {} to {}", ordinal(first), ordinal(*last)),
            };
            let before = [before, &many(1..=first - 1, command)].concat();
            row(name, before, many(first..=*last, command), APPLIED)
        })
        .collect()
}

/// One command, by the number of rows that its table has with it.
pub fn by_fill() -> Vec<Row> {
    let named = named();
    let placed = [named.clone(), many(1..=3, node), hash(1), placement(3, 1)].concat();
    let mut rows = fills("registering", &named, &[1, 8, 16, 32], node);
    rows.extend(fills("tablet, Hash", &named, &[1, 16, 64], hash));
    rows.extend(fills("tablet, Range", &named, &[1, 16, 64], range));
    rows.extend(fills("retirement", &placed, &[1, 64, 256], retirement));
    rows
}

/// Commands whose cost hangs on more than one table, and those that change nothing. The oracle copies its
/// store before a command that may find no room, so one row is left free where it would.
pub fn by_command() -> Vec<Row> {
    let named = named();
    let nodes = |count| [named.clone(), many(1..=count, node)].concat();
    let ready = [nodes(8), hash(1)].concat();
    let placed = |replicas| [ready.clone(), placement(replicas, 1)].concat();
    let leaving = [placed(3), encode::lifecycle(1, 1), encode::lifecycle(1, 2)].concat();
    let hashes = [named.clone(), many(1..=63, hash)].concat();
    let ranges = [named.clone(), many(1..=63, range)].concat();
    let retired = [placed(3), many(1..=255, retirement)].concat();
    let drained = |id| encode::lifecycle(id, 1);
    let replaced = |replicas| {
        (2..=101)
            .flat_map(|epoch| placement(replicas, epoch))
            .collect()
    };
    let row = |name: &str, before, timed, answer| row(name.to_string(), before, timed, answer);
    vec![
        row("naming", opening(), naming(), APPLIED),
        repeated("naming again", named.clone(), naming(), ALREADY),
        repeated("registering again, 31 nodes", nodes(31), node(31), ALREADY),
        repeated(
            "registering, endpoint of the 31st node",
            nodes(31),
            node_at(40, 31),
            14,
        ),
        row(
            "lifecycle, each of 32 nodes",
            nodes(32),
            many(1..=32, drained),
            APPLIED,
        ),
        repeated(
            "lifecycle again, 32 nodes",
            nodes(32),
            encode::lifecycle(32, 0),
            ALREADY,
        ),
        repeated(
            "lifecycle, a copy stands there",
            leaving,
            encode::lifecycle(1, 3),
            16,
        ),
        repeated("tablet again, 63 Hash", hashes.clone(), hash(63), ALREADY),
        repeated(
            "tablet, bucket taken, 63 Hash",
            hashes,
            hash_bucket(100, 62),
            22,
        ),
        repeated("tablet again, 63 Range", ranges.clone(), range(63), ALREADY),
        repeated(
            "tablet, overlaps the 63rd Range",
            ranges,
            range_from(100, 63),
            24,
        ),
        row(
            "placement, first, 3 replicas",
            ready.clone(),
            placement(3, 1),
            APPLIED,
        ),
        row(
            "placement, first, 7 replicas",
            ready.clone(),
            placement(7, 1),
            APPLIED,
        ),
        row(
            "placement, replacing, 3 replicas",
            placed(3),
            replaced(3),
            APPLIED,
        ),
        row(
            "placement, replacing, 7 replicas",
            placed(7),
            replaced(7),
            APPLIED,
        ),
        repeated(
            "placement again, 3 replicas",
            placed(3),
            placement(3, 1),
            ALREADY,
        ),
        repeated(
            "placement again, 7 replicas",
            placed(7),
            placement(7, 1),
            ALREADY,
        ),
        repeated(
            "placement, wrong epoch, 7 replicas",
            placed(7),
            placement(7, 9),
            32,
        ),
        repeated(
            "retirement again, 255 retired",
            retired.clone(),
            retirement(255),
            ALREADY,
        ),
        repeated(
            "retirement, still desired, 255 retired",
            retired,
            encode::retirement(101, 1, [1, 7, 40, 3]),
            36,
        ),
        repeated("pick, 32 labelled nodes", nodes(32), encode::pick(), PICKED),
    ]
}

/// Commands on a store that lives between calls: each is one call, or a part of one.
pub struct CallRow {
    pub name: &'static str,
    /// The opening, and the commands that came before.
    pub before: Vec<u8>,
    pub commands: Vec<Vec<u8>>,
    /// The number of the answer that every command gets.
    pub answer: u64,
}

/// Tables beyond the two: as many as there is room for.
const MORE_TABLES: RangeInclusive<u64> = 3..=16;

/// How many of the full store's tablets are buckets; the others are ranges.
const BUCKETS: u64 = 32;

/// An opening alone, with as many tables as there is room for.
pub fn empty_store() -> Vec<u8> {
    let more = MORE_TABLES.map(|id| (id, 1));
    let tables: Vec<(u64, u32)> = [(HASHED, BUCKETS as u32), (RANGED, 64)]
        .into_iter()
        .chain(more)
        .collect();
    encode::opening(2, &tables)
}

/// No table has room for a row more.
pub fn full_store() -> Vec<u8> {
    let retired = |tablet: u64| (1..=4).flat_map(move |replica| full_retirement(tablet, replica));
    [
        empty_store(),
        naming(),
        many(1..=32, node),
        many(1..=64, full_tablet),
        many(1..=64, |tablet| full_placement(tablet, 1)),
        (1..=64).flat_map(retired).collect(),
    ]
    .concat()
}

fn full_tablet(id: u64) -> Vec<u8> {
    if id > BUCKETS {
        return range(id);
    }
    let row = TabletRow {
        table: HASHED,
        group: 100 + id,
        epoch: 1,
        part: Part::Hash(id as u32 - 1, BUCKETS as u32),
    };
    encode::tablet(id, &row)
}

/// Three replicas on nodes that follow each other, in an order that the epoch turns.
fn full_placement(tablet: u64, epoch: u64) -> Vec<u8> {
    let replica = |place: u64| (place + epoch) % 3 + 1;
    let row = PlacementRow {
        epoch,
        replicas: (0..3)
            .map(|place| (replica(place), (tablet + replica(place)) % 32 + 1, 0))
            .collect(),
        factor: 3,
        minima: [2, 2, 2],
        class: Some(b"ssd".to_vec()),
        leaders: vec![1],
    };
    encode::placement(tablet, &row)
}

fn full_retirement(tablet: u64, replica: u64) -> Vec<u8> {
    encode::retirement(100 + tablet, 1000 + replica, [1, 7, 40 + replica, 3])
}

/// On a store that has an opening alone, and on one that has no room left. Commands that change nothing are repeated.
pub fn by_call() -> Vec<CallRow> {
    let empty = [empty_store(), naming()].concat();
    let full = full_store();
    let row = |name, before: &Vec<u8>, commands, answer| CallRow {
        name,
        before: before.clone(),
        commands,
        answer,
    };
    let again = |command: Vec<u8>| vec![command; REPEATS];
    let drained = (1..=32).map(|id| encode::lifecycle(id, 1)).collect();
    let replaced = (2..=101).map(|epoch| full_placement(64, epoch)).collect();
    vec![
        row(
            "empty: naming, first",
            &empty_store(),
            vec![naming()],
            APPLIED,
        ),
        row("empty: naming again", &empty, again(naming()), ALREADY),
        row("empty: registering, first", &empty, vec![node(1)], APPLIED),
        row(
            "empty: lifecycle, no such node",
            &empty,
            again(encode::lifecycle(1, 1)),
            17,
        ),
        row("empty: tablet, first", &empty, vec![range(33)], APPLIED),
        row(
            "empty: placement, no such tablet",
            &empty,
            again(full_placement(1, 1)),
            25,
        ),
        row(
            "empty: retirement, no such group",
            &empty,
            again(full_retirement(1, 1)),
            35,
        ),
        row("empty: pick, no node", &empty, again(encode::pick()), 38),
        row("full: naming again", &full, again(naming()), ALREADY),
        row("full: registering again", &full, again(node(32)), ALREADY),
        row(
            "full: registering, endpoint taken",
            &full,
            again(node_at(40, 32)),
            14,
        ),
        row("full: lifecycle, each of 32 nodes", &full, drained, APPLIED),
        row(
            "full: lifecycle again",
            &full,
            again(encode::lifecycle(32, 0)),
            ALREADY,
        ),
        row(
            "full: tablet again, Hash",
            &full,
            again(full_tablet(BUCKETS)),
            ALREADY,
        ),
        row(
            "full: tablet again, Range",
            &full,
            again(full_tablet(64)),
            ALREADY,
        ),
        row(
            "full: tablet, overlaps the last",
            &full,
            again(range_from(100, 64)),
            24,
        ),
        row("full: placement, replacing", &full, replaced, APPLIED),
        row(
            "full: placement again",
            &full,
            again(full_placement(64, 1)),
            ALREADY,
        ),
        row(
            "full: placement, wrong epoch",
            &full,
            again(full_placement(64, 9)),
            32,
        ),
        row(
            "full: retirement again",
            &full,
            again(full_retirement(64, 4)),
            ALREADY,
        ),
        row(
            "full: retirement, still desired",
            &full,
            again(encode::retirement(164, 1, [1, 7, 40, 3])),
            36,
        ),
        row("full: pick", &full, again(encode::pick()), PICKED),
    ]
}

/// A generated workload, its opening apart.
pub struct Workload {
    pub opening: Vec<u8>,
    pub commands: Vec<Vec<u8>>,
}

impl Workload {
    pub fn tape(&self) -> Vec<u8> {
        [&self.opening[..], &self.commands.concat()].concat()
    }
}

/// Generated workloads, without the commands that a handler alone is not to be given: those not admitted and
/// those that find no room. With `spare`, also without every command on a full table, before which the oracle
/// copies its store.
pub fn mixed(seeds: RangeInclusive<u64>, spare: bool) -> Vec<Workload> {
    seeds.map(|seed| workload(seed, spare)).collect()
}

fn workload(seed: u64, spare: bool) -> Workload {
    let parts = generate::tape(Kind::Deep, seed);
    let mut state = handlers::open(&mut Reader::new(&parts.opening))
        .unwrap_or_else(|answer| panic!("seed {seed}: {answer:?}"));
    let mut commands = parts.commands;
    commands.retain(|bytes| {
        let Next::Command(_, command) = Reader::new(bytes).next() else {
            panic!("seed {seed}: a command is not whole");
        };
        if spare && handlers::full_table(&state, &command).is_some() {
            return false;
        }
        ![10, 39].contains(&handlers::judge(&mut state, &command).number)
    });
    Workload {
        opening: parts.opening,
        commands,
    }
}
