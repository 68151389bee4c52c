//! Sound stores that no opening and no command gives, with the answers that document 01 gives.

use super::bases::{Base, hash, key, node_row, placement, range, tablet_of};
use super::{Cases, long, mark};
use crate::blocks::{
    MARKS, NAME, NODES, PLACEMENTS, REPLICA_WIDTH, REPLICAS, RETIREMENTS, TABLES, TABLETS,
};
use crate::generate::encode;
use crate::model::Part;

const APPLIED: [u64; 4] = [0; 4];
const ALREADY: [u64; 4] = [1, 0, 0, 0];

/// Where rows stand.
fn node(row: usize) -> usize {
    NODES.row(row).start
}

fn lifecycle(row: usize) -> usize {
    node(row) + 304
}

fn tablet(row: usize) -> usize {
    TABLETS.row(row).start
}

fn stored(row: usize) -> usize {
    PLACEMENTS.row(row).start
}

fn replica(row: usize, place: usize) -> usize {
    stored(row) + REPLICAS + REPLICA_WIDTH * place
}

fn retire(group: u64, number: u64, epoch: u64) -> Vec<u8> {
    encode::retirement(group, number, [epoch, 7, 8, 9])
}

pub fn of_placements(cases: &mut Cases, three: &Base) {
    let last_epoch = vec![(stored(0) + 8, long(u64::MAX))];
    let commands = vec![
        (placement(10, 1, &[(1, 10, 0)]), [31, 10, 0, 0]),
        (placement(10, 0, &[(1, 20, 0)]), [31, 10, 0, 0]),
        (placement(10, 0, &[(1, 40, 0)]), [17, 40, 0, 0]),
        (retire(110, 99, 1), [32, 10, u64::MAX, 1]),
        (retire(110, 99, u64::MAX), APPLIED),
    ];
    cases.answered(three, "a stored epoch of 2^64 - 1", last_epoch, commands);

    let twice = vec![(replica(0, 1), long(1)), (replica(0, 1) + 16, vec![1])];
    let commands = vec![
        (placement(10, 2, &[(1, 10, 0)]), [33, 1, 20, 10]),
        (placement(10, 2, &[(1, 20, 1)]), APPLIED),
    ];
    cases.answered(
        three,
        "a replica number twice: the last is the old one",
        twice,
        commands,
    );

    let none = vec![(stored(1) + 16, vec![0; 120])];
    let commands = vec![
        (retire(130, 4, 1), APPLIED),
        (placement(20, 2, &[(4, 20, 0)]), [28, 130, 4, 0]),
        (placement(20, 2, &[(5, 20, 0)]), APPLIED),
    ];
    cases.answered(three, "a placement without replicas", none, commands);

    let odd = vec![
        (stored(0) + 136, vec![255; 16]),
        (replica(0, 0) + 16, vec![255]),
    ];
    let commands = vec![
        (
            placement(10, 1, &[(1, 10, 0), (2, 20, 0), (3, 30, 0)]),
            [32, 10, 2, 1],
        ),
        (placement(10, 2, &[(1, 10, 1)]), APPLIED),
    ];
    cases.answered(
        three,
        "a policy and a role that no admission lets through",
        odd,
        commands,
    );

    let limit = vec![mark(3, u64::MAX)];
    let commands = vec![(placement(10, 2, &[(u64::MAX, 10, 0)]), APPLIED)];
    cases.answered(three, "the replica mark at its limit", limit, commands);
}

pub fn of_tablets(cases: &mut Cases, three: &Base) {
    let group = vec![(tablet(1) + 16, long(110))];
    let commands = vec![
        (retire(110, 1, 1), [36, 110, 1, 0]),
        (retire(110, 4, 2), [32, 10, 1, 2]),
        (retire(110, 4, 1), APPLIED),
        (retire(130, 4, 1), [35, 130, 0, 0]),
        (placement(20, 2, &[(4, 20, 0)]), [28, 110, 4, 0]),
        (tablet_of(40, 30, 110, Part::Hash(0, 3)), [19, 110, 0, 0]),
    ];
    cases.answered(
        three,
        "two tablets of one group: the first is the group's",
        group,
        commands,
    );

    let kinds = vec![(tablet(0) + 32, vec![2]), (tablet(1) + 32, vec![255])];
    let commands = vec![
        (hash(40, 10, 0, 2), APPLIED),
        (hash(41, 10, 1, 2), [23, 10, 2, 0]),
        (range(42, 20, b"a", b"m"), APPLIED),
        (range(43, 20, b"a", b""), [24, 30, 0, 0]),
        (hash(10, 10, 0, 2), [18, 10, 0, 0]),
    ];
    cases.answered(
        three,
        "a partition kind above 1 counts, and overlaps nothing",
        kinds,
        commands,
    );

    let operands = vec![
        (tablet(0) + 41, key(b"k")),
        (tablet(1) + 33, vec![1, 0, 0, 0]),
    ];
    let commands = vec![
        (tablet_of(10, 10, 110, Part::Hash(0, 2)), [18, 10, 0, 0]),
        (hash(40, 10, 0, 2), [22, 10, 0, 0]),
        (hash(40, 20, 1, 4), APPLIED),
        (range(41, 20, b"c", b"e"), [24, 20, 0, 0]),
    ];
    cases.answered(three, "operands of the other kind", operands, commands);

    let falling = vec![(tablet(1) + 41, key(&[5])), (tablet(1) + 74, key(&[3]))];
    let commands = vec![
        (range(40, 20, &[1], &[2]), APPLIED),
        (range(41, 20, &[2], &[9]), [24, 20, 0, 0]),
        (range(42, 20, &[3], &[5]), APPLIED),
        (range(43, 20, &[5], &[6]), APPLIED),
    ];
    cases.answered(
        three,
        "a range whose end lies below its start",
        falling,
        commands,
    );

    let moved = vec![
        (tablet(0), long(11)),
        (tablet(1), long(21)),
        (tablet(2), long(31)),
        (MARKS + 8, long(31)),
        (lifecycle(0), vec![2]),
    ];
    let commands = vec![
        (encode::lifecycle(10, 3), APPLIED),
        (encode::lifecycle(10, 4), APPLIED),
        (placement(10, 2, &[(1, 10, 0)]), [25, 10, 0, 0]),
        (retire(110, 51, 1), ALREADY),
        (retire(110, 1, 1), [25, 11, 0, 0]),
    ];
    cases.answered(
        three,
        "copies in placements without a tablet",
        moved,
        commands,
    );
}

pub fn of_the_rest(cases: &mut Cases, three: &Base) {
    let decommissioned = vec![(lifecycle(0), vec![3])];
    let commands = vec![
        (encode::lifecycle(10, 4), [16, 10, 110, 1]),
        (encode::lifecycle(10, 3), ALREADY),
        (encode::lifecycle(10, 2), [15, 10, 3, 2]),
    ];
    cases.answered(
        three,
        "a copy on a node that is Decommissioned",
        decommissioned,
        commands,
    );

    let above = vec![(lifecycle(0), vec![255]), (lifecycle(1), vec![5])];
    let commands = vec![
        (encode::lifecycle(10, 0), [15, 10, 255, 0]),
        (encode::lifecycle(20, 4), [15, 20, 5, 4]),
        (placement(10, 2, &[(1, 10, 0)]), [26, 10, 255, 0]),
        (encode::pick(), [2, 30, 0, 0]),
    ];
    cases.answered(three, "lifecycles above 4", above, commands);

    let zero = vec![
        (node(0), long(0)),
        (TABLES.row(0).start, long(0)),
        (tablet(0), long(0)),
        (stored(0), long(0)),
        (RETIREMENTS.row(0).start, [long(0), long(0)].concat()),
    ];
    let commands = vec![
        (encode::pick(), [2, 0, 20, 30]),
        (encode::lifecycle(0, 1), [10, 1, 0, 0]),
        (encode::lifecycle(20, 1), APPLIED),
        (encode::lifecycle(20, 2), APPLIED),
        (encode::lifecycle(20, 3), [16, 20, 110, 2]),
    ];
    cases.answered(three, "ids of 0", zero, commands);

    let empty = vec![
        (TABLES.row(2).start + 8, vec![0; 4]),
        (node(0) + 8, [vec![2], vec![0; 48]].concat()),
    ];
    let commands = vec![
        (hash(40, 30, 0, 1), [21, 30, 0, 1]),
        (range(40, 30, b"", b""), APPLIED),
        (encode::node(10, &node_row(10)), [13, 10, 0, 0]),
    ];
    cases.answered(
        three,
        "a tablet count of 0, and an endpoint of two zeros",
        empty,
        commands,
    );

    let name = vec![(NAME.at, [vec![1, 0], vec![0; 47]].concat())];
    let commands = vec![
        (encode::naming(b"plates"), [12, 0, 0, 0]),
        (encode::lifecycle(10, 0), ALREADY),
    ];
    cases.answered(three, "a name of bytes that no naming has", name, commands);
}

pub fn of_full_tables(cases: &mut Cases, full: &Base) {
    let elsewhere = vec![(stored(0), long(5))];
    let commands = vec![
        (placement(10, 1, &[(900, 10, 0)]), [39, 1, 64, 0]),
        (placement(10, 2, &[(900, 10, 0)]), [30, 10, 2, 0]),
        (placement(10, 1, &[(900, 11, 0)]), [17, 11, 0, 0]),
        (placement(20, 2, &[(900, 20, 0)]), APPLIED),
    ];
    cases.answered(
        full,
        "64 placements, one of a tablet that is not there",
        elsewhere,
        commands,
    );
}
