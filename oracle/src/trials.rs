//! Tapes written by hand with the lines that document 01 gives for them: its example, its trials at the
//! boundaries, the errors that it says a porter is drawn to, and openings.

use crate::generate::encode;
use crate::model::{NodeRow, Part, PlacementRow, TabletRow};

pub struct Trial {
    pub name: &'static str,
    pub tape: Vec<u8>,
    /// Answer and operands of each line; the line numbers are left off.
    pub answers: Vec<[u64; 4]>,
    /// The number of the first line.
    pub first: u64,
}

fn trial(name: &'static str, opening: Vec<u8>, commands: Vec<(Vec<u8>, [u64; 4])>) -> Trial {
    let (commands, answers): (Vec<_>, Vec<_>) = commands.into_iter().unzip();
    Trial {
        name,
        tape: [opening, commands.concat()].concat(),
        answers,
        first: 1,
    }
}

fn opening_trial(name: &'static str, tape: Vec<u8>, answer: [u64; 4]) -> Trial {
    Trial {
        name,
        tape,
        answers: vec![answer],
        first: 0,
    }
}

const APPLIED: [u64; 4] = [0, 0, 0, 0];
const ALREADY: [u64; 4] = [1, 0, 0, 0];

fn named() -> (Vec<u8>, [u64; 4]) {
    (encode::naming(b"plates"), APPLIED)
}

fn label(text: &str) -> Option<Vec<u8>> {
    (!text.is_empty()).then(|| text.as_bytes().to_vec())
}

/// A node with endpoints of its own; an empty label is absent.
fn node_row(id: u64, region: &str, zone: &str, rack: &str) -> NodeRow {
    NodeRow {
        endpoints: ["raft", "snapshot", "sql", "admin"]
            .map(|service| format!("{service}.{id}:7000").into_bytes()),
        labels: [label(region), label(zone), label(rack)],
        class: b"ssd".to_vec(),
        lifecycle: 0,
    }
}

fn node(id: u64, region: &str, zone: &str, rack: &str) -> (Vec<u8>, [u64; 4]) {
    (encode::node(id, &node_row(id, region, zone, rack)), APPLIED)
}

fn range(id: u64, table: u64, start: &str, end: &str) -> Vec<u8> {
    let row = TabletRow {
        table,
        group: 100 + id,
        epoch: 1,
        part: Part::Range(start.as_bytes().to_vec(), end.as_bytes().to_vec()),
    };
    encode::tablet(id, &row)
}

fn hash(id: u64, table: u64, bucket: u32, count: u32) -> Vec<u8> {
    let row = TabletRow {
        table,
        group: 100 + id,
        epoch: 1,
        part: Part::Hash(bucket, count),
    };
    encode::tablet(id, &row)
}

/// Voters only, no minima, no class, no leaders.
fn placement(tablet: u64, epoch: u64, replicas: &[(u64, u64)]) -> Vec<u8> {
    let row = PlacementRow {
        epoch,
        replicas: replicas.iter().map(|(id, host)| (*id, *host, 0)).collect(),
        factor: replicas.len() as u32,
        minima: [0; 3],
        class: None,
        leaders: Vec::new(),
    };
    encode::placement(tablet, &row)
}

pub fn trials() -> Vec<Trial> {
    let mut trials = vec![
        trial(
            "the example",
            encode::opening(1, &[(5, 2)]),
            vec![
                (encode::lifecycle(9, 1), [11, 0, 0, 0]),
                (encode::pick(), [38, 0, 0, 0]),
                (vec![255], [40, 1, 255, 0]),
            ],
        ),
        trial(
            "P1 to P5: ranges of two, one table each",
            encode::opening(2, &[(1, 1), (2, 1), (3, 1), (4, 1), (5, 1)]),
            vec![
                named(),
                (range(11, 1, "a", "c"), APPLIED),
                (range(12, 1, "c", "e"), APPLIED),
                (range(21, 2, "a", "c"), APPLIED),
                (range(22, 2, "b", ""), [24, 21, 0, 0]),
                (range(31, 3, "", ""), APPLIED),
                (range(32, 3, "z", ""), [24, 31, 0, 0]),
                (range(41, 4, "a", "b"), APPLIED),
                (range(42, 4, "", "a"), APPLIED),
                (range(51, 5, "a", "aa"), APPLIED),
                (range(52, 5, "aa", "b"), APPLIED),
                (range(13, 1, "", ""), [24, 11, 0, 0]),
                (range(10, 1, "d", ""), [24, 12, 0, 0]),
            ],
        ),
        trial(
            "P6: labels",
            encode::opening(2, &[]),
            vec![
                named(),
                node(1, "r1", "z1", ""),
                node(2, "r1", "z2", ""),
                node(3, "r2", "z3", "k1"),
                (encode::pick(), [2, 3, 1, 2]),
            ],
        ),
        trial(
            "P7: no labels",
            encode::opening(2, &[]),
            vec![
                named(),
                node(9, "", "", ""),
                node(8, "", "", ""),
                node(6, "", "", ""),
                node(4, "", "", ""),
                (encode::pick(), [2, 4, 6, 8]),
            ],
        ),
        trial(
            "P8 to P10: lifecycles",
            encode::opening(2, &[]),
            vec![
                named(),
                node(7, "", "", ""),
                (encode::pick(), [2, 7, 0, 0]),
                (encode::lifecycle(7, 2), [15, 7, 0, 2]),
                (encode::lifecycle(7, 0), ALREADY),
                (encode::lifecycle(7, 1), APPLIED),
                (encode::pick(), [38, 0, 0, 0]),
                (encode::lifecycle(8, 1), [17, 8, 0, 0]),
            ],
        ),
        trial(
            "P11 and P12: epochs, and replicas in another order",
            encode::opening(2, &[(1, 1)]),
            vec![
                named(),
                node(1, "", "", ""),
                node(2, "", "", ""),
                (range(3, 1, "", ""), APPLIED),
                (placement(3, 2, &[(1, 1), (2, 2)]), [30, 3, 2, 0]),
                (placement(3, 1, &[(1, 1), (2, 2)]), APPLIED),
                (placement(3, 1, &[(1, 1), (2, 2)]), ALREADY),
                (placement(3, 1, &[(2, 2), (1, 1)]), [32, 3, 2, 1]),
                (placement(3, 2, &[(2, 2), (1, 1)]), APPLIED),
                (placement(3, 3, &[(2, 1), (1, 2)]), [33, 2, 2, 1]),
                (encode::retirement(103, 1, [2, 1, 1, 1]), [36, 103, 1, 0]),
                (encode::retirement(103, 9, [1, 1, 1, 1]), [32, 3, 2, 1]),
                (encode::retirement(103, 9, [2, 1, 1, 1]), APPLIED),
                (placement(3, 3, &[(9, 1)]), [28, 103, 9, 0]),
            ],
        ),
        trial(
            "a range counts against the buckets",
            encode::opening(2, &[(1, 1), (2, 2)]),
            vec![
                named(),
                (range(1, 1, "a", "b"), APPLIED),
                (hash(2, 1, 0, 1), [23, 1, 1, 0]),
                (range(2, 1, "b", "c"), APPLIED),
                (hash(3, 2, 0, 1), [21, 2, 2, 1]),
                (hash(3, 2, 1, 2), APPLIED),
                (hash(4, 2, 1, 2), [22, 2, 1, 0]),
                (hash(4, 2, 0, 2), APPLIED),
                (hash(5, 2, 0, 2), [22, 2, 0, 0]),
            ],
        ),
        the_33rd_node(),
        trial(
            "a Tombstoned node keeps its endpoints",
            encode::opening(2, &[]),
            vec![
                named(),
                node(1, "", "", ""),
                (encode::lifecycle(1, 1), APPLIED),
                (encode::lifecycle(1, 2), APPLIED),
                (encode::lifecycle(1, 3), APPLIED),
                (encode::lifecycle(1, 4), APPLIED),
                (
                    encode::node(
                        2,
                        &NodeRow {
                            endpoints: [
                                b"free".to_vec(),
                                b"free:2".to_vec(),
                                b"raft.1:7000".to_vec(),
                                b"sql.1:7000".to_vec(),
                            ],
                            ..node_row(2, "", "", "")
                        },
                    ),
                    [14, 1, 2, 2],
                ),
            ],
        ),
    ];
    trials.extend(openings());
    trials
}

fn the_33rd_node() -> Trial {
    let mut commands = vec![named()];
    for id in 1..=32 {
        commands.push(node(id, "", "", ""));
    }
    let mut taken = node_row(40, "", "", "");
    taken.endpoints[3] = b"snapshot.17:7000".to_vec();
    commands.push((encode::node(40, &taken), [14, 17, 40, 3]));
    let (free, _) = node(40, "", "", "");
    commands.push((free, [39, 0, 32, 0]));
    commands.push((node(32, "", "", "").0, ALREADY));
    trial("the 33rd node", encode::opening(2, &[]), commands)
}

fn openings() -> Vec<Trial> {
    let many: Vec<(u64, u32)> = (1..=17).map(|id| (id, 1)).collect();
    let mut nine_of_17 = encode::opening(7, &many);
    nine_of_17.truncate(9);
    let mut eight_of_17 = nine_of_17.clone();
    eight_of_17.truncate(8);
    let mut cut = encode::opening(0, &[(0, 0), (1, 1)]);
    cut.pop();
    vec![
        opening_trial("nothing", Vec::new(), [40, 2, 0, 0]),
        opening_trial("17 tables", nine_of_17, [10, 10, 0, 0]),
        opening_trial("17 tables, cut", eight_of_17, [40, 2, 0, 0]),
        opening_trial("wrong and cut", cut, [40, 2, 0, 0]),
        opening_trial(
            "a table of id 0",
            encode::opening(2, &[(1, 1), (0, 1)]),
            [10, 10, 0, 0],
        ),
        opening_trial(
            "a table twice",
            encode::opening(2, &[(4, 1), (1, 1), (4, 2)]),
            [10, 10, 0, 0],
        ),
        opening_trial(
            "a tablet count of 0",
            encode::opening(2, &[(1, 0)]),
            [10, 10, 0, 0],
        ),
        trial(
            "16 tables, falling",
            encode::opening(
                u64::MAX,
                &many[..16].iter().rev().copied().collect::<Vec<_>>(),
            ),
            vec![named(), (hash(1, 16, 0, 1), APPLIED)],
        ),
        trial("no tables, nothing else", encode::opening(0, &[]), vec![]),
    ]
}

#[cfg(test)]
mod tests {
    use super::*;
    use crate::tape::{Answer, Line};
    use crate::{handlers, model};

    #[test]
    fn both_readings_give_the_lines_of_document_01() {
        for trial in trials() {
            let lines: Vec<Line> = (trial.first..)
                .zip(&trial.answers)
                .map(|(number, [answer, a, b, c])| Line {
                    number,
                    answer: Answer {
                        number: *answer,
                        operands: [*a, *b, *c],
                    },
                })
                .collect();
            assert_eq!(handlers::run(&trial.tape).lines, lines, "{}", trial.name);
            assert_eq!(model::run(&trial.tape).0, lines, "{}", trial.name);
        }
    }
}
