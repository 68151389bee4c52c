//! Nodes, tablets and retirements filled to their room, then commands that meet full tables: those that
//! would add a row, and those that have another answer first.

use super::workload::Workload;
use super::{Parts, encode};
use crate::admission::{NODE_ROOM, RETIREMENT_ROOM, TABLET_ROOM};
use crate::random::Random;

pub fn full(mut random: Random) -> Parts {
    // One table takes any number of ranges, one with room for every bucket, one that fills early.
    let tables = [(1, 1), (2, 64), (3, 2), (7, 200)];
    let group_mark = random.one(&[0, 2, u64::MAX]);
    let mut work = Workload::with_opening(random, group_mark, &tables);
    work.push(encode::naming(b"full"));
    let node = work.new_node();
    work.push(node);

    let mut order = ["nodes", "tablets", "retirements"];
    work.random.shuffle(&mut order);
    let to_fill = work.random.between(1, 3);
    for what in &order[..to_fill] {
        for _ in 0..4000 {
            let filled = match *what {
                "nodes" => work.model.nodes.len() == NODE_ROOM,
                "tablets" => work.model.tablets.len() == TABLET_ROOM,
                _ => work.model.retired.len() == RETIREMENT_ROOM,
            };
            if filled {
                break;
            }
            let command = match *what {
                "nodes" => work.new_node(),
                "tablets" => work.new_tablet(),
                _ if work.model.tablets.is_empty() => work.new_tablet(),
                _ if work.model.placements.is_empty() => work.good_placement(),
                _ => work.good_retirement(),
            };
            work.push(command);
        }
    }

    for _ in 0..work.random.between(100, 500) {
        let command = match work.random.below(12) {
            0 => work.new_node(),
            1 => work.odd_node(),
            2 | 3 => work.new_tablet(),
            4 => work.odd_tablet(),
            5 | 6 => work.good_retirement(),
            7 => work.odd_retirement(),
            _ => work.command(),
        };
        work.push(command);
    }
    work.parts()
}
