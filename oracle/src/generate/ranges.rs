//! One stored range against every range over a list of short keys. The tablets are full, so a range that
//! overlaps nothing gets 39 and leaves the store as it is. Consecutive seeds store one range after the
//! other.

use super::workload::Workload;
use super::{Parts, encode};
use crate::admission::TABLET_ROOM;
use crate::model::{Part, TabletRow};
use crate::random::Random;

pub fn ranges(random: Random, seed: u64) -> Parts {
    let ranges = all_ranges();
    let (start, end) = &ranges[(seed % ranges.len() as u64) as usize];
    let mut work = Workload::with_opening(random, 2, &[(1, 1), (2, 100)]);
    work.push(encode::naming(b"ranges"));
    let first = work.random.between(1, TABLET_ROOM) as u64;
    for id in 1..=TABLET_ROOM as u64 {
        let (table, part) = if id == first {
            (1, Part::Range(start.clone(), end.clone()))
        } else {
            (2, Part::Hash(id as u32, 100))
        };
        let row = TabletRow {
            table,
            group: id,
            epoch: 1,
            part,
        };
        work.push(encode::tablet(id, &row));
    }
    for (start, end) in ranges {
        let row = TabletRow {
            table: 1,
            group: 1000,
            epoch: 1,
            part: Part::Range(start, end),
        };
        work.push(encode::tablet(1000, &row));
    }
    work.parts()
}

/// Every admitted range whose bounds are at most two bytes of a short alphabet.
fn all_ranges() -> Vec<(Vec<u8>, Vec<u8>)> {
    let letters = [0, b'a', b'b', 255];
    let mut keys = vec![Vec::new()];
    for first in letters {
        keys.push(vec![first]);
        for second in letters {
            keys.push(vec![first, second]);
        }
    }
    let mut ranges = Vec::new();
    for start in &keys {
        for end in &keys {
            if start.is_empty() || end.is_empty() || start < end {
                ranges.push((start.clone(), end.clone()));
            }
        }
    }
    ranges
}
