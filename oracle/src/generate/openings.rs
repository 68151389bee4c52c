//! Openings: any number of tables in any order, any group mark, refused ones and ones cut short; behind
//! those that open, some commands on the tables.

use super::workload::Workload;
use super::{Parts, encode};
use crate::random::Random;

pub fn openings(mut random: Random) -> Parts {
    let count = match random.below(8) {
        0 => random.one(&[0, 0, 1, 2]),
        1 => random.between(15, 20),
        2 => random.one(&[16, 17, 100, 254, 255]),
        _ => random.between(0, 16),
    };
    let mut tables: Vec<(u64, u32)> = Vec::new();
    for at in 0..count {
        let id = match random.below(8) {
            0 => random.next().max(1),
            1 => u64::MAX - at as u64,
            // Ids that differ in one byte only.
            2 => (at as u64 + 1) << (8 * random.below(8)),
            _ => at as u64 * 3 + 1,
        };
        let tablets = random.one(&[1, 1, 2, 3, 4, 255, 256, 1 << 24, u32::MAX]);
        if tables.iter().all(|(known, _)| *known != id) {
            tables.push((id, tablets));
        }
    }
    match random.below(4) {
        0 => tables.reverse(),
        1 | 2 => random.shuffle(&mut tables),
        _ => {}
    }
    let group_mark = random.one(&[0, 1, 2, 3, 256, 1 << 32, u64::MAX - 1, u64::MAX]);

    // Wrong, cut, or both.
    let wrong = random.chance(50);
    let cut = random.chance(30);
    let mut spoilt = tables.clone();
    if wrong && !spoilt.is_empty() {
        for _ in 0..random.between(1, 2) {
            let at = random.below(spoilt.len());
            match random.below(3) {
                0 => spoilt[at].0 = 0,
                1 => spoilt[at].1 = 0,
                _ => spoilt[at].0 = spoilt[random.below(spoilt.len())].0,
            }
        }
    }
    let mut bytes = encode::opening(group_mark, &spoilt);
    if cut {
        let length = match random.below(3) {
            0 => random.below(10),
            1 => bytes.len() - 1,
            _ => random.below(bytes.len()),
        };
        bytes.truncate(length);
    }

    // Commands that suit the opening if it is good, and are not looked at if it is not.
    if tables.len() > 16 || bytes != encode::opening(group_mark, &tables) {
        let commands = if random.chance(50) {
            Vec::new()
        } else {
            vec![encode::naming(b"late"), encode::pick()]
        };
        return Parts {
            opening: bytes,
            commands,
        };
    }
    let mut work = Workload::with_opening(random, group_mark, &tables);
    if work.random.chance(80) {
        work.push(encode::naming(b"open"));
    }
    for _ in 0..work.random.below(60) {
        let command = match work.random.below(4) {
            0 => work.odd_tablet(),
            1 => work.command(),
            _ => work.new_tablet(),
        };
        work.push(command);
    }
    work.parts()
}
