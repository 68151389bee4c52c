//! Tapes that end badly. The places are every unknown byte and every command cut after each of its
//! bytes; consecutive seeds go through all of them in great steps.

use super::Parts;
use super::workload::Workload;
use crate::random::Random;

/// Bytes of each command with its command byte, from 01 on.
const LENGTHS: [usize; 6] = [50, 306, 10, 108, 235, 49];

/// Has no divisor in common with the number of places, which is 1001.
const STEP: u64 = 397;

pub fn broken(random: Random, seed: u64) -> Parts {
    let mut work = Workload::new(random);
    if work.random.chance(70) {
        work.begin();
        for _ in 0..work.random.below(30) {
            let command = work.command();
            work.push(command);
        }
    }
    let last = last(&mut work, seed);
    work.push_last(last);
    work.parts()
}

fn last(work: &mut Workload, seed: u64) -> Vec<u8> {
    let unknown: Vec<u8> = (0..=255).filter(|byte| !(1..=7).contains(byte)).collect();
    let cuts: usize = LENGTHS.iter().map(|length| length - 1).sum();
    let places = (unknown.len() + cuts) as u64;
    let mut place = (seed % places * STEP % places) as usize;
    if work.random.chance(10) {
        // The ends of the unknown bytes more often than others.
        place = work.random.one(&[0, 1, unknown.len() - 1]);
    }
    if let Some(byte) = unknown.get(place) {
        // Whatever follows an unknown byte is not looked at.
        let mut bytes = vec![*byte];
        if work.random.chance(50) {
            let after = work.command();
            bytes.extend(after);
        }
        return bytes;
    }
    place -= unknown.len();
    let mut byte = 0;
    while place >= LENGTHS[byte] - 1 {
        place -= LENGTHS[byte] - 1;
        byte += 1;
    }
    let mut command = vec![byte as u8 + 1];
    for _ in 0..20 {
        let good = work.good(byte as u8 + 1);
        if good[0] == command[0] {
            command = good;
            break;
        }
    }
    command.resize(LENGTHS[byte], 0);
    // A command that is cut and wrong is cut.
    if work.random.chance(40) {
        let at = work.random.between(1, command.len() - 1);
        command[at] = work.random.one(&[0, 0x1F, 0x7F, 200, 255]);
    }
    command.truncate(place + 1);
    command
}
