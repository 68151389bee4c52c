//! Admission: every single fault of every command once, in a random order, each in an otherwise good
//! command; and as many with two or three faults. Values at the limits that are no fault are among them.

use super::Parts;
use super::workload::Workload;
use crate::random::Random;

/// A change to a command's operands, by their offset.
#[derive(Clone)]
enum Edit {
    Write(usize, Vec<u8>),
    Copy {
        from: usize,
        to: usize,
        length: usize,
    },
}

/// A fault is one edit or several that belong together.
type Fault = Vec<Edit>;

pub fn faults(random: Random) -> Parts {
    let mut work = Workload::new(random);
    // In some tapes the store has no name for a while: 10 comes before 11.
    if work.random.chance(80) {
        work.begin();
    }
    let singles: Vec<Vec<Fault>> = (1..=6).map(single_faults).collect();
    let mut plan: Vec<(u8, Fault)> = Vec::new();
    for byte in 1..=6u8 {
        let of_byte = &singles[byte as usize - 1];
        for fault in of_byte {
            plan.push((byte, fault.clone()));
            if work.random.chance(60) {
                let mut several = fault.clone();
                for _ in 0..work.random.between(1, 2) {
                    several.extend(work.random.one(of_byte));
                }
                plan.push((byte, several));
            }
        }
    }
    work.random.shuffle(&mut plan);
    for (byte, fault) in plan {
        if work.random.chance(15) {
            let command = work.command();
            work.push(command);
        }
        let mut command = good(&mut work, byte);
        apply(&mut command[1..], &fault);
        work.push(command);
    }
    work.parts()
}

/// A good command of this kind, as far as the store allows one.
fn good(work: &mut Workload, byte: u8) -> Vec<u8> {
    for _ in 0..20 {
        let command = work.good(byte);
        if command[0] == byte {
            return command;
        }
        // The store lacks what this kind builds on: that is what came.
        work.push(command);
    }
    match byte {
        3 => super::encode::lifecycle(1, 1),
        4 => work.new_tablet(),
        5 => {
            let mut command = vec![5; 235];
            command[1..].fill(0);
            apply(&mut command[1..], &plain_placement());
            command
        }
        _ => super::encode::retirement(1, 1, [1; 4]),
    }
}

/// Tablet 1, epoch 1, one replica.
fn plain_placement() -> Fault {
    vec![
        long(0, 1),
        long(8, 1),
        Edit::Write(16, vec![1]),
        long(17, 1),
        long(25, 1),
        short(136, 1),
        Edit::Write(152, vec![255]),
    ]
}

fn apply(operands: &mut [u8], fault: &Fault) {
    for edit in fault {
        match edit {
            Edit::Write(at, bytes) => operands[*at..at + bytes.len()].copy_from_slice(bytes),
            Edit::Copy { from, to, length } => operands.copy_within(*from..from + length, *to),
        }
    }
}

fn single_faults(byte: u8) -> Vec<Fault> {
    let mut faults = Vec::new();
    match byte {
        1 => texts(&mut faults, 0, 48),
        2 => {
            longs(&mut faults, 0);
            for field in 0..4 {
                texts(&mut faults, 8 + 49 * field, 48);
                for other in 0..field {
                    faults.push(vec![Edit::Copy {
                        from: 8 + 49 * other,
                        to: 8 + 49 * field,
                        length: 49,
                    }]);
                }
            }
            for label in 0..4 {
                texts(&mut faults, 204 + 25 * label, 24);
            }
            bytes(&mut faults, 304);
        }
        3 => {
            longs(&mut faults, 0);
            bytes(&mut faults, 8);
        }
        4 => tablet_faults(&mut faults),
        5 => placement_faults(&mut faults),
        _ => {
            for number in 0..6 {
                longs(&mut faults, 8 * number);
            }
        }
    }
    faults
}

fn tablet_faults(faults: &mut Vec<Fault>) {
    for number in 0..4 {
        longs(faults, 8 * number);
    }
    bytes(faults, 32);
    for offset in [33, 37] {
        shorts(faults, offset);
    }
    for offset in [41, 74] {
        texts(faults, offset, 32);
    }
    // Hash: bucket and count together, the keys empty.
    for (bucket, count) in [
        (0, 0),
        (0, 1),
        (1, 1),
        (2, 1),
        (1, 2),
        (256, 2),
        (2, 256),
        (u32::MAX - 1, u32::MAX),
        (u32::MAX, u32::MAX),
        (u32::MAX, 0),
    ] {
        faults.push(vec![
            Edit::Write(32, vec![0; 75]),
            short(33, bucket),
            short(37, count),
        ]);
    }
    // Hash, with one thing of a range.
    for (offset, written) in [
        (41, vec![1, b'a']),
        (74, vec![1, b'a']),
        (41, vec![1, 0]),
        (74, vec![32]),
        (41, vec![0, 1]),
        (106, vec![1]),
        (73, vec![1]),
    ] {
        faults.push(vec![
            Edit::Write(32, vec![0; 75]),
            short(37, 1),
            Edit::Write(offset, written),
        ]);
    }
    // Range: both keys, bucket and count zero.
    let keys: [&[u8]; 12] = [
        b"",
        b"a",
        b"a\0",
        b"a\0\0",
        b"aa",
        b"b",
        b"\0",
        b"\xff",
        b"\xff\xff",
        &[b'a'; 32],
        &[0; 32],
        &[255; 32],
    ];
    for start in keys {
        for end in keys {
            let mut both = vec![Edit::Write(32, vec![0; 75]), Edit::Write(32, vec![1])];
            for (offset, key) in [(41, start), (74, end)] {
                let mut text = vec![key.len() as u8];
                text.extend(key);
                both.push(Edit::Write(offset, text));
            }
            faults.push(both.clone());
            if start < end {
                // The same range with a bucket, with a count.
                both.push(short(if start.is_empty() { 33 } else { 37 }, 1));
                faults.push(both);
            }
        }
    }
}

fn placement_faults(faults: &mut Vec<Fault>) {
    longs(faults, 0);
    longs(faults, 8);
    bytes(faults, 16);
    for count in 0..=9u8 {
        faults.push(vec![Edit::Write(16, vec![count]), short(136, count as u32)]);
    }
    for count in [8, 255] {
        // All seven places used: nothing wrong with them, then one thing.
        let mut all = vec![Edit::Write(16, vec![count]), short(136, count as u32)];
        for place in 0..7 {
            all.push(long(17 + 17 * place, 900 + place as u64));
            all.push(long(25 + 17 * place, 700 + place as u64));
            all.push(Edit::Write(33 + 17 * place, vec![1]));
        }
        faults.push(all.clone());
        for edit in [
            long(17, 0),
            long(25 + 17 * 6, 0),
            Edit::Write(33 + 17 * 6, vec![2]),
        ] {
            let mut one_more = all.clone();
            one_more.push(edit);
            faults.push(one_more);
        }
    }
    for place in 0..7 {
        let at = 17 + 17 * place;
        longs(faults, at);
        longs(faults, at + 8);
        for role in [0, 1, 2, 255] {
            faults.push(vec![Edit::Write(at + 16, vec![role])]);
        }
        for other in 0..place {
            for field in [0, 8] {
                faults.push(vec![Edit::Copy {
                    from: 17 + 17 * other + field,
                    to: at + field,
                    length: 8,
                }]);
            }
        }
    }
    for offset in [136, 140, 144, 148] {
        shorts(faults, offset);
        for number in 2..=8 {
            faults.push(vec![short(offset, number)]);
        }
    }
    texts(faults, 152, 24);
    bytes(faults, 177);
    for place in 0..7 {
        let at = 178 + 8 * place;
        longs(faults, at);
        for other in 0..place {
            faults.push(vec![Edit::Copy {
                from: 178 + 8 * other,
                to: at,
                length: 8,
            }]);
        }
        // As many leaders as places so far, this one zero, unknown, or the first again.
        for leader in [0, 1, 9999] {
            let mut fault = vec![Edit::Write(177, vec![place as u8 + 1])];
            for before in 0..place {
                fault.push(long(178 + 8 * before, before as u64 + 1));
            }
            fault.push(long(at, leader));
            faults.push(fault);
        }
    }
}

/// Texts and keys of this width: lengths, bytes and padding at their limits.
fn texts(faults: &mut Vec<Fault>, offset: usize, width: usize) {
    let mut write = |length: usize, field: Vec<u8>| {
        let mut text = vec![length as u8];
        text.extend(field);
        faults.push(vec![Edit::Write(offset, text)]);
    };
    let filled = |length: usize, fill: u8| {
        let mut field = vec![fill; length.min(width)];
        field.resize(width, 0);
        field
    };
    for length in [
        0,
        1,
        2,
        width - 1,
        width,
        width + 1,
        width + 2,
        128,
        254,
        255,
    ] {
        write(length, filled(length, b'x'));
    }
    for length in [width + 1, 254, 255] {
        write(length, vec![0; width]);
    }
    for byte in [0, 0x1F, 0x20, 0x21, 0x7E, 0x7F, 0x80, 0xFF] {
        for (length, at) in [
            (1, 0),
            (width, 0),
            (width, width - 1),
            (width - 1, width - 2),
        ] {
            let mut field = filled(length, b'y');
            field[at] = byte;
            write(length, field);
        }
    }
    for fill in [0, 0x20, 0x7E] {
        for length in [1, 5, width] {
            write(length, filled(length, fill));
        }
    }
    // Padding; all of an absent text is padding.
    for length in [0, 1, width - 1, 255] {
        let first = length % 255;
        for at in [first, width - 1] {
            for byte in [1, 0x20] {
                let mut field = filled(first, b'w');
                field[at] = byte;
                write(length, field);
            }
        }
    }
}

fn bytes(faults: &mut Vec<Fault>, offset: usize) {
    for byte in [0, 1, 2, 3, 4, 5, 6, 7, 8, 9, 127, 128, 254, 255] {
        faults.push(vec![Edit::Write(offset, vec![byte])]);
    }
}

fn shorts(faults: &mut Vec<Fault>, offset: usize) {
    for number in [0, 1, 256, 1 << 16, 1 << 24, u32::MAX] {
        faults.push(vec![short(offset, number)]);
    }
}

fn longs(faults: &mut Vec<Fault>, offset: usize) {
    for number in [0, 1, 256, 1 << 32, 1 << 56, u64::MAX] {
        faults.push(vec![long(offset, number)]);
    }
}

fn short(offset: usize, number: u32) -> Edit {
    Edit::Write(offset, number.to_le_bytes().to_vec())
}

fn long(offset: usize, number: u64) -> Edit {
    Edit::Write(offset, number.to_le_bytes().to_vec())
}
