//! Whole tapes in memory, on the specification's example.

use lupinadze::{Answer, Short, TapeFault, answers, run, run_into};

/// One table, a lifecycle command, a pick, a byte that is no command.
const EXAMPLE: [u8; 33] = [
    1, 1, 0, 0, 0, 0, 0, 0, 0, 5, 0, 0, 0, 0, 0, 0, 0, 2, 0, 0, 0, //
    3, 9, 0, 0, 0, 0, 0, 0, 0, 1, //
    7, 255,
];

const ANSWERS: [[u64; 4]; 3] = [[11, 0, 0, 0], [38, 0, 0, 0], [40, 1, 255, 0]];

#[test]
fn the_example_gets_its_three_answers() {
    assert_eq!(answers(&EXAMPLE), 3);
    assert_eq!(run(&EXAMPLE), ANSWERS);
    let named: Vec<_> = run(&EXAMPLE)
        .into_iter()
        .filter_map(Answer::from_numbers)
        .collect();
    let ended = Answer::BadTape {
        fault: TapeFault::Unknown,
        byte: 255,
    };
    assert_eq!(
        named,
        [Answer::NotInitialized, Answer::NoRegisteredNodes, ended]
    );
}

#[test]
fn a_list_one_number_too_short_is_told_and_untouched() {
    let mut out = [7; 11];
    let short = Short {
        needed: 12,
        room: 11,
    };
    assert_eq!(run_into(&EXAMPLE, &mut out), Err(short));
    assert_eq!(out, [7; 11]);
    assert_eq!(
        short.to_string(),
        "the answers take 12 numbers, and the list has 11"
    );
}

#[test]
fn a_longer_list_keeps_its_rest() {
    let mut out = [7; 14];
    assert_eq!(run_into(&EXAMPLE, &mut out), Ok(3));
    assert_eq!(&out[..12], ANSWERS.as_flattened());
    assert_eq!(out[12..], [7, 7]);
}

#[test]
fn an_empty_tape_is_cut_short() {
    assert_eq!(run(&[]), [[40, 2, 0, 0]]);
    let short = Short { needed: 4, room: 3 };
    assert_eq!(run_into(&[], &mut [0; 3]), Err(short));
}

#[test]
fn an_opening_alone_gets_no_answer() {
    let opening = &EXAMPLE[..21];
    assert_eq!(answers(opening), 0);
    assert_eq!(run_into(opening, &mut []), Ok(0));
}

#[test]
fn seventeen_tables_are_refused() {
    assert_eq!(run(&[17, 0, 0, 0, 0, 0, 0, 0, 0]), [[10, 10, 0, 0]]);
}

#[test]
fn every_beginning_of_the_example_gets_what_stands_in_it() {
    for length in 0..EXAMPLE.len() {
        let expected: &[[u64; 4]] = match length {
            0..21 => &[[40, 2, 0, 0]],
            21 => &[],
            22..31 => &[[40, 2, 3, 0]],
            31 => &ANSWERS[..1],
            _ => &ANSWERS[..2],
        };
        assert_eq!(run(&EXAMPLE[..length]), expected, "{length} bytes");
    }
}
