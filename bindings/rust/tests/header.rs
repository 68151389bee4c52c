//! bindings/lupinadze.h says the same as this crate, and both the same as the definitions of the proofs.

use std::collections::BTreeMap;

use lupinadze::*;

const HEADER: &str = include_str!("../../lupinadze.h");
const ANSWERS: &str = include_str!("../../../crates/metadata/specs/Answers.antt");
const REASONS: &str = include_str!("../../../crates/admission/specs/Reasons.antt");
const ROOMS: &str = include_str!("../../../crates/metadata/specs/Rooms.antt");
const WIDTHS: &str = include_str!("../../../crates/encode/specs/Widths.antt");
const ROW_LINES: [&str; 2] = [
    include_str!("../../../crates/row_lines/src/rows.rt"),
    include_str!("../../../crates/row_lines/src/placements.rt"),
];
const PLACES_OF: &str = include_str!("../../../crates/layout/specs/Places.antt");

/// The header's numbers by their names without `LUPINADZE_`; the codes, which are no literals, are left out.
fn constants() -> BTreeMap<&'static str, u64> {
    let mut constants = BTreeMap::new();
    for line in HEADER.lines() {
        let mut words = line.split_whitespace();
        let (Some("#define"), Some(name), Some(value)) = (words.next(), words.next(), words.next())
        else {
            continue;
        };
        let name = name.strip_prefix("LUPINADZE_").expect("all names begin so");
        let number = match value.strip_prefix("0x") {
            Some(digits) => u64::from_str_radix(digits, 16),
            None => value.parse(),
        };
        if let Ok(number) = number {
            let before = constants.insert(name, number);
            assert_eq!(before, None, "{name} stands once");
        }
    }
    constants
}

/// The names that begin so, without it.
fn named(prefix: &str) -> BTreeMap<String, u64> {
    constants()
        .into_iter()
        .filter_map(|(name, number)| Some((name.strip_prefix(prefix)?.to_string(), number)))
        .collect()
}

/// `NodeIdConflict` as `NODE_ID_CONFLICT`.
fn capitals(name: &str) -> String {
    let mut capitals = String::new();
    for letter in name.chars() {
        if letter.is_uppercase() && !capitals.is_empty() {
            capitals.push('_');
        }
        capitals.push(letter.to_ascii_uppercase());
    }
    capitals
}

/// The largest room that the text of a row has in its contract.
fn longest_line() -> u64 {
    let lines = ROW_LINES.iter().flat_map(|file| file.lines());
    lines
        .filter_map(|line| {
            line.trim()
                .strip_prefix("ghost room = { ")?
                .strip_suffix(" };")
        })
        .filter_map(|number| number.parse().ok())
        .max()
        .expect("rows have rooms")
}

/// The number behind `abbrev pub NAME : ℕ` and `NAME = `.
fn defined(text: &str, name: &str) -> u64 {
    let line = format!("{name} = ");
    text.lines()
        .find_map(|text| text.strip_prefix(&line))
        .and_then(|number| number.parse().ok())
        .unwrap_or_else(|| panic!("{name} is defined"))
}

#[test]
fn answers_have_the_names_and_numbers_of_the_definitions() {
    let mut defined = BTreeMap::new();
    for line in ANSWERS.lines() {
        let Some((case, value)) = line
            .strip_prefix("reported ")
            .and_then(|line| line.split_once(" = report "))
        else {
            continue;
        };
        let name = case.trim_matches(['(', ')']).split(' ').next().unwrap();
        let name = capitals(name.strip_prefix("A.").expect("a case of Answer"));
        let number: u64 = value.split(' ').next().unwrap().parse().expect("a number");
        defined.insert(name, number);
    }
    assert_eq!(defined.len(), 34);
    let mut header = named("ANSWER_");
    assert_eq!(header.remove("NUMBERS"), Some(4));
    assert_eq!(header, defined);
}

#[test]
fn answers_have_the_crates_names_and_numbers() {
    let mut header = named("ANSWER_");
    header.remove("NUMBERS");
    for (name, number) in &header {
        // operands that every answer accepts: reason 1, domain, table and fault 1
        let read = [[*number, 0, 0, 0], [*number, 1, 0, 0]]
            .into_iter()
            .find_map(Answer::from_numbers);
        let answer = read.unwrap_or_else(|| panic!("{name} is an answer"));
        assert_eq!(capitals(answer.name()), *name);
        assert_eq!(answer.number(), *number);
    }
}

#[test]
fn reasons_have_the_numbers_of_the_definitions_and_the_crates_names() {
    let header = named("REASON_");
    assert_eq!(header.len(), 11);
    for (name, number) in header {
        let reason = Reason::from_number(number).expect("it is a reason");
        assert_eq!(capitals(&format!("{reason:?}")), name);
        let definition = format!("{reason:?} = {number}");
        let defined = REASONS.lines().any(|line| line.ends_with(&definition));
        assert!(defined, "{definition}");
    }
}

#[test]
fn what_answers_and_rows_name_has_the_crates_numbers() {
    for number in 0..=4 {
        let name = format!("{:?}", Lifecycle::from_number(number)).to_uppercase();
        assert_eq!(named("LIFECYCLE_")[&name], number.into());
    }
    let role = |role: Role| u64::from(role.number());
    assert_eq!(named("ROLE_")["VOTER"], role(Role::Voter));
    assert_eq!(named("ROLE_")["LEARNER"], role(Role::Learner));
    let words = |prefix: &str| {
        let mut words: Vec<_> = named(prefix)
            .into_iter()
            .map(|(name, number)| (number, name))
            .collect();
        words.sort();
        words
    };
    let all = |names: &[&str], from: u64| -> Vec<_> {
        (from..)
            .zip(names.iter().map(|name| name.to_string()))
            .collect()
    };
    assert_eq!(
        words("ENDPOINT_"),
        all(&["RAFT", "SNAPSHOT", "SQL", "ADMIN"], 0)
    );
    assert_eq!(words("DOMAIN_"), all(&["REGION", "ZONE", "RACK"], 0));
    assert_eq!(words("KIND_"), all(&["HASH", "RANGE"], 0));
    assert_eq!(words("TAPE_"), all(&["UNKNOWN", "CUT"], 1));
    let mut tables = words("TABLE_");
    tables.retain(|(_, name)| name != "ROOM");
    assert_eq!(tables, all(&["NODES", "TABLETS", "RETIREMENTS"], 0));
    for number in 0..5 {
        let name = |prefix: &str| {
            let found = words(prefix)
                .into_iter()
                .find(|(other, name)| *other == number && name != "ROOM");
            found.map(|(_, name)| name)
        };
        let debug = |case: Option<String>| case.map(|case| case.to_uppercase());
        assert_eq!(
            debug(Endpoint::from_number(number).map(|it| format!("{it:?}"))),
            name("ENDPOINT_")
        );
        assert_eq!(
            debug(Domain::from_number(number).map(|it| format!("{it:?}"))),
            name("DOMAIN_")
        );
        assert_eq!(
            debug(TableKind::from_number(number).map(|it| format!("{it:?}"))),
            name("TABLE_")
        );
        assert_eq!(
            debug(TapeFault::from_number(number).map(|it| format!("{it:?}"))),
            name("TAPE_")
        );
    }
}

#[test]
fn sizes_are_those_of_the_definitions_and_the_crate() {
    let header = constants();
    let size = |name: &str| header[name] as usize;
    assert_eq!(size("STORE_BYTES"), STORE_BYTES);
    assert_eq!(header["STORE_BYTES"], defined(PLACES_OF, "store_length"));
    assert_eq!(size("LINE_BYTES"), LINE_BYTES);
    assert_eq!(header["LINE_BYTES"], longest_line());
    assert_eq!(size("STACK_BYTES"), STACK_BYTES);
    for (name, here, definition) in [
        ("NODE_ROOM", NODE_ROOM, "node_room"),
        ("TABLE_ROOM", TABLE_ROOM, "table_room"),
        ("TABLET_ROOM", TABLET_ROOM, "tablet_room"),
        ("RETIREMENT_ROOM", RETIREMENT_ROOM, "retirement_room"),
        ("PLACES", PLACES, "replica_room"),
        ("NAME_WIDTH", NAME_WIDTH, "name_width"),
        ("LABEL_WIDTH", LABEL_WIDTH, "label_width"),
        ("KEY_WIDTH", KEY_WIDTH, "key_width"),
    ] {
        assert_eq!(size(name), here, "{name}");
        assert_eq!(header[name], defined(ROOMS, definition), "{name}");
    }
    assert_eq!(
        header["OPENING_TABLE_BYTES"],
        defined(WIDTHS, "table_width")
    );
    assert_eq!(header["NODE_ROW_BYTES"], defined(WIDTHS, "node_width"));
    assert_eq!(header["TABLET_ROW_BYTES"], defined(WIDTHS, "tablet_width"));
    assert_eq!(
        header["PLACEMENT_ROW_BYTES"],
        defined(WIDTHS, "placement_width")
    );
    assert_eq!(
        header["RETIREMENT_ROW_BYTES"],
        defined(WIDTHS, "retirement_width")
    );
}

/// The library itself says how long a command is: cut by one byte it is answered 40, and not so at its length.
#[test]
fn commands_have_the_bytes_and_sizes_that_the_library_takes() {
    let header = constants();
    let names = [
        "NAMING",
        "REGISTERING",
        "LIFECYCLE",
        "TABLET",
        "PLACEMENT",
        "RETIREMENT",
        "PICKING",
    ];
    assert_eq!(named("COMMAND_").len(), names.len());
    for (byte, name) in (1..).zip(names) {
        assert_eq!(header[format!("COMMAND_{name}").as_str()], byte.into());
        let size = header[format!("{name}_BYTES").as_str()] as usize;
        let mut tape = vec![0; 9 + size];
        tape[9] = byte;
        assert_eq!(run(&tape).len(), 1, "{name}");
        assert_ne!(run(&tape)[0][0], 40, "{name}");
        assert_eq!(command_answers(&tape[9..]), 1);
        let longer = [tape.clone(), vec![7]].concat();
        assert_eq!(run(&longer).len(), 2, "{name}");
        let cut = &tape[..tape.len() - 1];
        if size > 1 {
            assert_eq!(run(cut), [[40, 2, byte.into(), 0]], "{name}");
        }
    }
    assert_eq!(header["OPENING_HEAD_BYTES"], 9);
    assert_eq!(header["ABSENT"], 255);
}

#[test]
fn the_version_is_the_crates() {
    let header = constants();
    let version = ["MAJOR", "MINOR", "PATCH"]
        .map(|part| header[format!("VERSION_{part}").as_str()].to_string())
        .join(".");
    assert_eq!(version, env!("CARGO_PKG_VERSION"));
}

#[test]
fn the_crate_has_every_function() {
    let linked = include_str!("../src/linked.rs");
    let functions: Vec<&str> = HEADER
        .lines()
        .filter_map(|line| line.strip_prefix("uint64_t "))
        .map(|line| line.split('(').next().unwrap())
        .collect();
    assert_eq!(functions.len(), 15);
    for function in functions {
        assert!(
            linked.contains(&format!("pub fn {function}(")),
            "{function}"
        );
    }
}
