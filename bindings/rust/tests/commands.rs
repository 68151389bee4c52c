//! What the builders write, against bytes written by hand; and what they refuse.

mod samples;

use lupinadze::*;
use samples::{bytes, naming, node, opening, placement, range, retirement};

/// A length byte, the text, zeros up to the width.
fn text(text: &str, width: usize) -> Vec<u8> {
    let mut bytes = vec![text.len() as u8];
    bytes.extend(text.as_bytes());
    bytes.resize(1 + width, 0);
    bytes
}

const NO_LABEL: [u8; 25] = {
    let mut bytes = [0; 25];
    bytes[0] = 255;
    bytes
};

#[test]
fn an_opening() {
    let expected = [
        2, 1, 0, 0, 0, 0, 0, 0, 0, //
        5, 0, 0, 0, 0, 0, 0, 0, 2, 0, 0, 0, //
        7, 0, 0, 0, 0, 0, 0, 0, 1, 0, 0, 0,
    ];
    assert_eq!(opening().to_bytes(), Ok(expected.to_vec()));
    let empty = Opening {
        group_mark: 0x0102_0304_0506_0708,
        tables: vec![],
    };
    assert_eq!(empty.to_bytes(), Ok(vec![0, 8, 7, 6, 5, 4, 3, 2, 1]));
}

#[test]
fn a_naming() {
    let expected = [vec![1], text("plates", 48)].concat();
    assert_eq!(expected.len(), 50);
    assert_eq!(naming().to_bytes(), Ok(expected));
}

#[test]
fn a_registering() {
    let expected = [
        vec![2, 1, 0, 0, 0, 0, 0, 0, 0],
        text("raft.1:7000", 48),
        text("snapshot.1:7000", 48),
        text("sql.1:7000", 48),
        text("admin.1:7000", 48),
        text("north", 24),
        text("zone 1", 24),
        NO_LABEL.to_vec(),
        text("ssd", 24),
        vec![0],
    ]
    .concat();
    assert_eq!(expected.len(), 306);
    assert_eq!(node(1).to_bytes(), Ok(expected.clone()));
    assert_eq!(Command::from(node(1)).to_bytes(), Ok(expected));
}

#[test]
fn a_present_label_without_bytes_is_not_an_absent_one() {
    let labelled = Node {
        rack: Some(Text::EMPTY),
        lifecycle: Lifecycle::Other(200),
        ..node(1)
    };
    let mut expected = node(1).to_bytes().expect("it has a form");
    assert_eq!([expected[255], expected[305]], [255, 0]);
    expected[255] = 0;
    expected[305] = 200;
    assert_eq!(labelled.to_bytes(), Ok(expected));
}

#[test]
fn a_lifecycle() {
    let command = samples::lifecycle(0xFFFE, Lifecycle::Decommissioned);
    let expected = vec![3, 0xFE, 0xFF, 0, 0, 0, 0, 0, 0, 3];
    assert_eq!(command.to_bytes(), Ok(expected));
}

#[test]
fn a_hash_tablet() {
    let tablet = Tablet {
        id: TabletId(1),
        table: TableId(5),
        group: RaftGroupId(41),
        epoch: 1 << 56,
        partition: Partition::Hash {
            bucket: 258,
            bucket_count: u32::MAX,
        },
    };
    let mut expected = vec![4];
    expected.extend([1, 0, 0, 0, 0, 0, 0, 0]);
    expected.extend([5, 0, 0, 0, 0, 0, 0, 0]);
    expected.extend([41, 0, 0, 0, 0, 0, 0, 0]);
    expected.extend([0, 0, 0, 0, 0, 0, 0, 1]);
    expected.extend([0, 2, 1, 0, 0, 255, 255, 255, 255]);
    expected.extend([0; 66]);
    assert_eq!(expected.len(), 108);
    assert_eq!(tablet.to_bytes(), Ok(expected.clone()));
    assert_eq!(Command::from(tablet).to_bytes(), Ok(expected));
}

#[test]
fn a_range_tablet() {
    let mut expected = vec![4];
    expected.extend([3, 0, 0, 0, 0, 0, 0, 0]);
    expected.extend([7, 0, 0, 0, 0, 0, 0, 0]);
    expected.extend([43, 0, 0, 0, 0, 0, 0, 0]);
    expected.extend([1, 0, 0, 0, 0, 0, 0, 0]);
    expected.extend([1, 0, 0, 0, 0, 0, 0, 0, 0]);
    expected.extend(text("papyrus/0004", 32));
    expected.extend(text("", 32));
    assert_eq!(expected.len(), 108);
    assert_eq!(range(3, "papyrus/0004", "").to_bytes(), Ok(expected));
}

#[test]
fn a_tablet_of_another_kind() {
    let tablet = Tablet {
        partition: Partition::Other {
            kind: 9,
            bucket: 1,
            bucket_count: 2,
            start_key: "a".into(),
            end_key: b"\0\xFF".into(),
        },
        ..range(3, "", "")
    };
    let written = tablet.to_bytes().expect("it has a form");
    assert_eq!(written[33..45], [9, 1, 0, 0, 0, 2, 0, 0, 0, 1, b'a', 0]);
    assert_eq!(written[75..79], [2, 0, 0xFF, 0]);
}

#[test]
fn a_placement() {
    let mut expected = vec![5];
    expected.extend([1, 0, 0, 0, 0, 0, 0, 0]);
    expected.extend([9, 0, 0, 0, 0, 0, 0, 0]);
    expected.push(2);
    expected.extend([11, 0, 0, 0, 0, 0, 0, 0, 1, 0, 0, 0, 0, 0, 0, 0, 0]);
    expected.extend([12, 0, 0, 0, 0, 0, 0, 0, 2, 0, 0, 0, 0, 0, 0, 0, 0]);
    expected.extend([0; 5 * 17]);
    expected.extend([2, 0, 0, 0, 1, 0, 0, 0, 2, 0, 0, 0, 0, 0, 0, 0]);
    expected.extend(text("ssd", 24));
    expected.extend([1, 2, 0, 0, 0, 0, 0, 0, 0]);
    expected.extend([0; 6 * 8]);
    assert_eq!(expected.len(), 235);
    assert_eq!(placement(1, 9).to_bytes(), Ok(expected.clone()));
    assert_eq!(Command::from(placement(1, 9)).to_bytes(), Ok(expected));
}

#[test]
fn a_placement_that_fills_its_places() {
    let replica = |place: u64| Replica {
        id: ReplicaId(place),
        node: NodeId(100 + place),
        role: Role::Learner,
    };
    let full = Placement {
        replicas: (1..=7).map(replica).collect(),
        policy: Policy {
            required_storage_class: None,
            preferred_leaders: (101..=107).map(NodeId).collect(),
            ..Policy::default()
        },
        ..placement(1, 1)
    };
    let written = full.to_bytes().expect("it has a form");
    assert_eq!(written.len(), 235);
    assert_eq!(written[17], 7);
    for place in 0..7u8 {
        let at = 18 + 17 * usize::from(place);
        assert_eq!(
            written[at..at + 9],
            [1 + place, 0, 0, 0, 0, 0, 0, 0, 101 + place]
        );
        assert_eq!(written[at + 16], 1);
    }
    assert_eq!(written[153..178], NO_LABEL);
    assert_eq!(written[178], 7);
    assert_eq!(written[227..235], [107, 0, 0, 0, 0, 0, 0, 0]);
}

#[test]
fn a_retirement() {
    let mut expected = vec![6];
    for number in [41, 13, 1, 2, 3, 4] {
        expected.extend([number, 0, 0, 0, 0, 0, 0, 0]);
    }
    assert_eq!(retirement(13).to_bytes(), Ok(expected.clone()));
    assert_eq!(Command::from(retirement(13)).to_bytes(), Ok(expected));
}

#[test]
fn a_picking() {
    assert_eq!(Command::Picking.to_bytes(), Ok(vec![7]));
}

#[test]
fn each_push_writes_behind_what_the_tape_has() {
    let mut tape = opening().to_bytes().expect("it has a form");
    let before = tape.clone();
    node(1).push(&mut tape).expect("it has a form");
    Command::Picking.push(&mut tape).expect("it has a form");
    let expected = [before, node(1).to_bytes().unwrap(), vec![7]].concat();
    assert_eq!(tape, expected);
    opening().push(&mut tape).expect("it has a form");
    assert_eq!(tape.len(), expected.len() + 33);
}

#[test]
fn texts_as_long_as_their_width_have_a_form() {
    let long = |width| Text::from("x".repeat(width));
    let widest = Node {
        raft_addr: long(NAME_WIDTH),
        rack: Some(long(LABEL_WIDTH)),
        storage_class: long(LABEL_WIDTH),
        ..node(1)
    };
    assert_eq!(widest.to_bytes().expect("it has a form").len(), 306);
    let keys = "k".repeat(KEY_WIDTH);
    assert_eq!(
        range(1, &keys, &keys)
            .to_bytes()
            .expect("it has a form")
            .len(),
        108
    );
}

/// Each field that has a width, one more than there is room for.
#[test]
fn what_is_longer_than_its_room_is_refused() {
    let long = |width: usize| Text::from("x".repeat(width + 1));
    let name = long(NAME_WIDTH);
    let label = Some(long(LABEL_WIDTH));
    let replica = Replica {
        id: ReplicaId(1),
        node: NodeId(1),
        role: Role::Voter,
    };
    let policy = placement(1, 1).policy;
    let too_long: [(Command, &str, usize); 14] = [
        (Command::Naming(name.clone()), "name", 48),
        (
            Node {
                raft_addr: name.clone(),
                ..node(1)
            }
            .into(),
            "raft_addr",
            48,
        ),
        (
            Node {
                snapshot_addr: name.clone(),
                ..node(1)
            }
            .into(),
            "snapshot_addr",
            48,
        ),
        (
            Node {
                sql_addr: name.clone(),
                ..node(1)
            }
            .into(),
            "sql_addr",
            48,
        ),
        (
            Node {
                admin_addr: name.clone(),
                ..node(1)
            }
            .into(),
            "admin_addr",
            48,
        ),
        (
            Node {
                region: label.clone(),
                ..node(1)
            }
            .into(),
            "region",
            24,
        ),
        (
            Node {
                zone: label.clone(),
                ..node(1)
            }
            .into(),
            "zone",
            24,
        ),
        (
            Node {
                rack: label.clone(),
                ..node(1)
            }
            .into(),
            "rack",
            24,
        ),
        (
            Node {
                storage_class: long(24),
                ..node(1)
            }
            .into(),
            "storage_class",
            24,
        ),
        (range(1, &"k".repeat(33), "z").into(), "start_key", 32),
        (range(1, "a", &"k".repeat(33)).into(), "end_key", 32),
        (
            Placement {
                replicas: vec![replica; 8],
                ..placement(1, 1)
            }
            .into(),
            "replicas",
            7,
        ),
        (
            Placement {
                policy: Policy {
                    required_storage_class: label,
                    ..policy.clone()
                },
                ..placement(1, 1)
            }
            .into(),
            "required_storage_class",
            24,
        ),
        (
            Placement {
                policy: Policy {
                    preferred_leaders: vec![NodeId(1); 8],
                    ..policy
                },
                ..placement(1, 1)
            }
            .into(),
            "preferred_leaders",
            7,
        ),
    ];
    for (command, field, room) in too_long {
        let error = TooLong {
            field,
            length: room + 1,
            room,
        };
        assert_eq!(command.to_bytes(), Err(error));
        let mut tape = vec![7, 7];
        assert_eq!(command.push(&mut tape), Err(error));
        assert_eq!(tape, [7, 7], "{field}");
        assert_eq!(
            error.to_string(),
            format!(
                "{field}: {} are too many, the tape has room for {room}",
                room + 1
            )
        );
    }
}

/// Lengths that a byte cannot say, or that mean absent, are no others.
#[test]
fn lengths_that_a_byte_cannot_say_are_refused() {
    for length in [49, 255, 256, 304, 65_536] {
        let command = Command::Naming("x".repeat(length).into());
        let error = TooLong {
            field: "name",
            length,
            room: 48,
        };
        assert_eq!(command.to_bytes(), Err(error));
    }
    for count in [8, 255, 256, 263] {
        let leaders = Placement {
            policy: Policy {
                preferred_leaders: vec![NodeId(1); count],
                ..Policy::default()
            },
            ..placement(1, 1)
        };
        let error = TooLong {
            field: "preferred_leaders",
            length: count,
            room: 7,
        };
        assert_eq!(leaders.to_bytes(), Err(error));
    }
}

#[test]
fn the_first_field_that_is_too_long_is_named() {
    let node = Node {
        sql_addr: "x".repeat(49).into(),
        zone: Some("x".repeat(30).into()),
        ..node(1)
    };
    let error = node.to_bytes().expect_err("two are too long");
    assert_eq!(
        (error.field, error.length, error.room),
        ("sql_addr", 49, 48)
    );
}

#[test]
fn an_opening_has_at_most_as_many_tables_as_a_byte_can_say() {
    let tables = |count: u64| Opening {
        group_mark: 0,
        tables: (1..=count)
            .map(|id| Table {
                id: TableId(id),
                tablet_count: 1,
            })
            .collect(),
    };
    assert_eq!(
        tables(255).to_bytes().expect("it has a form").len(),
        9 + 255 * 12
    );
    let error = TooLong {
        field: "tables",
        length: 256,
        room: 255,
    };
    let mut tape = vec![9];
    assert_eq!(tables(256).push(&mut tape), Err(error));
    assert_eq!(tape, [9]);
    assert_eq!(Store::open(&tables(256)), Err(OpenError::TooLong(error)));
}

#[test]
fn answers_are_counted_before_the_call() {
    let all = samples::commands();
    let written = bytes(&all);
    assert_eq!(command_answers(&written), all.len());
    assert_eq!(command_answers(&[]), 0);
    assert_eq!(command_answers(&[7, 7, 7]), 3);
    assert_eq!(command_answers(&[7, 0, 7]), 2);
    assert_eq!(command_answers(&[7, 8, 7]), 2);
    assert_eq!(command_answers(&[7, 255]), 2);
    for (byte, size) in [
        (1, 50),
        (2, 306),
        (3, 10),
        (4, 108),
        (5, 235),
        (6, 49),
        (7, 1),
    ] {
        let mut commands = vec![0; size + 1];
        commands[0] = byte;
        commands[size] = 7;
        assert_eq!(command_answers(&commands), 2, "{byte}");
        assert_eq!(command_answers(&commands[..size]), 1, "{byte}");
        // cut short
        if size > 1 {
            assert_eq!(command_answers(&commands[..size - 1]), 1, "{byte}");
            assert_eq!(command_answers(&commands[..1]), 1, "{byte}");
        }
    }
}
