//! A store that lives between calls: commands, questions, its bytes.

mod samples;

use std::thread;

use lupinadze::*;
use samples::{
    bytes, commands, hash, lifecycle, naming, node, opening, placement, range, retirement,
};

/// The opening and all commands as one tape.
fn tape() -> Vec<u8> {
    let mut tape = opening().to_bytes().expect("it has a form");
    tape.extend(bytes(&commands()));
    tape
}

#[test]
fn the_example_of_document_01_in_two_calls() {
    let tape = [
        1, 1, 0, 0, 0, 0, 0, 0, 0, 5, 0, 0, 0, 0, 0, 0, 0, 2, 0, 0, 0, //
        3, 9, 0, 0, 0, 0, 0, 0, 0, 1, 7, 255,
    ];
    let (mut store, taken) = Store::open_bytes(&tape).expect("it is accepted");
    assert_eq!(taken, 21);
    let ended = Answer::BadTape {
        fault: TapeFault::Unknown,
        byte: 255,
    };
    let expected = [Answer::NotInitialized, Answer::NoRegisteredNodes, ended];
    assert_eq!(store.apply(&tape[taken..]), expected);
    let dumped = "name -\ntable 5 2 - incomplete\nmarks 5 1 1 0\nnext replica 1\npick -\n";
    assert_eq!(store.dump(), dumped);
}

#[test]
fn an_opening_that_is_cut_short_gives_no_store() {
    let opening = opening().to_bytes().expect("it has a form");
    let cut = Answer::BadTape {
        fault: TapeFault::Cut,
        byte: 0,
    };
    for length in 0..opening.len() {
        assert_eq!(Store::open_bytes(&opening[..length]), Err(cut));
    }
    let (_, taken) = Store::open_bytes(&opening).expect("it is accepted");
    assert_eq!(taken, opening.len());
}

#[test]
fn commands_in_pieces_leave_what_they_leave_together() {
    let tape = tape();
    let whole = run(&tape);
    let (opened, taken) = Store::open_bytes(&tape).expect("it is accepted");
    let mut together = opened.clone();
    let answers = together.apply(&tape[taken..]);
    let numbers: Vec<_> = answers.iter().map(Answer::numbers).collect();
    assert_eq!(numbers, whole);
    let mut single = opened.clone();
    for (command, answer) in commands().into_iter().zip(&answers) {
        assert_eq!(single.enter(command), Ok(*answer));
    }
    assert_eq!(single, together);
    for size in [2, 3, 5] {
        let mut pieces = opened.clone();
        let mut given = Vec::new();
        for piece in commands().chunks(size) {
            given.extend(pieces.apply(&bytes(piece)));
        }
        assert_eq!(given, answers);
        assert_eq!(pieces, together);
    }
}

#[test]
fn commands_again_are_applied_already() {
    let mut store = samples::store();
    let before = store.clone();
    let answers = store.apply(&bytes(&commands()));
    let expected: Vec<_> = commands()
        .iter()
        .map(|command| match command {
            // registered as Active, and Draining now
            Command::Registering(node) if node.id == NodeId(3) => {
                Answer::InvalidNodeLifecycleTransition {
                    node: NodeId(3),
                    from: Some(Lifecycle::Draining),
                    to: Lifecycle::Active,
                }
            }
            _ => Answer::AlreadyApplied,
        })
        .collect();
    assert_eq!(answers, expected);
    assert_eq!(store, before);
}

#[test]
fn every_cut_of_two_commands_runs_what_is_whole() {
    let store = samples::store();
    let first = bytes(&[lifecycle(1, Lifecycle::Draining)]);
    let both = [first.clone(), hash(9, 0).to_bytes().expect("it has a form")].concat();
    for length in 0..=both.len() {
        let piece = &both[..length];
        let mut cut = store.clone();
        let answers = cut.apply(piece);
        assert_eq!(answers.len(), command_answers(piece), "{length} bytes");
        let cut_short = |byte| Answer::BadTape {
            fault: TapeFault::Cut,
            byte,
        };
        let taken = Answer::PartitionConflict {
            table: TableId(5),
            bucket: 0,
        };
        let expected = match length {
            0 => vec![],
            1..10 => vec![cut_short(3)],
            10 => vec![Answer::Applied],
            11..118 => vec![Answer::Applied, cut_short(4)],
            _ => vec![Answer::Applied, taken],
        };
        assert_eq!(answers, expected, "{length} bytes");
        let moved = Node {
            lifecycle: Lifecycle::Draining,
            ..node(1)
        };
        let stored = if length < 10 { node(1) } else { moved };
        assert_eq!(cut.node(NodeId(1)), Some(stored));
    }
}

#[test]
fn every_unknown_byte_ends_the_commands() {
    let mut store = samples::store();
    for byte in (0..=0).chain(8..=u8::MAX) {
        let picked = Answer::Picked {
            first: NodeId(1),
            second: Some(NodeId(2)),
            third: None,
        };
        let unknown = Answer::BadTape {
            fault: TapeFault::Unknown,
            byte,
        };
        assert_eq!(store.apply(&[7, byte, 7]), [picked, unknown]);
    }
}

#[test]
fn a_list_that_is_too_short_is_told_with_what_is_missing() {
    let mut store = samples::store();
    let before = store.clone();
    let commands = bytes(&[lifecycle(1, Lifecycle::Draining), Command::Picking]);
    for room in 0..8 {
        let mut out = vec![7; room];
        let short = Short { needed: 8, room };
        assert_eq!(store.apply_into(&commands, &mut out), Err(short));
        assert_eq!(out, vec![7; room]);
        assert_eq!(store, before);
    }
    let mut out = [7; 10];
    assert_eq!(store.apply_into(&commands, &mut out), Ok(2));
    assert_eq!(out, [0, 0, 0, 0, 2, 2, 0, 0, 7, 7]);
    assert_eq!(store.apply_into(&[], &mut []), Ok(0));
}

#[test]
fn a_command_without_a_form_is_not_entered() {
    let mut store = samples::store();
    let before = store.clone();
    let long = Node {
        zone: Some("z".repeat(25).into()),
        ..node(4)
    };
    let error = TooLong {
        field: "zone",
        length: 25,
        room: 24,
    };
    assert_eq!(store.enter(long), Err(error));
    assert_eq!(store, before);
}

#[test]
fn rows_come_back_as_they_were_entered() {
    let store = samples::store();
    let draining = Node {
        lifecycle: Lifecycle::Draining,
        ..node(3)
    };
    assert_eq!(store.node(NodeId(1)), Some(node(1)));
    assert_eq!(store.node(NodeId(3)), Some(draining));
    assert_eq!(store.node(NodeId(4)), None);
    assert_eq!(store.node(NodeId(0)), None);
    assert_eq!(store.tablet(TabletId(2)), Some(hash(2, 1)));
    let ranged = range(3, "papyrus/0004", "papyrus/0009");
    assert_eq!(store.tablet(TabletId(3)), Some(ranged));
    assert_eq!(store.tablet(TabletId(4)), None);
    assert_eq!(store.placement(TabletId(1)), Some(placement(1, 1)));
    assert_eq!(store.placement(TabletId(2)), None);
    let group = RaftGroupId(41);
    assert_eq!(store.retirement(group, ReplicaId(13)), Some(retirement(13)));
    assert_eq!(store.retirement(group, ReplicaId(11)), None);
    assert_eq!(store.retirement(RaftGroupId(42), ReplicaId(13)), None);
}

#[test]
fn rows_that_fill_their_fields_come_back() {
    let mut store = samples::store();
    let wide = |letter: char, width| Text::from(letter.to_string().repeat(width));
    let node_of = |id| Node {
        id: NodeId(id),
        raft_addr: wide('r', 48),
        snapshot_addr: wide('s', 48),
        sql_addr: wide('q', 48),
        admin_addr: wide('a', 48),
        region: Some(wide('r', 24)),
        zone: Some(Text::EMPTY),
        rack: None,
        storage_class: wide('c', 24),
        lifecycle: Lifecycle::Active,
    };
    assert_eq!(store.enter(node_of(u64::MAX)), Ok(Answer::Applied));
    assert_eq!(store.node(NodeId(u64::MAX)), Some(node_of(u64::MAX)));
    let tablet = Tablet {
        id: TabletId(u64::MAX),
        table: TableId(7),
        group: RaftGroupId(u64::MAX),
        epoch: u64::MAX,
        partition: Partition::Range {
            start_key: vec![0xFF; 32].into(),
            end_key: Text::EMPTY,
        },
    };
    assert_eq!(store.enter(tablet.clone()), Ok(Answer::Applied));
    assert_eq!(store.tablet(tablet.id), Some(tablet));
    for id in 4..=8 {
        assert_eq!(store.enter(node(id)), Ok(Answer::Applied));
    }
    let hosts = [1, 2, 4, 5, 6, 7, 8];
    let full = Placement {
        tablet: TabletId(u64::MAX),
        epoch: 1,
        replicas: hosts
            .map(|host| Replica {
                id: ReplicaId(u64::MAX - host),
                node: NodeId(host),
                role: Role::Learner,
            })
            .to_vec(),
        policy: Policy {
            replication_factor: 7,
            min_distinct_regions: 1,
            min_distinct_zones: 7,
            min_distinct_racks: 0,
            required_storage_class: None,
            preferred_leaders: hosts.map(NodeId).to_vec(),
        },
    };
    assert_eq!(store.enter(full.clone()), Ok(Answer::Applied));
    assert_eq!(store.placement(full.tablet), Some(full));
}

#[test]
fn the_next_replica_id_is_above_all_that_were_wanted() {
    let mut store = samples::store();
    assert_eq!(store.next_replica_id(), Some(ReplicaId(13)));
    let mut last = placement(1, 2);
    last.replicas[1] = Replica {
        id: ReplicaId(u64::MAX),
        node: NodeId(2),
        role: Role::Learner,
    };
    assert_eq!(store.enter(last), Ok(Answer::Applied));
    assert_eq!(store.next_replica_id(), None);
    assert!(store.dump().contains("\nnext replica -\n"));
}

#[test]
fn a_table_is_complete_with_all_of_its_tablets() {
    let mut store = Store::open(&opening()).expect("it is accepted");
    store.enter(naming()).unwrap().accepted().unwrap();
    for (bucket, complete) in [(0, false), (1, true)] {
        let tablet = hash(u64::from(bucket) + 1, bucket);
        assert_eq!(store.enter(tablet), Ok(Answer::Applied));
        assert_eq!(store.is_complete(TableId(5)), complete);
    }
    assert!(!store.is_complete(TableId(7)));
    assert!(!store.is_complete(TableId(6)));
}

#[test]
fn the_first_choice_and_its_policy() {
    let mut store = Store::open(&opening()).expect("it is accepted");
    let none = store.initial_placement();
    assert_eq!(none.nodes, []);
    assert_eq!(none.policy, Policy::default());
    store.enter(naming()).unwrap().accepted().unwrap();
    // trial P6: regions r1, r1, r2; a rack for node 3 alone
    for (id, region, rack) in [(1, "r1", None), (2, "r1", None), (3, "r2", Some("k1"))] {
        let node = Node {
            region: Some(region.into()),
            rack: rack.map(Text::from),
            ..node(id)
        };
        assert_eq!(store.enter(node), Ok(Answer::Applied));
    }
    let choice = store.initial_placement();
    assert_eq!(choice.nodes, [NodeId(3), NodeId(1), NodeId(2)]);
    let policy = Policy {
        replication_factor: 3,
        min_distinct_regions: 2,
        min_distinct_zones: 3,
        min_distinct_racks: 1,
        required_storage_class: None,
        preferred_leaders: vec![],
    };
    assert_eq!(choice.policy, policy);
    let picked = Answer::Picked {
        first: NodeId(3),
        second: Some(NodeId(1)),
        third: Some(NodeId(2)),
    };
    assert_eq!(store.enter(Command::Picking), Ok(picked));
}

#[test]
fn an_overlap_starts_at_the_later_start() {
    let mut store = samples::store();
    let stored = TabletId(3);
    let from = |start, end| store.overlap_start(stored, &range(9, start, end));
    assert_eq!(
        from("papyrus/0001", "papyrus/0005"),
        Ok(Some("papyrus/0004".into()))
    );
    assert_eq!(from("papyrus/0005", ""), Ok(Some("papyrus/0005".into())));
    assert_eq!(from("", ""), Ok(Some("papyrus/0004".into())));
    assert_eq!(from("papyrus/0004", ""), Ok(Some("papyrus/0004".into())));
    assert_eq!(from("papyrus/0009", ""), Ok(None));
    assert_eq!(from("", "papyrus/0004"), Ok(None));
    let unknown = store.overlap_start(TabletId(9), &range(9, "", ""));
    assert_eq!(unknown, Ok(None));
    // of a Hash tablet all keys
    let hashed = store.overlap_start(TabletId(1), &range(9, "a", "b"));
    assert_eq!(hashed, Ok(Some("a".into())));
    assert_eq!(
        store.overlap_start(TabletId(1), &hash(9, 0)),
        Ok(Some(Text::EMPTY))
    );
    let long = "k".repeat(33);
    let error = TooLong {
        field: "end_key",
        length: 33,
        room: 32,
    };
    assert_eq!(
        store.overlap_start(stored, &range(9, "", &long)),
        Err(error)
    );
    // the tablet that answer 24 names
    let clash = range(9, "papyrus/0008", "");
    let answer = store.enter(clash.clone()).expect("it has a form");
    assert_eq!(answer, Answer::RangeOverlap { tablet: stored });
    assert_eq!(
        store.overlap_start(stored, &clash),
        Ok(Some("papyrus/0008".into()))
    );
}

#[test]
fn the_dump_has_a_line_for_each_row() {
    let store = samples::store();
    let dumped = store.dump();
    let lines: Vec<&str> = dumped.lines().collect();
    let words: Vec<&str> = lines
        .iter()
        .map(|line| line.split(' ').next().unwrap())
        .collect();
    let expected = [
        "name",
        "node",
        "node",
        "node",
        "table",
        "table",
        "tablet",
        "tablet",
        "tablet",
        "placement",
        "placement",
        "retired",
        "marks",
        "next",
        "pick",
    ];
    assert_eq!(words, expected);
    assert_eq!(lines[4], "table 5 2 - complete");
    assert_eq!(lines[5], "table 7 1 - complete");
    assert_eq!(lines[6], "tablet 1 5 41 1 hash 0 2");
    assert_eq!(
        lines[8],
        "tablet 3 7 43 1 range =706170797275732f30303034 =706170797275732f30303039"
    );
    assert_eq!(
        lines[9],
        "placement 1 1 replicas 11:1:0 12:2:0 factor 2 minima 1 2 0 class =737364 leaders 2"
    );
    assert_eq!(lines[11], "retired 41 13 1 2 3 4");
    assert_eq!(lines[12], "marks 7 3 43 12");
    assert_eq!(lines[13], "next replica 13");
    assert_eq!(
        lines[14],
        "pick 1 2 factor 2 minima 1 2 0 class - leaders 0"
    );
    for (number, line) in lines.iter().enumerate() {
        assert_eq!(store.dump_line(number as u64), Some(format!("{line}\n")));
    }
    assert_eq!(store.dump_line(15), None);
    assert_eq!(store.dump_line(u64::MAX), None);
    assert_eq!(format!("{store:?}"), format!("Store\n{dumped}"));
}

#[test]
fn bytes_that_were_kept_are_the_store_again() {
    let mut store = samples::store();
    let mut kept = Store::from_bytes(store.as_bytes()).expect("it is sound");
    assert_eq!(kept, store);
    for command in [lifecycle(2, Lifecycle::Draining), Command::Picking] {
        assert_eq!(kept.enter(command.clone()), store.enter(command));
    }
    assert_eq!(kept, store);
}

#[test]
fn memory_of_another_length_is_no_store() {
    let block = samples::store().as_bytes().to_vec();
    for length in [0, 1, STORE_BYTES - 1] {
        let refused = Store::from_bytes(&block[..length]);
        assert_eq!(refused, Err(NotAStore::Length(length)));
    }
    let longer = [block, vec![0]].concat();
    assert_eq!(
        Store::from_bytes(&longer),
        Err(NotAStore::Length(STORE_BYTES + 1))
    );
    let error = NotAStore::Length(7);
    assert_eq!(
        error.to_string(),
        "a store has 44185 bytes, and these are 7"
    );
}

#[test]
fn zeros_are_the_store_of_a_refused_opening() {
    let mut store = Store::from_bytes(&[0; STORE_BYTES]).expect("it is sound");
    assert_eq!(
        store.dump(),
        "name -\nmarks 0 0 0 0\nnext replica 1\npick -\n"
    );
    assert_eq!(store.enter(node(1)), Ok(Answer::NotInitialized));
}

/// Where the parts of the block stand: crates/layout/specs/Places.antt.
const NODES: usize = 49;
const CATALOG: usize = 9_817;
const TABLETS: usize = CATALOG + 200;
const PLACEMENTS: usize = CATALOG + 7_056;
const MARKS: usize = CATALOG + 34_336;
/// Each table begins with its count.
const COUNT: usize = 8;

/// The store with one part of its block changed by hand.
fn changed(change: impl FnOnce(&mut [u8])) -> Result<Store, NotAStore> {
    let mut block = samples::store().as_bytes().to_vec();
    change(&mut block);
    Store::from_bytes(&block)
}

#[test]
fn memory_that_is_not_sound_is_no_store() {
    let unsound = Err(NotAStore::Unsound);
    assert_eq!(Store::from_bytes(&[0xA5; STORE_BYTES]), unsound);
    assert_eq!(
        NotAStore::Unsound.to_string(),
        "these bytes are no sound store"
    );
    // the name: too long, padding
    assert_eq!(changed(|block| block[0] = 49), unsound);
    assert_eq!(changed(|block| block[48] = 1), unsound);
    // counts over the room, and over the rows that are there
    assert_eq!(changed(|block| block[NODES] = 33), unsound);
    assert_eq!(changed(|block| block[NODES + 7] = 1), unsound);
    assert_eq!(changed(|block| block[NODES] = 5), unsound);
    // a row behind those in use
    assert_eq!(changed(|block| block[NODES] = 2), unsound);
    assert_eq!(changed(|block| block[CATALOG - 1] = 1), unsound);
    // rows that do not rise: the second node is as the first
    assert_eq!(changed(|block| block[NODES + COUNT + 305] = 1), unsound);
    assert_eq!(changed(|block| block[TABLETS + COUNT] = 9), unsound);
    // an endpoint's length and padding
    assert_eq!(changed(|block| block[NODES + COUNT + 8] = 49), unsound);
    assert_eq!(changed(|block| block[NODES + COUNT + 56] = 1), unsound);
    // a label that is absent and has bytes
    assert_eq!(changed(|block| block[NODES + COUNT + 278] = 1), unsound);
    // a node twice in a placement; too many replicas; an unused place; too many leaders
    assert_eq!(
        changed(|block| block[PLACEMENTS + COUNT + 17 + 17 + 8] = 1),
        unsound
    );
    assert_eq!(changed(|block| block[PLACEMENTS + COUNT + 16] = 8), unsound);
    assert_eq!(
        changed(|block| block[PLACEMENTS + COUNT + 135] = 1),
        unsound
    );
    assert_eq!(
        changed(|block| block[PLACEMENTS + COUNT + 177] = 8),
        unsound
    );
    // a mark below a table, a tablet, a group, a replica
    for mark in 0..4 {
        assert_eq!(
            changed(|block| block[MARKS + 8 * mark] = 0),
            unsound,
            "{mark}"
        );
    }
}

#[test]
fn what_no_command_leaves_is_read_where_it_is_sound() {
    let store = changed(|block| block[NODES + COUNT + 304] = 9).expect("it is sound");
    let node = store.node(NodeId(1)).expect("it is stored");
    assert_eq!(node.lifecycle, Lifecycle::Other(9));
    let store = changed(|block| block[PLACEMENTS + COUNT + 33] = 2).expect("it is sound");
    let placement = store.placement(TabletId(1)).expect("it is stored");
    assert_eq!(placement.replicas[0].role, Role::Other(2));
    // tablet 1: bucket 0 of 2
    let store = changed(|block| block[TABLETS + COUNT + 32] = 1).expect("it is sound");
    let partition = Partition::Other {
        kind: 1,
        bucket: 0,
        bucket_count: 2,
        start_key: Text::EMPTY,
        end_key: Text::EMPTY,
    };
    let tablet = store.tablet(TabletId(1)).expect("it is stored");
    assert_eq!(
        tablet,
        Tablet {
            partition,
            ..hash(1, 0)
        }
    );
    // tablet 3, a range, as a bucket: its keys are not lost
    let place = TABLETS + COUNT + 2 * 107;
    let store = changed(|block| block[place + 32] = 0).expect("it is sound");
    let tablet = store.tablet(TabletId(3)).expect("it is stored");
    let partition = Partition::Other {
        kind: 0,
        bucket: 0,
        bucket_count: 0,
        start_key: "papyrus/0004".into(),
        end_key: "papyrus/0009".into(),
    };
    assert_eq!(tablet.partition, partition);
    // a text that is no UTF-8
    let store = changed(|block| block[NODES + COUNT + 9] = 0xFF).expect("it is sound");
    let node = store.node(NodeId(1)).expect("it is stored");
    assert_eq!(node.raft_addr.as_bytes()[0], 0xFF);
    assert_eq!(node.raft_addr.to_string(), "\\xffaft.1:7000");
}

#[test]
fn threads_ask_one_store_at_once() {
    let store = samples::store();
    let dumped = store.dump();
    thread::scope(|scope| {
        for _ in 0..8 {
            scope.spawn(|| {
                for _ in 0..50 {
                    assert_eq!(store.node(NodeId(2)), Some(node(2)));
                    assert_eq!(store.placement(TabletId(1)), Some(placement(1, 1)));
                    assert_eq!(store.next_replica_id(), Some(ReplicaId(13)));
                    assert!(store.is_complete(TableId(5)));
                    assert_eq!(store.initial_placement().nodes, [NodeId(1), NodeId(2)]);
                }
                assert_eq!(store.dump(), dumped);
            });
        }
    });
}

#[test]
fn threads_have_a_store_each() {
    let expected = samples::store();
    let threads: Vec<_> = (0..8).map(|_| thread::spawn(samples::store)).collect();
    for thread in threads {
        assert_eq!(thread.join().expect("it ends"), expected);
    }
}
