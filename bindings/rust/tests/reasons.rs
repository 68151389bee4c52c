//! Every reason for which a command, an opening or a store is not admitted, and every answer that a refusal
//! of a whole store needs.

mod samples;

use lupinadze::*;
use samples::{hash, lifecycle, naming, node, opening, placement, range, retirement};

fn answer(command: impl Into<Command>) -> Answer {
    let mut store = samples::store();
    let before = store.clone();
    let answer = store.enter(command).expect("it has a form");
    assert!(answer.is_refusal());
    assert_eq!(store, before, "a refused command changes nothing");
    answer
}

fn refused(command: impl Into<Command>, reason: Reason) {
    assert_eq!(answer(command), Answer::InvalidCommand { reason });
}

/// A sound command whose bytes are changed, so that it has a form that no builder gives.
fn refused_bytes(command: impl Into<Command>, change: impl FnOnce(&mut Vec<u8>), reason: Reason) {
    let mut store = samples::store();
    let before = store.clone();
    let mut bytes = command.into().to_bytes().expect("it has a form");
    change(&mut bytes);
    assert_eq!(store.apply(&bytes), [Answer::InvalidCommand { reason }]);
    assert_eq!(store, before, "a refused command changes nothing");
}

#[test]
fn an_id_is_zero() {
    refused(node(0), Reason::ZeroId);
    refused(lifecycle(0, Lifecycle::Draining), Reason::ZeroId);
    refused(hash(0, 0), Reason::ZeroId);
    let nowhere = Tablet {
        table: TableId(0),
        ..hash(9, 0)
    };
    refused(nowhere, Reason::ZeroId);
    let alone = Tablet {
        group: RaftGroupId(0),
        ..hash(9, 0)
    };
    refused(alone, Reason::ZeroId);
    refused(placement(0, 1), Reason::ZeroId);
    refused(retirement(0), Reason::ZeroId);
    let mut unnumbered = placement(1, 2);
    unnumbered.replicas[1].id = ReplicaId(0);
    refused(unnumbered, Reason::ZeroId);
    let mut unplaced = placement(1, 2);
    unplaced.replicas[1].node = NodeId(0);
    refused(unplaced, Reason::ZeroId);
}

#[test]
fn a_text_is_not_admitted() {
    refused(Command::Naming(Text::EMPTY), Reason::Text);
    refused(Command::Naming("a\tb".into()), Reason::Text);
    let spaced = Node {
        sql_addr: "sql 4".into(),
        ..node(4)
    };
    refused(spaced, Reason::Text);
    let umlaut = Node {
        region: Some("süd".into()),
        ..node(4)
    };
    refused(umlaut, Reason::Text);
    refused_bytes(naming(), |bytes| bytes[49] = b'x', Reason::Text);
    refused_bytes(naming(), |bytes| bytes[1] = 49, Reason::Text);
    refused_bytes(range(4, "a", "b"), |bytes| bytes[74] = 1, Reason::Text);
}

#[test]
fn two_endpoints_are_equal() {
    let doubled = Node {
        admin_addr: "raft.4:7000".into(),
        ..node(4)
    };
    refused(doubled, Reason::EqualEndpoints);
}

#[test]
fn a_class_is_blank() {
    let empty = Node {
        storage_class: Text::EMPTY,
        ..node(4)
    };
    refused(empty, Reason::BlankClass);
    let mut spaces = placement(1, 2);
    spaces.policy.required_storage_class = Some("   ".into());
    refused(spaces, Reason::BlankClass);
}

#[test]
fn there_is_no_such_variant() {
    refused(lifecycle(1, Lifecycle::Other(5)), Reason::UnknownVariant);
    let strange = Node {
        lifecycle: Lifecycle::Other(255),
        ..node(4)
    };
    refused(strange, Reason::UnknownVariant);
    let mut watching = placement(1, 2);
    watching.replicas[0].role = Role::Other(2);
    refused(watching, Reason::UnknownVariant);
    let listed = Tablet {
        partition: Partition::Other {
            kind: 2,
            bucket: 0,
            bucket_count: 0,
            start_key: Text::EMPTY,
            end_key: Text::EMPTY,
        },
        ..hash(4, 0)
    };
    refused(listed, Reason::UnknownVariant);
}

#[test]
fn a_partition_is_none() {
    refused(hash(4, 2), Reason::Partition);
    refused(range(4, "b", "a"), Reason::Partition);
    refused(range(4, "a", "a"), Reason::Partition);
    let both = Tablet {
        partition: Partition::Other {
            kind: 1,
            bucket: 0,
            bucket_count: 2,
            start_key: "a".into(),
            end_key: "b".into(),
        },
        ..hash(4, 0)
    };
    refused(both, Reason::Partition);
}

#[test]
fn the_replicas_are_not_admitted() {
    let none = Placement {
        replicas: vec![],
        ..placement(1, 2)
    };
    refused(none, Reason::Replicas);
    let mut more = placement(1, 2);
    more.policy.replication_factor = 3;
    refused(more, Reason::Replicas);
    let mut twice = placement(1, 2);
    twice.replicas[1].id = twice.replicas[0].id;
    refused(twice, Reason::Replicas);
    let mut together = placement(1, 2);
    together.replicas[1].node = together.replicas[0].node;
    refused(together, Reason::Replicas);
    refused_bytes(placement(1, 2), |bytes| bytes[17] = 8, Reason::ZeroId);
    refused_bytes(placement(1, 2), |bytes| bytes[136] = 1, Reason::Replicas);
}

#[test]
fn a_minimum_is_above_the_factor() {
    let mut wide = placement(1, 2);
    wide.policy.min_distinct_racks = 3;
    refused(wide, Reason::Minima);
}

#[test]
fn the_leaders_are_not_admitted() {
    let mut twice = placement(1, 2);
    twice.policy.preferred_leaders = vec![NodeId(1), NodeId(1)];
    refused(twice, Reason::Leaders);
    let mut nobody = placement(1, 2);
    nobody.policy.preferred_leaders = vec![NodeId(0)];
    refused(nobody, Reason::Leaders);
    refused_bytes(placement(1, 2), |bytes| bytes[234] = 1, Reason::Leaders);
    refused_bytes(placement(1, 2), |bytes| bytes[178] = 8, Reason::Leaders);
}

#[test]
fn an_opening_is_refused() {
    let refused = |tables: Vec<Table>| {
        let reason = Reason::Opening;
        let answer = Answer::InvalidCommand { reason };
        let opening = Opening {
            group_mark: 1,
            tables,
        };
        assert_eq!(Store::open(&opening), Err(OpenError::Refused(answer)));
        let bytes = opening.to_bytes().expect("it has a form");
        assert_eq!(Store::open_bytes(&bytes), Err(answer));
        assert_eq!(run(&bytes), [[10, 10, 0, 0]]);
    };
    let table = |id, tablet_count| Table {
        id: TableId(id),
        tablet_count,
    };
    refused((1..=17).map(|id| table(id, 1)).collect());
    refused(vec![table(0, 1)]);
    refused(vec![table(1, 0)]);
    refused(vec![table(1, 1), table(2, 1), table(1, 2)]);
}

#[test]
fn the_lowest_reason_is_given() {
    let node = Node {
        admin_addr: "raft.0:7000".into(),
        storage_class: Text::EMPTY,
        lifecycle: Lifecycle::Other(9),
        ..node(0)
    };
    refused(node.clone(), Reason::ZeroId);
    let named = Node {
        id: NodeId(4),
        ..node
    };
    refused(named.clone(), Reason::EqualEndpoints);
    let spread = Node {
        admin_addr: "admin.0:7000".into(),
        ..named
    };
    refused(spread, Reason::BlankClass);
}

/// One refusal of each kind that a store can give behind admission, and what it names.
#[test]
fn refusals_name_what_is_in_the_way() {
    use Answer::*;

    let node_of = |id, addresses: u64| Node {
        id: NodeId(id),
        ..node(addresses)
    };
    let (node_1, node_3) = (NodeId(1), NodeId(3));
    let (group, replica) = (RaftGroupId(41), ReplicaId(11));
    let tablet = TabletId(1);
    let placed = |change: fn(&mut Placement)| {
        let mut placement = placement(1, 2);
        change(&mut placement);
        Command::from(placement)
    };
    let cases: Vec<(Command, Answer)> = vec![
        (Command::Naming("papyri".into()), ClusterConflict),
        (node_of(1, 9).into(), NodeIdConflict { node: node_1 }),
        (
            node_of(9, 1).into(),
            NodeEndpointConflict {
                existing: node_1,
                new: NodeId(9),
                field: Endpoint::Raft,
            },
        ),
        (
            Node {
                lifecycle: Lifecycle::Draining,
                ..node(9)
            }
            .into(),
            InvalidNodeLifecycleTransition {
                node: NodeId(9),
                from: None,
                to: Lifecycle::Draining,
            },
        ),
        (
            lifecycle(1, Lifecycle::Tombstoned),
            InvalidNodeLifecycleTransition {
                node: node_1,
                from: Some(Lifecycle::Active),
                to: Lifecycle::Tombstoned,
            },
        ),
        (
            lifecycle(9, Lifecycle::Draining),
            UnknownNode { node: NodeId(9) },
        ),
        (hash(1, 1).into(), TabletIdConflict { tablet }),
        (
            Tablet {
                group,
                ..hash(9, 0)
            }
            .into(),
            RaftGroupConflict { group },
        ),
        (
            Tablet {
                table: TableId(6),
                ..hash(9, 0)
            }
            .into(),
            UnknownTable { table: TableId(6) },
        ),
        (
            Tablet {
                table: TableId(7),
                ..hash(9, 0)
            }
            .into(),
            PartitionCountMismatch {
                table: TableId(7),
                expected: 1,
                received: 2,
            },
        ),
        (
            hash(9, 0).into(),
            PartitionConflict {
                table: TableId(5),
                bucket: 0,
            },
        ),
        (
            range(9, "papyrus/0008", "").into(),
            RangeOverlap {
                tablet: TabletId(3),
            },
        ),
        (
            placement(9, 1).into(),
            UnknownTablet {
                tablet: TabletId(9),
            },
        ),
        (
            placed(|placement| placement.replicas[1].node = NodeId(3)),
            NodeNotEligible {
                node: node_3,
                lifecycle: Lifecycle::Draining,
            },
        ),
        (
            placed(|placement| placement.policy.required_storage_class = Some("tape".into())),
            PlacementStorageClassMismatch { node: node_1 },
        ),
        (
            placed(|placement| placement.replicas[0].id = ReplicaId(13)),
            RetiredReplicaReuse {
                group,
                replica: ReplicaId(13),
            },
        ),
        (
            placed(|placement| placement.policy.min_distinct_racks = 1),
            PlacementDomainUnsatisfied {
                domain: Domain::Rack,
                required: 1,
                observed: 0,
            },
        ),
        (
            placement(2, 7).into(),
            InitialPlacementEpoch {
                tablet: TabletId(2),
                received: 7,
            },
        ),
        (
            placement(1, 7).into(),
            PlacementEpochMismatch {
                tablet,
                expected: 2,
                received: 7,
            },
        ),
        (
            placed(|placement| {
                placement.replicas[0].node = NodeId(2);
                placement.replicas[1].node = NodeId(1);
            }),
            ReplicaHostChanged {
                replica,
                old: node_1,
                new: NodeId(2),
            },
        ),
        (
            placed(|placement| placement.replicas[0].role = Role::Learner),
            UnsupportedVoterDemotion { replica },
        ),
        (
            Retirement {
                group: RaftGroupId(9),
                ..retirement(1)
            }
            .into(),
            UnknownRaftGroup {
                group: RaftGroupId(9),
            },
        ),
        (
            retirement(11).into(),
            RetirementStillDesired { group, replica },
        ),
        (
            Retirement {
                removal_term: 5,
                ..retirement(13)
            }
            .into(),
            RetirementProofConflict {
                group,
                replica: ReplicaId(13),
            },
        ),
        (
            Retirement {
                group: RaftGroupId(42),
                ..retirement(1)
            }
            .into(),
            UnknownTablet {
                tablet: TabletId(2),
            },
        ),
        (
            Retirement {
                desired_epoch: 9,
                ..retirement(14)
            }
            .into(),
            PlacementEpochMismatch {
                tablet,
                expected: 1,
                received: 9,
            },
        ),
    ];
    for (command, expected) in cases {
        assert_eq!(answer(command.clone()), expected, "{command:?}");
    }
}

#[test]
fn a_copy_is_still_wanted() {
    let mut store = samples::store();
    store
        .enter(lifecycle(1, Lifecycle::Draining))
        .unwrap()
        .accepted()
        .unwrap();
    store
        .enter(lifecycle(1, Lifecycle::Decommissioning))
        .unwrap()
        .accepted()
        .unwrap();
    let answer = store
        .enter(lifecycle(1, Lifecycle::Decommissioned))
        .unwrap();
    let expected = Answer::NodeStillExpected {
        node: NodeId(1),
        group: RaftGroupId(41),
        replica: ReplicaId(11),
    };
    assert_eq!(answer, expected);
    assert_eq!(
        answer.to_string(),
        "node 1 is still wanted by group 41 as replica 11"
    );
}

#[test]
fn a_table_is_full() {
    let mut store = Store::open(&opening()).expect("it is accepted");
    store.enter(naming()).unwrap().accepted().unwrap();
    for id in 1..=NODE_ROOM as u64 {
        assert_eq!(store.enter(node(id)), Ok(Answer::Applied));
    }
    let full = Answer::TableFull {
        table: TableKind::Nodes,
        limit: 32,
    };
    assert_eq!(store.enter(node(33)), Ok(full));
    // all of a table's tablets
    store.enter(hash(1, 0)).unwrap().accepted().unwrap();
    store
        .enter(Tablet {
            table: TableId(5),
            ..range(2, "", "")
        })
        .unwrap()
        .accepted()
        .unwrap();
    let exceeded = Answer::TabletCountExceeded {
        table: TableId(5),
        limit: 2,
    };
    assert_eq!(store.enter(hash(3, 1)), Ok(exceeded));
}

#[test]
fn an_epoch_is_the_last() {
    // no tape reaches it: the stored epoch is written into the block, where the row stands
    let store = samples::store();
    let row = &placement(1, 1).to_bytes().unwrap()[1..];
    let mut block = store.as_bytes().to_vec();
    let at = block
        .windows(row.len())
        .position(|bytes| bytes == row)
        .expect("it is stored");
    block[at + 8..at + 16].fill(255);
    let mut store = Store::from_bytes(&block).expect("an epoch does not make it unsound");
    let tablet = TabletId(1);
    let exhausted = Answer::PlacementEpochExhausted { tablet };
    assert_eq!(store.enter(placement(1, 2)), Ok(exhausted));
    assert_eq!(
        store.placement(tablet).expect("it is stored").epoch,
        u64::MAX
    );
}
