//! Every answer and reason, by its numbers, its name and what it says.

use lupinadze::Answer::*;
use lupinadze::*;

const NODE: NodeId = NodeId(4);
const OTHER: NodeId = NodeId(5);
const GROUP: RaftGroupId = RaftGroupId(40);
const REPLICA: ReplicaId = ReplicaId(7);
const TABLET: TabletId = TabletId(3);
const TABLE: TableId = TableId(9);

/// The numbers of an answer, its name, the answer, what it says.
fn every_answer() -> Vec<([u64; 4], &'static str, Answer, &'static str)> {
    vec![
        ([0, 0, 0, 0], "Applied", Applied, "applied"),
        (
            [1, 0, 0, 0],
            "AlreadyApplied",
            AlreadyApplied,
            "already applied",
        ),
        (
            [2, 4, 5, 6],
            "Picked",
            Picked {
                first: NODE,
                second: Some(OTHER),
                third: Some(NodeId(6)),
            },
            "picked node 4, then node 5, then node 6",
        ),
        (
            [2, 4, 0, 0],
            "Picked",
            Picked {
                first: NODE,
                second: None,
                third: None,
            },
            "picked node 4",
        ),
        (
            [10, 3, 0, 0],
            "InvalidCommand",
            InvalidCommand {
                reason: Reason::EqualEndpoints,
            },
            "not admitted: two endpoints of the node are equal",
        ),
        (
            [11, 0, 0, 0],
            "NotInitialized",
            NotInitialized,
            "the cluster has no name yet",
        ),
        (
            [12, 0, 0, 0],
            "ClusterConflict",
            ClusterConflict,
            "the cluster has another name",
        ),
        (
            [13, 4, 0, 0],
            "NodeIdConflict",
            NodeIdConflict { node: NODE },
            "node 4 is registered with another record",
        ),
        (
            [14, 4, 5, 2],
            "NodeEndpointConflict",
            NodeEndpointConflict {
                existing: NODE,
                new: OTHER,
                field: Endpoint::Sql,
            },
            "the sql endpoint of node 5 is taken by node 4",
        ),
        (
            [15, 4, 0, 2],
            "InvalidNodeLifecycleTransition",
            InvalidNodeLifecycleTransition {
                node: NODE,
                from: Some(Lifecycle::Active),
                to: Lifecycle::Decommissioning,
            },
            "node 4 is Active and cannot become Decommissioning",
        ),
        (
            [15, 4, 5, 1],
            "InvalidNodeLifecycleTransition",
            InvalidNodeLifecycleTransition {
                node: NODE,
                from: None,
                to: Lifecycle::Draining,
            },
            "node 4 is not registered and begins as Active, not Draining",
        ),
        (
            [16, 4, 40, 7],
            "NodeStillExpected",
            NodeStillExpected {
                node: NODE,
                group: GROUP,
                replica: REPLICA,
            },
            "node 4 is still wanted by group 40 as replica 7",
        ),
        (
            [17, 4, 0, 0],
            "UnknownNode",
            UnknownNode { node: NODE },
            "there is no node 4",
        ),
        (
            [18, 3, 0, 0],
            "TabletIdConflict",
            TabletIdConflict { tablet: TABLET },
            "tablet 3 is stored with another record",
        ),
        (
            [19, 40, 0, 0],
            "RaftGroupConflict",
            RaftGroupConflict { group: GROUP },
            "group 40 has a tablet already",
        ),
        (
            [20, 9, 0, 0],
            "UnknownTable",
            UnknownTable { table: TABLE },
            "there is no table 9",
        ),
        (
            [21, 9, 4, 8],
            "PartitionCountMismatch",
            PartitionCountMismatch {
                table: TABLE,
                expected: 4,
                received: 8,
            },
            "table 9 has 4 buckets and not 8",
        ),
        (
            [22, 9, 2, 0],
            "PartitionConflict",
            PartitionConflict {
                table: TABLE,
                bucket: 2,
            },
            "bucket 2 of table 9 is taken",
        ),
        (
            [23, 9, 4, 0],
            "TabletCountExceeded",
            TabletCountExceeded {
                table: TABLE,
                limit: 4,
            },
            "table 9 has all of its 4 tablets",
        ),
        (
            [24, 3, 0, 0],
            "RangeOverlap",
            RangeOverlap { tablet: TABLET },
            "the range overlaps that of tablet 3",
        ),
        (
            [25, 3, 0, 0],
            "UnknownTablet",
            UnknownTablet { tablet: TABLET },
            "there is no tablet 3, or none with a placement",
        ),
        (
            [26, 4, 1, 0],
            "NodeNotEligible",
            NodeNotEligible {
                node: NODE,
                lifecycle: Lifecycle::Draining,
            },
            "node 4 is Draining and not eligible",
        ),
        (
            [27, 4, 0, 0],
            "PlacementStorageClassMismatch",
            PlacementStorageClassMismatch { node: NODE },
            "node 4 has another storage class than is required",
        ),
        (
            [28, 40, 7, 0],
            "RetiredReplicaReuse",
            RetiredReplicaReuse {
                group: GROUP,
                replica: REPLICA,
            },
            "replica 7 of group 40 is retired and does not come back",
        ),
        (
            [29, 1, 3, 2],
            "PlacementDomainUnsatisfied",
            PlacementDomainUnsatisfied {
                domain: Domain::Zone,
                required: 3,
                observed: 2,
            },
            "the nodes have 2 distinct zones, and 3 are required",
        ),
        (
            [30, 3, 2, 0],
            "InitialPlacementEpoch",
            InitialPlacementEpoch {
                tablet: TABLET,
                received: 2,
            },
            "the first placement of tablet 3 has epoch 1 and not 2",
        ),
        (
            [31, 3, 0, 0],
            "PlacementEpochExhausted",
            PlacementEpochExhausted { tablet: TABLET },
            "tablet 3 has no epoch left",
        ),
        (
            [32, 3, 2, 1],
            "PlacementEpochMismatch",
            PlacementEpochMismatch {
                tablet: TABLET,
                expected: 2,
                received: 1,
            },
            "for tablet 3 epoch 2 is expected and not 1",
        ),
        (
            [33, 7, 4, 5],
            "ReplicaHostChanged",
            ReplicaHostChanged {
                replica: REPLICA,
                old: NODE,
                new: OTHER,
            },
            "replica 7 stands on node 4 and does not move to node 5",
        ),
        (
            [34, 7, 0, 0],
            "UnsupportedVoterDemotion",
            UnsupportedVoterDemotion { replica: REPLICA },
            "replica 7 is a voter and does not become a learner",
        ),
        (
            [35, 40, 0, 0],
            "UnknownRaftGroup",
            UnknownRaftGroup { group: GROUP },
            "no tablet has group 40",
        ),
        (
            [36, 40, 7, 0],
            "RetirementStillDesired",
            RetirementStillDesired {
                group: GROUP,
                replica: REPLICA,
            },
            "replica 7 of group 40 is still wanted",
        ),
        (
            [37, 40, 7, 0],
            "RetirementProofConflict",
            RetirementProofConflict {
                group: GROUP,
                replica: REPLICA,
            },
            "replica 7 of group 40 is retired with another proof",
        ),
        (
            [38, 0, 0, 0],
            "NoRegisteredNodes",
            NoRegisteredNodes,
            "no node is Active",
        ),
        (
            [39, 1, 64, 0],
            "TableFull",
            TableFull {
                table: TableKind::Tablets,
                limit: 64,
            },
            "there is room for 64 tablets, and all of it is taken",
        ),
        (
            [40, 1, 255, 0],
            "BadTape",
            BadTape {
                fault: TapeFault::Unknown,
                byte: 255,
            },
            "byte 255 is no command",
        ),
        (
            [40, 2, 5, 0],
            "BadTape",
            BadTape {
                fault: TapeFault::Cut,
                byte: 5,
            },
            "the command with byte 5 is cut short",
        ),
        (
            [40, 2, 0, 0],
            "BadTape",
            BadTape {
                fault: TapeFault::Cut,
                byte: 0,
            },
            "the opening is cut short",
        ),
    ]
}

#[test]
fn every_answer_goes_to_its_numbers_and_back() {
    for (numbers, name, answer, said) in every_answer() {
        assert_eq!(answer.numbers(), numbers, "{name}");
        assert_eq!(Answer::from_numbers(numbers), Some(answer), "{name}");
        assert_eq!(answer.number(), numbers[0], "{name}");
        assert_eq!(answer.name(), name);
        assert_eq!(answer.to_string(), said);
        assert_eq!(answer.is_refusal(), numbers[0] > 2, "{name}");
        let accepted = match numbers[0] {
            0..=2 => Ok(answer),
            _ => Err(answer),
        };
        assert_eq!(answer.accepted(), accepted);
    }
}

#[test]
fn the_list_above_has_every_number() {
    let listed: Vec<u64> = every_answer()
        .iter()
        .map(|(numbers, ..)| numbers[0])
        .collect();
    for number in (0..=2).chain(10..=40) {
        assert!(listed.contains(&number), "{number}");
    }
}

#[test]
fn other_numbers_are_no_answer() {
    for number in (3..=9).chain([41, 255, 256, u64::MAX]) {
        assert_eq!(Answer::from_numbers([number, 0, 0, 0]), None, "{number}");
    }
}

#[test]
fn operands_that_are_missing_are_zero() {
    for (numbers, name, ..) in every_answer() {
        for place in 1..4 {
            let mut changed = numbers;
            changed[place] = u64::MAX;
            // either an operand stands there, and the number comes back, or there is no such answer
            let read = Answer::from_numbers(changed);
            assert!(
                read.is_none_or(|answer| answer.numbers() == changed),
                "{name} {place}"
            );
        }
    }
    assert_eq!(Answer::from_numbers([0, 1, 0, 0]), None);
    assert_eq!(Answer::from_numbers([17, 4, 0, 1]), None);
    assert_eq!(Answer::from_numbers([28, 40, 7, 1]), None);
}

#[test]
fn operands_outside_what_they_name_are_no_answer() {
    for numbers in [
        [10, 0, 0, 0],
        [10, 11, 0, 0],
        [10, 13, 0, 0],
        [14, 4, 5, 4],
        [15, 4, 0, 256],
        [15, 4, 256, 0],
        [21, 9, 1 << 32, 8],
        [22, 9, 1 << 32, 0],
        [26, 4, 256, 0],
        [29, 3, 1, 0],
        [39, 3, 32, 0],
        [40, 0, 1, 0],
        [40, 3, 1, 0],
        [40, 1, 256, 0],
    ] {
        assert_eq!(Answer::from_numbers(numbers), None, "{numbers:?}");
    }
}

#[test]
fn every_reason_goes_to_its_number_and_back() {
    let reasons = [
        (1, Reason::ZeroId),
        (2, Reason::Text),
        (3, Reason::EqualEndpoints),
        (4, Reason::BlankClass),
        (5, Reason::UnknownVariant),
        (6, Reason::Partition),
        (7, Reason::Replicas),
        (8, Reason::Minima),
        (9, Reason::Leaders),
        (10, Reason::Opening),
        (12, Reason::UnsoundStore),
    ];
    for (number, reason) in reasons {
        assert_eq!(reason.number(), number);
        assert_eq!(Reason::from_number(number), Some(reason));
        let answer = InvalidCommand { reason };
        assert_eq!(answer.numbers(), [10, number, 0, 0]);
        assert_eq!(answer.to_string(), format!("not admitted: {reason}"));
    }
    for number in [0, 11, 13, u64::MAX] {
        assert_eq!(Reason::from_number(number), None);
    }
}

#[test]
fn every_lifecycle_and_role_goes_to_its_number_and_back() {
    for number in 0..=u8::MAX {
        let lifecycle = Lifecycle::from_number(number);
        assert_eq!(lifecycle.number(), number);
        assert_eq!(lifecycle == Lifecycle::Other(number), number > 4);
        let role = Role::from_number(number);
        assert_eq!(role.number(), number);
        assert_eq!(role == Role::Other(number), number > 1);
    }
    assert_eq!(Lifecycle::Tombstoned.to_string(), "Tombstoned");
    assert_eq!(Lifecycle::Other(9).to_string(), "in lifecycle 9");
}

/// The words in sentences, by their numbers.
#[test]
fn what_answers_name_is_said() {
    let said =
        |said: &dyn Fn(u64) -> Option<String>| -> Vec<String> { (0..5).filter_map(said).collect() };
    let endpoints = said(&|number| Endpoint::from_number(number).map(|it| it.to_string()));
    assert_eq!(endpoints, ["raft", "snapshot", "sql", "admin"]);
    let domains = said(&|number| Domain::from_number(number).map(|it| it.to_string()));
    assert_eq!(domains, ["regions", "zones", "racks"]);
    let tables = said(&|number| TableKind::from_number(number).map(|it| it.to_string()));
    assert_eq!(tables, ["nodes", "tablets", "retirements"]);
    let faults = said(&|number| TapeFault::from_number(number).map(|it| it.to_string()));
    assert_eq!(faults, ["an unknown byte", "cut short"]);
    let lifecycles: Vec<_> = (0..5)
        .map(Lifecycle::from_number)
        .map(|it| it.to_string())
        .collect();
    assert_eq!(
        lifecycles,
        [
            "Active",
            "Draining",
            "Decommissioning",
            "Decommissioned",
            "Tombstoned"
        ]
    );
}
