//! The store that the Rust keeps. An admitted command becomes the Rust's own type, its handler
//! answers, and the answer becomes document 01's number and operands.

use ragnordb_catalog::{MetadataApplyOutcome, MetadataRejection, MetadataState};
use ragnordb_common::ids::{NodeId, RaftGroupId, ReplicaId, TableId, TabletId};
use ragnordb_common::metadata_codec::{
    DesiredReplica, DesiredReplicaPlacement, DesiredReplicaRole, NodeDescriptor, NodeLifecycle,
    PartitionSpec, PlacementPolicy, RetiredReplicaLifetime, TabletDescriptor,
};

use crate::admission::{self, NODE_ROOM, RETIREMENT_ROOM, TABLET_ROOM};
use crate::tape::{
    ABSENT, Answer, Command, Label, Line, Next, Node, Opening, Placement, Reader, Retirement,
    Tablet, Text,
};

/// What a tape gives: its lines, the command byte of each (none for the opening's), and the last
/// store, which is absent after an opening that was refused or cut.
pub struct Run {
    pub lines: Vec<Line>,
    pub bytes: Vec<Option<u8>>,
    pub store: Option<MetadataState>,
}

pub fn run(tape: &[u8]) -> Run {
    let mut reader = Reader::new(tape);
    let mut state = match open(&mut reader) {
        Ok(state) => state,
        Err(answer) => {
            return Run {
                lines: vec![Line { number: 0, answer }],
                bytes: vec![None],
                store: None,
            };
        }
    };
    let mut lines = Vec::new();
    let mut bytes = Vec::new();
    loop {
        let (byte, answer) = match reader.next() {
            Next::End => break,
            Next::Unknown(byte) => (byte, answer(40, [1, byte as u64, 0])),
            Next::Cut(byte) => (byte, answer(40, [2, byte as u64, 0])),
            Next::Command(byte, command) => (byte, judge(&mut state, &command)),
        };
        let number = lines.len() as u64 + 1;
        lines.push(Line { number, answer });
        bytes.push(Some(byte));
        if answer.number == 40 {
            break;
        }
    }
    Run {
        lines,
        bytes,
        store: Some(state),
    }
}

pub fn open(reader: &mut Reader) -> Result<MetadataState, Answer> {
    match reader.opening(admission::TABLE_ROOM) {
        Opening::Cut => Err(answer(40, [2, 0, 0])),
        Opening::Tables { group_mark, tables } if admission::opening_admitted(&tables) => {
            Ok(MetadataState::open(&tables, group_mark))
        }
        _ => Err(answer(10, [admission::OPENING_REASON, 0, 0])),
    }
}

fn answer(number: u64, operands: [u64; 3]) -> Answer {
    Answer { number, operands }
}

/// Admission, then the handler, then the room for a new row.
pub fn judge(state: &mut MetadataState, command: &Command) -> Answer {
    if let Some(reason) = admission::reason(command) {
        return answer(10, [reason, 0, 0]);
    }
    let Some((kind, limit)) = full_table(state, command) else {
        return handle(state, command);
    };
    let mut tried = state.clone();
    let given = handle(&mut tried, command);
    if row_count(&tried, command) > limit {
        return answer(39, [kind, limit as u64, 0]);
    }
    *state = tried;
    given
}

/// The table that the command may add a row to, by its number in 39 and its limit, if it is full.
pub fn full_table(state: &MetadataState, command: &Command) -> Option<(u64, usize)> {
    let (kind, limit) = match command {
        Command::Node(_) => (0, NODE_ROOM),
        Command::Tablet(_) => (1, TABLET_ROOM),
        Command::Retirement(_) => (2, RETIREMENT_ROOM),
        _ => return None,
    };
    (row_count(state, command) >= limit).then_some((kind, limit))
}

fn row_count(state: &MetadataState, command: &Command) -> usize {
    match command {
        Command::Node(_) => state.nodes().count(),
        Command::Tablet(_) => state.tablets().count(),
        Command::Retirement(_) => state.reach_retired().count(),
        _ => 0,
    }
}

fn handle(state: &mut MetadataState, command: &Command) -> Answer {
    match command {
        Command::Naming(name) => {
            let outcome = state.reach_cluster_initialized(text(name));
            outcome_answer(outcome, &NO_OPERANDS)
        }
        Command::Node(node) => {
            let outcome = state.reach_register_node(node_descriptor(node));
            outcome_answer(
                outcome,
                &Missing {
                    field: &|endpoint| endpoint_field(node, endpoint),
                    ..NO_OPERANDS
                },
            )
        }
        Command::Lifecycle { node, lifecycle } => {
            let outcome =
                state.reach_set_node_lifecycle(NodeId(*node), self::lifecycle(*lifecycle));
            outcome_answer(outcome, &NO_OPERANDS)
        }
        Command::Tablet(tablet) => {
            let outcome = state.reach_create_tablet(tablet_descriptor(tablet));
            outcome_answer(
                outcome,
                &Missing {
                    overlapping: &|| lowest_overlapping(state, tablet),
                    ..NO_OPERANDS
                },
            )
        }
        Command::Placement(placement) => {
            let outcome = state.reach_desired_placement(desired_placement(placement));
            outcome_answer(outcome, &NO_OPERANDS)
        }
        Command::Retirement(retirement) => {
            let outcome = state.reach_replica_retirement(retired_lifetime(retirement));
            outcome_answer(outcome, &NO_OPERANDS)
        }
        Command::Pick => match state.reach_initial_placement() {
            None => answer(38, [0; 3]),
            Some((nodes, _)) => {
                let place = |at: usize| nodes.get(at).map_or(0, |node| node.0);
                answer(2, [place(0), place(1), place(2)])
            }
        },
    }
}

/// Operands that document 01 asks for and the Rust's refusal does not hold.
struct Missing<'a> {
    /// 14: which field of the new node holds the endpoint.
    field: &'a dyn Fn(&str) -> u64,
    /// 24: the lowest overlapping tablet.
    overlapping: &'a dyn Fn() -> u64,
}

const NO_OPERANDS: Missing<'static> = Missing {
    field: &|_| unreachable!("only registering clashes over an endpoint"),
    overlapping: &|| unreachable!("past admission only a range is an InvalidCommand"),
};

/// The endpoints of an admitted node differ, so one field holds it.
fn endpoint_field(node: &Node, endpoint: &str) -> u64 {
    node.endpoints
        .iter()
        .position(|field| field.bytes() == endpoint.as_bytes())
        .expect("the endpoint is the new node's") as u64
}

/// Asked only after the handler found an overlap; the tablets come by rising id.
fn lowest_overlapping(state: &MetadataState, tablet: &Tablet) -> u64 {
    state
        .tablets()
        .find(|stored| match &stored.partition {
            PartitionSpec::Range { start_key, end_key } => {
                stored.table_id.0 == tablet.table
                    && MetadataState::reach_ranges_overlap(
                        tablet.start.bytes(),
                        tablet.end.bytes(),
                        start_key,
                        end_key,
                    )
            }
            PartitionSpec::Hash { .. } => false,
        })
        .expect("a stored range overlaps")
        .tablet_id
        .0
}

fn outcome_answer(outcome: MetadataApplyOutcome, missing: &Missing) -> Answer {
    match outcome {
        MetadataApplyOutcome::Applied => answer(0, [0; 3]),
        MetadataApplyOutcome::AlreadyApplied => answer(1, [0; 3]),
        MetadataApplyOutcome::Rejected(rejection) => rejection_answer(rejection, missing),
        other => unreachable!("{other:?} is not an outcome of these handlers"),
    }
}

fn rejection_answer(rejection: MetadataRejection, missing: &Missing) -> Answer {
    use MetadataRejection as R;

    match rejection {
        R::NotInitialized => answer(11, [0; 3]),
        R::ClusterConflict { .. } => answer(12, [0; 3]),
        R::NodeIdConflict(node) => answer(13, [node.0, 0, 0]),
        R::NodeEndpointConflict {
            endpoint,
            existing_node,
            attempted_node,
        } => answer(
            14,
            [existing_node, attempted_node, (missing.field)(&endpoint)],
        ),
        R::InvalidNodeLifecycleTransition { node_id, from, to } => answer(
            15,
            [node_id.0, lifecycle_number(from), lifecycle_number(to)],
        ),
        R::NodeStillExpected {
            node_id,
            raft_group_id,
            replica_id,
        } => answer(16, [node_id.0, raft_group_id.0, replica_id.0]),
        R::UnknownNode(node) => answer(17, [node.0, 0, 0]),
        R::TabletIdConflict(tablet) => answer(18, [tablet.0, 0, 0]),
        R::RaftGroupConflict(group) => answer(19, [group.0, 0, 0]),
        R::UnknownTable(table) => answer(20, [table.0, 0, 0]),
        R::PartitionCountMismatch {
            table_id,
            expected,
            received,
        } => answer(21, [table_id.0, expected as u64, received as u64]),
        R::PartitionConflict { table_id, bucket } => answer(22, [table_id.0, bucket as u64, 0]),
        R::TabletCountExceeded { table_id, limit } => answer(23, [table_id.0, limit as u64, 0]),
        R::InvalidCommand(_) => answer(24, [(missing.overlapping)(), 0, 0]),
        R::UnknownTablet(tablet) => answer(25, [tablet.0, 0, 0]),
        R::NodeNotEligible { node_id, lifecycle } => {
            answer(26, [node_id.0, lifecycle_number(lifecycle), 0])
        }
        R::PlacementStorageClassMismatch { node_id, .. } => answer(27, [node_id.0, 0, 0]),
        R::RetiredReplicaReuse {
            raft_group_id,
            replica_id,
        } => answer(28, [raft_group_id.0, replica_id.0, 0]),
        R::PlacementDomainUnsatisfied {
            domain,
            required,
            observed,
        } => answer(
            29,
            [domain_number(domain), required as u64, observed as u64],
        ),
        R::InitialPlacementEpoch {
            tablet_id,
            received,
        } => answer(30, [tablet_id.0, received, 0]),
        R::PlacementEpochExhausted(tablet) => answer(31, [tablet.0, 0, 0]),
        R::PlacementEpochMismatch {
            tablet_id,
            expected,
            received,
        } => answer(32, [tablet_id.0, expected, received]),
        R::ReplicaHostChanged {
            replica_id,
            previous_node,
            new_node,
        } => answer(33, [replica_id.0, previous_node.0, new_node.0]),
        R::UnsupportedVoterDemotion(replica) => answer(34, [replica.0, 0, 0]),
        R::UnknownRaftGroup(group) => answer(35, [group.0, 0, 0]),
        R::RetirementStillDesired {
            raft_group_id,
            replica_id,
        } => answer(36, [raft_group_id.0, replica_id.0, 0]),
        R::RetirementProofConflict {
            raft_group_id,
            replica_id,
        } => answer(37, [raft_group_id.0, replica_id.0, 0]),
        other => unreachable!("{other:?} is not a refusal of these handlers"),
    }
}

fn lifecycle_number(name: &str) -> u64 {
    match name {
        "active" => 0,
        "draining" => 1,
        "decommissioning" => 2,
        "decommissioned" => 3,
        "tombstoned" => 4,
        "unregistered" => 5,
        other => unreachable!("{other} is not a lifecycle"),
    }
}

fn domain_number(name: &str) -> u64 {
    match name {
        "regions" => 0,
        "zones" => 1,
        "racks" => 2,
        other => unreachable!("{other} is not a domain"),
    }
}

pub fn lifecycle(number: u8) -> NodeLifecycle {
    match number {
        0 => NodeLifecycle::Active,
        1 => NodeLifecycle::Draining,
        2 => NodeLifecycle::Decommissioning,
        3 => NodeLifecycle::Decommissioned,
        4 => NodeLifecycle::Tombstoned,
        other => unreachable!("{other} is not admitted"),
    }
}

fn role(number: u8) -> DesiredReplicaRole {
    match number {
        0 => DesiredReplicaRole::Voter,
        1 => DesiredReplicaRole::Learner,
        other => unreachable!("{other} is not admitted"),
    }
}

/// An admitted text is ASCII.
pub fn text<const WIDTH: usize>(text: &Text<WIDTH>) -> String {
    String::from_utf8(text.bytes().to_vec()).expect("an admitted text is ASCII")
}

fn optional(label: &Label) -> Option<String> {
    (label.length != ABSENT).then(|| text(label))
}

pub fn node_descriptor(node: &Node) -> NodeDescriptor {
    let [raft, snapshot, sql, admin] = &node.endpoints;
    let [region, zone, rack] = &node.labels;
    NodeDescriptor {
        node_id: NodeId(node.id),
        raft_addr: text(raft),
        snapshot_addr: text(snapshot),
        sql_addr: text(sql),
        admin_addr: text(admin),
        region: optional(region),
        zone: optional(zone),
        rack: optional(rack),
        storage_class: text(&node.class),
        lifecycle: lifecycle(node.lifecycle),
    }
}

pub fn tablet_descriptor(tablet: &Tablet) -> TabletDescriptor {
    TabletDescriptor {
        tablet_id: TabletId(tablet.id),
        table_id: TableId(tablet.table),
        raft_group_id: RaftGroupId(tablet.group),
        tablet_epoch: tablet.epoch,
        partition: match tablet.kind {
            0 => PartitionSpec::Hash {
                bucket: tablet.bucket,
                bucket_count: tablet.bucket_count,
            },
            1 => PartitionSpec::Range {
                start_key: tablet.start.bytes().to_vec(),
                end_key: tablet.end.bytes().to_vec(),
            },
            other => unreachable!("{other} is not admitted"),
        },
    }
}

pub fn desired_placement(placement: &Placement) -> DesiredReplicaPlacement {
    let [regions, zones, racks] = placement.minima;
    DesiredReplicaPlacement {
        tablet_id: TabletId(placement.tablet),
        configuration_epoch: placement.epoch,
        replicas: placement.replicas[..placement.count as usize]
            .iter()
            .map(|replica| DesiredReplica {
                replica_id: ReplicaId(replica.id),
                node_id: NodeId(replica.node),
                role: role(replica.role),
            })
            .collect(),
        placement_policy: PlacementPolicy {
            replication_factor: placement.factor,
            min_distinct_regions: regions,
            min_distinct_zones: zones,
            min_distinct_racks: racks,
            required_storage_class: optional(&placement.class),
            preferred_leader_nodes: placement.leaders[..placement.leader_count as usize]
                .iter()
                .map(|leader| NodeId(*leader))
                .collect(),
        },
    }
}

pub fn retired_lifetime(retirement: &Retirement) -> RetiredReplicaLifetime {
    RetiredReplicaLifetime {
        raft_group_id: RaftGroupId(retirement.group),
        replica_id: ReplicaId(retirement.replica),
        desired_configuration_epoch: retirement.epoch,
        removed_conf_state_version: retirement.version,
        removal_index: retirement.index,
        removal_term: retirement.term,
    }
}
