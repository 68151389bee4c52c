//! Answers: names, numbers and operands, as docs/FORMAT.md has them.

use std::fmt;

use crate::ids::{NodeId, RaftGroupId, ReplicaId, TableId, TabletId};
use crate::kinds::{Domain, Endpoint, Lifecycle, Reason, TableKind, TapeFault};

/// What stands in one of an answer's operands.
trait Operand: Sized {
    fn to_number(self) -> u64;
    fn from_number(number: u64) -> Option<Self>;
}

macro_rules! id_operand {
    ($($name:ident)*) => {
        $(impl Operand for $name {
            fn to_number(self) -> u64 {
                self.0
            }

            fn from_number(number: u64) -> Option<Self> {
                Some(Self(number))
            }
        })*
    };
}

macro_rules! number_operand {
    ($($name:ident)*) => {
        $(impl Operand for $name {
            fn to_number(self) -> u64 {
                self.into()
            }

            fn from_number(number: u64) -> Option<Self> {
                number.try_into().ok()
            }
        })*
    };
}

macro_rules! numbered_operand {
    ($($name:ident)*) => {
        $(impl Operand for $name {
            fn to_number(self) -> u64 {
                self.number()
            }

            fn from_number(number: u64) -> Option<Self> {
                Self::from_number(number)
            }
        })*
    };
}

id_operand!(NodeId RaftGroupId ReplicaId TableId TabletId);
number_operand!(u8 u32 u64);
numbered_operand!(Domain Endpoint Reason TableKind TapeFault);

impl Operand for Lifecycle {
    fn to_number(self) -> u64 {
        self.number().into()
    }

    fn from_number(number: u64) -> Option<Self> {
        number.try_into().ok().map(Self::from_number)
    }
}

/// The number in a lifecycle's place of a node that is not registered.
const UNREGISTERED: u64 = 5;

impl Operand for Option<Lifecycle> {
    fn to_number(self) -> u64 {
        self.map_or(UNREGISTERED, Operand::to_number)
    }

    fn from_number(number: u64) -> Option<Self> {
        match number {
            UNREGISTERED => Some(None),
            number => Operand::from_number(number).map(Some),
        }
    }
}

/// A place that is not filled is 0.
impl Operand for Option<NodeId> {
    fn to_number(self) -> u64 {
        self.map_or(0, Operand::to_number)
    }

    fn from_number(number: u64) -> Option<Self> {
        match number {
            0 => Some(None),
            number => Some(Some(NodeId(number))),
        }
    }
}

/// The three operands of an answer, taken from the front.
struct Operands(std::array::IntoIter<u64, 3>);

impl Operands {
    fn take<T: Operand>(&mut self) -> Option<T> {
        T::from_number(self.0.next()?)
    }

    /// "Missing ones are 0."
    fn rest_is_zero(mut self) -> bool {
        self.0.all(|operand| operand == 0)
    }
}

fn with_zeros(number: u64, operands: &[u64]) -> [u64; 4] {
    let mut numbers = [number, 0, 0, 0];
    numbers[1..=operands.len()].copy_from_slice(operands);
    numbers
}

macro_rules! answers {
    ($($(#[$doc:meta])* $number:literal $name:ident $({ $($(#[$operand_doc:meta])* $operand:ident: $type:ty,)* })?)*) => {
        /// What a command is answered. [`Applied`](Answer::Applied),
        /// [`AlreadyApplied`](Answer::AlreadyApplied) and [`Picked`](Answer::Picked) are no refusals, all
        /// others are, and a refused command changes nothing.
        #[derive(Debug, Clone, Copy, PartialEq, Eq, Hash)]
        pub enum Answer {
            $($(#[$doc])* $name $({ $($(#[$operand_doc])* $operand: $type,)* })?,)*
        }

        impl Answer {
            /// The answer's number.
            pub fn number(&self) -> u64 {
                match self {
                    $(Self::$name { .. } => $number,)*
                }
            }

            /// Document 01's name.
            pub fn name(&self) -> &'static str {
                match self {
                    $(Self::$name { .. } => stringify!($name),)*
                }
            }

            /// The number and the three operands, as the library writes them.
            pub fn numbers(&self) -> [u64; 4] {
                match *self {
                    $(Self::$name $({ $($operand,)* })? => with_zeros($number, &[$($($operand.to_number(),)*)?]),)*
                }
            }

            /// The answer that has these numbers, if one has.
            pub fn from_numbers(numbers: [u64; 4]) -> Option<Self> {
                let [number, first, second, third] = numbers;
                #[allow(unused_mut)]
                let mut operands = Operands([first, second, third].into_iter());
                let answer = match number {
                    $($number => Self::$name $({ $($operand: operands.take()?,)* })?,)*
                    _ => return None,
                };
                operands.rest_is_zero().then_some(answer)
            }
        }
    };
}

answers! {
    /// The command is carried out.
    0 Applied
    /// What the command asks for stands already.
    1 AlreadyApplied
    /// The first choice, in the order of choice.
    2 Picked {
        /// The node that is chosen first.
        first: NodeId,
        /// The second, if there is one.
        second: Option<NodeId>,
        /// The third, if there is one.
        third: Option<NodeId>,
    }
    /// A command, an opening or a store that is not admitted.
    10 InvalidCommand {
        /// The lowest reason that applies.
        reason: Reason,
    }
    /// The cluster has no name yet.
    11 NotInitialized
    /// The cluster has another name.
    12 ClusterConflict
    /// The node is registered with another record.
    13 NodeIdConflict {
        /// The node.
        node: NodeId,
    }
    /// An endpoint is taken.
    14 NodeEndpointConflict {
        /// The node that has it.
        existing: NodeId,
        /// The node of the command.
        new: NodeId,
        /// Which endpoint of the new node it is.
        field: Endpoint,
    }
    /// A lifecycle moves by one step only, and forward.
    15 InvalidNodeLifecycleTransition {
        /// The node.
        node: NodeId,
        /// What it is; none where it is not registered (5 in the numbers).
        from: Option<Lifecycle>,
        /// What it was to be.
        to: Lifecycle,
    }
    /// A copy is still wanted on the node.
    16 NodeStillExpected {
        /// The node.
        node: NodeId,
        /// The group that wants it there.
        group: RaftGroupId,
        /// The replica that stands there.
        replica: ReplicaId,
    }
    /// There is no such node.
    17 UnknownNode {
        /// The node.
        node: NodeId,
    }
    /// The tablet is stored with another record.
    18 TabletIdConflict {
        /// The tablet.
        tablet: TabletId,
    }
    /// The group has a tablet.
    19 RaftGroupConflict {
        /// The group.
        group: RaftGroupId,
    }
    /// There is no such table.
    20 UnknownTable {
        /// The table.
        table: TableId,
    }
    /// The bucket count is not the table's tablet count.
    21 PartitionCountMismatch {
        /// The table.
        table: TableId,
        /// Its tablet count.
        expected: u32,
        /// The command's bucket count.
        received: u32,
    }
    /// The bucket is taken.
    22 PartitionConflict {
        /// The table.
        table: TableId,
        /// The bucket.
        bucket: u32,
    }
    /// The table has all of its tablets.
    23 TabletCountExceeded {
        /// The table.
        table: TableId,
        /// Its tablet count.
        limit: u32,
    }
    /// The range overlaps a stored one; [`Store::overlap_start`](crate::Store::overlap_start) says from which key on.
    24 RangeOverlap {
        /// The overlapping tablet with the lowest id.
        tablet: TabletId,
    }
    /// There is no such tablet; or, where a replica is to be retired, it has no placement.
    25 UnknownTablet {
        /// The tablet.
        tablet: TabletId,
    }
    /// The node takes no copy, or is no leader.
    26 NodeNotEligible {
        /// The node.
        node: NodeId,
        /// What it is.
        lifecycle: Lifecycle,
    }
    /// The node has another storage class than the one required.
    27 PlacementStorageClassMismatch {
        /// The node.
        node: NodeId,
    }
    /// A retired replica's number does not come back.
    28 RetiredReplicaReuse {
        /// The group.
        group: RaftGroupId,
        /// The replica.
        replica: ReplicaId,
    }
    /// The replicas' nodes have too few distinct labels.
    29 PlacementDomainUnsatisfied {
        /// Of which kind.
        domain: Domain,
        /// How many the policy asks for.
        required: u32,
        /// How many there are.
        observed: u32,
    }
    /// A tablet's first placement has epoch 1.
    30 InitialPlacementEpoch {
        /// The tablet.
        tablet: TabletId,
        /// The command's epoch.
        received: u64,
    }
    /// The tablet has no epoch left.
    31 PlacementEpochExhausted {
        /// The tablet.
        tablet: TabletId,
    }
    /// Another epoch is expected.
    32 PlacementEpochMismatch {
        /// The tablet.
        tablet: TabletId,
        /// The next epoch of a placement; the stored one where a replica is to be retired.
        expected: u64,
        /// The command's epoch.
        received: u64,
    }
    /// A replica stays on its node.
    33 ReplicaHostChanged {
        /// The replica.
        replica: ReplicaId,
        /// Where it stands.
        old: NodeId,
        /// Where the command has it.
        new: NodeId,
    }
    /// A voter does not become a learner.
    34 UnsupportedVoterDemotion {
        /// The replica.
        replica: ReplicaId,
    }
    /// No tablet has the group.
    35 UnknownRaftGroup {
        /// The group.
        group: RaftGroupId,
    }
    /// The replica is in the placement.
    36 RetirementStillDesired {
        /// The group.
        group: RaftGroupId,
        /// The replica.
        replica: ReplicaId,
    }
    /// The replica is retired with another proof.
    37 RetirementProofConflict {
        /// The group.
        group: RaftGroupId,
        /// The replica.
        replica: ReplicaId,
    }
    /// No node is Active.
    38 NoRegisteredNodes
    /// All else would be in order, but there is no room for the row.
    39 TableFull {
        /// The table.
        table: TableKind,
        /// Its room.
        limit: u64,
    }
    /// The tape ends here.
    40 BadTape {
        /// What is wrong with it.
        fault: TapeFault,
        /// The byte of the command; 0 for an opening.
        byte: u8,
    }
}

impl Answer {
    /// Whether the command was refused.
    pub fn is_refusal(&self) -> bool {
        !matches!(
            self,
            Self::Applied | Self::AlreadyApplied | Self::Picked { .. }
        )
    }

    /// A refusal as an error, for `?`.
    ///
    /// # Errors
    /// The answer itself, where it is a refusal.
    pub fn accepted(self) -> Result<Self, Self> {
        match self.is_refusal() {
            true => Err(self),
            false => Ok(self),
        }
    }
}

impl std::error::Error for Answer {}

impl fmt::Display for Answer {
    fn fmt(&self, out: &mut fmt::Formatter<'_>) -> fmt::Result {
        match self {
            Self::Applied => write!(out, "applied"),
            Self::AlreadyApplied => write!(out, "already applied"),
            Self::Picked {
                first,
                second,
                third,
            } => {
                write!(out, "picked node {first}")?;
                for node in [second, third].into_iter().flatten() {
                    write!(out, ", then node {node}")?;
                }
                Ok(())
            }
            Self::InvalidCommand { reason } => write!(out, "not admitted: {reason}"),
            Self::NotInitialized => write!(out, "the cluster has no name yet"),
            Self::ClusterConflict => write!(out, "the cluster has another name"),
            Self::NodeIdConflict { node } => {
                write!(out, "node {node} is registered with another record")
            }
            Self::NodeEndpointConflict {
                existing,
                new,
                field,
            } => write!(
                out,
                "the {field} endpoint of node {new} is taken by node {existing}"
            ),
            Self::InvalidNodeLifecycleTransition {
                node,
                from: Some(from),
                to,
            } => write!(out, "node {node} is {from} and cannot become {to}"),
            Self::InvalidNodeLifecycleTransition {
                node,
                from: None,
                to,
            } => write!(
                out,
                "node {node} is not registered and begins as Active, not {to}"
            ),
            Self::NodeStillExpected {
                node,
                group,
                replica,
            } => write!(
                out,
                "node {node} is still wanted by group {group} as replica {replica}"
            ),
            Self::UnknownNode { node } => write!(out, "there is no node {node}"),
            Self::TabletIdConflict { tablet } => {
                write!(out, "tablet {tablet} is stored with another record")
            }
            Self::RaftGroupConflict { group } => write!(out, "group {group} has a tablet already"),
            Self::UnknownTable { table } => write!(out, "there is no table {table}"),
            Self::PartitionCountMismatch {
                table,
                expected,
                received,
            } => write!(
                out,
                "table {table} has {expected} buckets and not {received}"
            ),
            Self::PartitionConflict { table, bucket } => {
                write!(out, "bucket {bucket} of table {table} is taken")
            }
            Self::TabletCountExceeded { table, limit } => {
                write!(out, "table {table} has all of its {limit} tablets")
            }
            Self::RangeOverlap { tablet } => {
                write!(out, "the range overlaps that of tablet {tablet}")
            }
            Self::UnknownTablet { tablet } => {
                write!(out, "there is no tablet {tablet}, or none with a placement")
            }
            Self::NodeNotEligible { node, lifecycle } => {
                write!(out, "node {node} is {lifecycle} and not eligible")
            }
            Self::PlacementStorageClassMismatch { node } => write!(
                out,
                "node {node} has another storage class than is required"
            ),
            Self::RetiredReplicaReuse { group, replica } => write!(
                out,
                "replica {replica} of group {group} is retired and does not come back"
            ),
            Self::PlacementDomainUnsatisfied {
                domain,
                required,
                observed,
            } => write!(
                out,
                "the nodes have {observed} distinct {domain}, and {required} are required"
            ),
            Self::InitialPlacementEpoch { tablet, received } => write!(
                out,
                "the first placement of tablet {tablet} has epoch 1 and not {received}"
            ),
            Self::PlacementEpochExhausted { tablet } => {
                write!(out, "tablet {tablet} has no epoch left")
            }
            Self::PlacementEpochMismatch {
                tablet,
                expected,
                received,
            } => write!(
                out,
                "for tablet {tablet} epoch {expected} is expected and not {received}"
            ),
            Self::ReplicaHostChanged { replica, old, new } => write!(
                out,
                "replica {replica} stands on node {old} and does not move to node {new}"
            ),
            Self::UnsupportedVoterDemotion { replica } => write!(
                out,
                "replica {replica} is a voter and does not become a learner"
            ),
            Self::UnknownRaftGroup { group } => write!(out, "no tablet has group {group}"),
            Self::RetirementStillDesired { group, replica } => {
                write!(out, "replica {replica} of group {group} is still wanted")
            }
            Self::RetirementProofConflict { group, replica } => write!(
                out,
                "replica {replica} of group {group} is retired with another proof"
            ),
            Self::NoRegisteredNodes => write!(out, "no node is Active"),
            Self::TableFull { table, limit } => {
                write!(
                    out,
                    "there is room for {limit} {table}, and all of it is taken"
                )
            }
            Self::BadTape {
                fault: TapeFault::Unknown,
                byte,
            } => write!(out, "byte {byte} is no command"),
            Self::BadTape {
                fault: TapeFault::Cut,
                byte: 0,
            } => write!(out, "the opening is cut short"),
            Self::BadTape {
                fault: TapeFault::Cut,
                byte,
            } => write!(out, "the command with byte {byte} is cut short"),
        }
    }
}
