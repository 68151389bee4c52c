//! Commands and rows as values, and as bytes of the tape.

use crate::bytes::{Row, Writer};
use crate::error::TooLong;
use crate::ids::{NodeId, RaftGroupId, ReplicaId, TableId, TabletId};
use crate::kinds::{Lifecycle, Role};
use crate::sizes::{
    self, KEY_WIDTH, LABEL_WIDTH, NAME_WIDTH, NODE_ROW, PLACEMENT_ROW, PLACES, RETIREMENT_ROW,
    TABLET_ROW,
};
use crate::text::Text;

/// A machine: as a command it registers one, as a row it is one that is registered.
#[derive(Debug, Clone, PartialEq, Eq, Hash)]
pub struct Node {
    /// Its id.
    pub id: NodeId,
    /// Where its groups talk.
    pub raft_addr: Text,
    /// Where snapshots are fetched.
    pub snapshot_addr: Text,
    /// Where queries come in.
    pub sql_addr: Text,
    /// Where it is administered.
    pub admin_addr: Text,
    /// The widest domain that it stands in.
    pub region: Option<Text>,
    /// Within the region.
    pub zone: Option<Text>,
    /// Within the zone.
    pub rack: Option<Text>,
    /// What its disks are.
    pub storage_class: Text,
    /// How far it is on its way out; a new node is Active.
    pub lifecycle: Lifecycle,
}

/// A tablet: as a command it creates one, as a row it is one that is stored.
#[derive(Debug, Clone, PartialEq, Eq, Hash)]
pub struct Tablet {
    /// Its id.
    pub id: TabletId,
    /// The table that it is a part of.
    pub table: TableId,
    /// Its group.
    pub group: RaftGroupId,
    /// Its epoch.
    pub epoch: u64,
    /// Which part of the table it is.
    pub partition: Partition,
}

/// Which part of a table a tablet is.
#[derive(Debug, Clone, PartialEq, Eq, Hash)]
pub enum Partition {
    /// One of the table's buckets.
    Hash {
        /// Which, from 0.
        bucket: u32,
        /// How many the table has.
        bucket_count: u32,
    },
    /// Keys from the one on, and before the other.
    Range {
        /// The first key; empty: from the least.
        start_key: Text,
        /// The first key behind the range; empty: none is.
        end_key: Text,
    },
    /// What no admitted command has (reasons 5 and 6), but memory that was made by hand can be a sound store
    /// and have it.
    Other {
        /// 0 Hash, 1 Range.
        kind: u8,
        /// The bucket.
        bucket: u32,
        /// The bucket count.
        bucket_count: u32,
        /// The start key.
        start_key: Text,
        /// The end key.
        end_key: Text,
    },
}

/// A copy of a tablet on a node.
#[derive(Debug, Clone, Copy, PartialEq, Eq, Hash)]
pub struct Replica {
    /// Its id, within the tablet's group.
    pub id: ReplicaId,
    /// The node that it stands on.
    pub node: NodeId,
    /// What it does.
    pub role: Role,
}

/// What a placement has to keep to.
#[derive(Debug, Clone, PartialEq, Eq, Hash, Default)]
pub struct Policy {
    /// How many replicas there are.
    pub replication_factor: u32,
    /// How many distinct regions they stand in at least.
    pub min_distinct_regions: u32,
    /// How many distinct zones.
    pub min_distinct_zones: u32,
    /// How many distinct racks.
    pub min_distinct_racks: u32,
    /// The storage class that each of their nodes has.
    pub required_storage_class: Option<Text>,
    /// The nodes that the leader is sought on first.
    pub preferred_leaders: Vec<NodeId>,
}

/// Where the copies of a tablet are wanted: as a command it asks for it, as a row it is what is wanted.
#[derive(Debug, Clone, PartialEq, Eq, Hash)]
pub struct Placement {
    /// The tablet.
    pub tablet: TabletId,
    /// Its epoch: 1 for the first placement of a tablet, one more for each that follows.
    pub epoch: u64,
    /// The copies.
    pub replicas: Vec<Replica>,
    /// What they keep to.
    pub policy: Policy,
}

/// A replica number that does not come back, with the proof of its removal: as a command it retires one, as a
/// row it is one that is retired.
#[derive(Debug, Clone, Copy, PartialEq, Eq, Hash)]
pub struct Retirement {
    /// The group.
    pub group: RaftGroupId,
    /// The replica.
    pub replica: ReplicaId,
    /// The epoch of the placement without it.
    pub desired_epoch: u64,
    /// The version of the group's configuration without it.
    pub conf_state_version: u64,
    /// The index of the log at which it was removed.
    pub removal_index: u64,
    /// The term of that index.
    pub removal_term: u64,
}

/// One command of the tape.
#[derive(Debug, Clone, PartialEq, Eq, Hash)]
pub enum Command {
    /// 01: gives the cluster its name.
    Naming(Text),
    /// 02: registers a node.
    Registering(Node),
    /// 03: moves a node one step on its way out.
    Lifecycle {
        /// The node.
        node: NodeId,
        /// The next lifecycle.
        to: Lifecycle,
    },
    /// 04: creates a tablet.
    Tablet(Tablet),
    /// 05: says where the copies of a tablet are wanted.
    Placement(Placement),
    /// 06: retires a replica number.
    Retirement(Retirement),
    /// 07: asks for the first choice, and changes nothing.
    Picking,
}

/// A command's byte and what stands behind it.
macro_rules! on_tape {
    ($($name:ident)*) => {
        $(impl $name {
            /// Writes the command behind what the tape has.
            ///
            /// # Errors
            /// A field has no form on the tape; then the tape is as it was.
            pub fn push(&self, tape: &mut Vec<u8>) -> Result<(), TooLong> {
                let mut writer = Writer::new(tape);
                self.write(&mut writer);
                writer.end()
            }

            /// The command as the tape has it.
            ///
            /// # Errors
            /// A field has no form on the tape.
            pub fn to_bytes(&self) -> Result<Vec<u8>, TooLong> {
                let mut bytes = Vec::new();
                self.push(&mut bytes)?;
                Ok(bytes)
            }
        })*
    };
}

on_tape!(Command Node Tablet Placement Retirement);

impl Command {
    fn write(&self, out: &mut Writer) {
        match self {
            Self::Naming(name) => {
                out.byte(sizes::NAMING);
                out.text("name", name, NAME_WIDTH);
            }
            Self::Registering(node) => node.write(out),
            Self::Lifecycle { node, to } => {
                out.byte(sizes::LIFECYCLE);
                out.long(node.0);
                out.byte(to.number());
            }
            Self::Tablet(tablet) => tablet.write(out),
            Self::Placement(placement) => placement.write(out),
            Self::Retirement(retirement) => retirement.write(out),
            Self::Picking => out.byte(sizes::PICKING),
        }
    }
}

impl From<Node> for Command {
    fn from(node: Node) -> Self {
        Self::Registering(node)
    }
}

impl From<Tablet> for Command {
    fn from(tablet: Tablet) -> Self {
        Self::Tablet(tablet)
    }
}

impl From<Placement> for Command {
    fn from(placement: Placement) -> Self {
        Self::Placement(placement)
    }
}

impl From<Retirement> for Command {
    fn from(retirement: Retirement) -> Self {
        Self::Retirement(retirement)
    }
}

impl Node {
    fn write(&self, out: &mut Writer) {
        out.byte(sizes::REGISTERING);
        out.long(self.id.0);
        out.text("raft_addr", &self.raft_addr, NAME_WIDTH);
        out.text("snapshot_addr", &self.snapshot_addr, NAME_WIDTH);
        out.text("sql_addr", &self.sql_addr, NAME_WIDTH);
        out.text("admin_addr", &self.admin_addr, NAME_WIDTH);
        out.optional("region", self.region.as_ref(), LABEL_WIDTH);
        out.optional("zone", self.zone.as_ref(), LABEL_WIDTH);
        out.optional("rack", self.rack.as_ref(), LABEL_WIDTH);
        out.text("storage_class", &self.storage_class, LABEL_WIDTH);
        out.byte(self.lifecycle.number());
    }

    pub(crate) fn from_row(row: &[u8; NODE_ROW]) -> Self {
        let mut row = Row(row);
        Self {
            id: NodeId(row.long()),
            raft_addr: row.text(NAME_WIDTH),
            snapshot_addr: row.text(NAME_WIDTH),
            sql_addr: row.text(NAME_WIDTH),
            admin_addr: row.text(NAME_WIDTH),
            region: row.optional(LABEL_WIDTH),
            zone: row.optional(LABEL_WIDTH),
            rack: row.optional(LABEL_WIDTH),
            storage_class: row.text(LABEL_WIDTH),
            lifecycle: Lifecycle::from_number(row.byte()),
        }
    }
}

impl Partition {
    /// Kind, bucket, bucket count, start and end key.
    fn fields(&self) -> (u8, u32, u32, &Text, &Text) {
        static UNBOUNDED: Text = Text::EMPTY;
        match self {
            Self::Hash {
                bucket,
                bucket_count,
            } => (0, *bucket, *bucket_count, &UNBOUNDED, &UNBOUNDED),
            Self::Range { start_key, end_key } => (1, 0, 0, start_key, end_key),
            Self::Other {
                kind,
                bucket,
                bucket_count,
                start_key,
                end_key,
            } => (*kind, *bucket, *bucket_count, start_key, end_key),
        }
    }

    fn from_fields(
        kind: u8,
        bucket: u32,
        bucket_count: u32,
        start_key: Text,
        end_key: Text,
    ) -> Self {
        let no_keys = start_key == Text::EMPTY && end_key == Text::EMPTY;
        match (kind, bucket, bucket_count) {
            (0, _, _) if no_keys => Self::Hash {
                bucket,
                bucket_count,
            },
            (1, 0, 0) => Self::Range { start_key, end_key },
            _ => Self::Other {
                kind,
                bucket,
                bucket_count,
                start_key,
                end_key,
            },
        }
    }
}

impl Tablet {
    fn write(&self, out: &mut Writer) {
        out.byte(sizes::TABLET);
        out.long(self.id.0);
        out.long(self.table.0);
        out.long(self.group.0);
        out.long(self.epoch);
        let (kind, bucket, bucket_count, start_key, end_key) = self.partition.fields();
        out.byte(kind);
        out.short(bucket);
        out.short(bucket_count);
        out.text("start_key", start_key, KEY_WIDTH);
        out.text("end_key", end_key, KEY_WIDTH);
    }

    pub(crate) fn from_row(row: &[u8; TABLET_ROW]) -> Self {
        let mut row = Row(row);
        Self {
            id: TabletId(row.long()),
            table: TableId(row.long()),
            group: RaftGroupId(row.long()),
            epoch: row.long(),
            partition: Partition::from_fields(
                row.byte(),
                row.short(),
                row.short(),
                row.text(KEY_WIDTH),
                row.text(KEY_WIDTH),
            ),
        }
    }
}

/// How many bytes a replica's place has, and a leader's.
const REPLICA_PLACE: usize = 17;
const LEADER_PLACE: usize = 8;

impl Placement {
    fn write(&self, out: &mut Writer) {
        out.byte(sizes::PLACEMENT);
        out.long(self.tablet.0);
        out.long(self.epoch);
        out.list(
            "replicas",
            &self.replicas,
            PLACES,
            REPLICA_PLACE,
            |out, replica| {
                out.long(replica.id.0);
                out.long(replica.node.0);
                out.byte(replica.role.number());
            },
        );
        self.policy.write(out);
    }

    pub(crate) fn from_row(row: &[u8; PLACEMENT_ROW]) -> Self {
        let mut row = Row(row);
        Self {
            tablet: TabletId(row.long()),
            epoch: row.long(),
            replicas: row.list(PLACES, REPLICA_PLACE, |row| Replica {
                id: ReplicaId(row.long()),
                node: NodeId(row.long()),
                role: Role::from_number(row.byte()),
            }),
            policy: Policy::from_row(&mut row),
        }
    }
}

impl Policy {
    fn write(&self, out: &mut Writer) {
        out.short(self.replication_factor);
        out.short(self.min_distinct_regions);
        out.short(self.min_distinct_zones);
        out.short(self.min_distinct_racks);
        out.optional(
            "required_storage_class",
            self.required_storage_class.as_ref(),
            LABEL_WIDTH,
        );
        out.list(
            "preferred_leaders",
            &self.preferred_leaders,
            PLACES,
            LEADER_PLACE,
            |out, node| {
                out.long(node.0);
            },
        );
    }

    fn from_row(row: &mut Row) -> Self {
        Self {
            replication_factor: row.short(),
            min_distinct_regions: row.short(),
            min_distinct_zones: row.short(),
            min_distinct_racks: row.short(),
            required_storage_class: row.optional(LABEL_WIDTH),
            preferred_leaders: row.list(PLACES, LEADER_PLACE, |row| NodeId(row.long())),
        }
    }
}

impl Retirement {
    fn write(&self, out: &mut Writer) {
        out.byte(sizes::RETIREMENT);
        for number in [
            self.group.0,
            self.replica.0,
            self.desired_epoch,
            self.conf_state_version,
            self.removal_index,
            self.removal_term,
        ] {
            out.long(number);
        }
    }

    pub(crate) fn from_row(row: &[u8; RETIREMENT_ROW]) -> Self {
        let mut row = Row(row);
        Self {
            group: RaftGroupId(row.long()),
            replica: ReplicaId(row.long()),
            desired_epoch: row.long(),
            conf_state_version: row.long(),
            removal_index: row.long(),
            removal_term: row.long(),
        }
    }
}
