//! What is one of a few: lifecycles, roles, endpoints, and what answers name.

use std::fmt;

/// How far a node is on its way out. It moves by single steps, downwards in this list.
#[derive(Debug, Clone, Copy, PartialEq, Eq, Hash)]
pub enum Lifecycle {
    /// 0: takes copies, and can be picked.
    Active,
    /// 1: keeps its copies and takes no new ones.
    Draining,
    /// 2: as Draining, one step further.
    Decommissioning,
    /// 3: no copy is wanted there any more.
    Decommissioned,
    /// 4: gone; its id and endpoints stay taken.
    Tombstoned,
    /// Another number. No admitted command has one (reason 5), but memory that was made by hand can be a
    /// sound store and have it.
    Other(u8),
}

impl Lifecycle {
    /// The number on the tape.
    pub fn number(self) -> u8 {
        match self {
            Self::Active => 0,
            Self::Draining => 1,
            Self::Decommissioning => 2,
            Self::Decommissioned => 3,
            Self::Tombstoned => 4,
            Self::Other(number) => number,
        }
    }

    /// The lifecycle with this number.
    pub fn from_number(number: u8) -> Self {
        match number {
            0 => Self::Active,
            1 => Self::Draining,
            2 => Self::Decommissioning,
            3 => Self::Decommissioned,
            4 => Self::Tombstoned,
            number => Self::Other(number),
        }
    }
}

impl fmt::Display for Lifecycle {
    fn fmt(&self, out: &mut fmt::Formatter<'_>) -> fmt::Result {
        match self {
            Self::Other(number) => write!(out, "in lifecycle {number}"),
            known => write!(out, "{known:?}"),
        }
    }
}

/// What a replica does in its group.
#[derive(Debug, Clone, Copy, PartialEq, Eq, Hash)]
pub enum Role {
    /// 0: votes.
    Voter,
    /// 1: follows, and may become a voter.
    Learner,
    /// Another number. No admitted command has one (reason 5), but memory that was made by hand can be a
    /// sound store and have it.
    Other(u8),
}

impl Role {
    /// The number on the tape.
    pub fn number(self) -> u8 {
        match self {
            Self::Voter => 0,
            Self::Learner => 1,
            Self::Other(number) => number,
        }
    }

    /// The role with this number.
    pub fn from_number(number: u8) -> Self {
        match number {
            0 => Self::Voter,
            1 => Self::Learner,
            number => Self::Other(number),
        }
    }
}

/// An enum whose cases have the numbers in brackets, and what each is called in a sentence.
macro_rules! numbered {
    ($(#[$doc:meta])* $name:ident { $($(#[$case_doc:meta])* $case:ident = $number:literal, $said:literal;)* }) => {
        $(#[$doc])*
        #[derive(Debug, Clone, Copy, PartialEq, Eq, Hash)]
        pub enum $name {
            $($(#[$case_doc])* $case,)*
        }

        impl $name {
            /// The number in an answer.
            pub fn number(self) -> u64 {
                match self {
                    $(Self::$case => $number,)*
                }
            }

            /// The case with this number, if there is one.
            pub fn from_number(number: u64) -> Option<Self> {
                match number {
                    $($number => Some(Self::$case),)*
                    _ => None,
                }
            }
        }

        impl fmt::Display for $name {
            fn fmt(&self, out: &mut fmt::Formatter<'_>) -> fmt::Result {
                out.write_str(match self {
                    $(Self::$case => $said,)*
                })
            }
        }
    };
}

numbered! {
    /// A node's four addresses.
    Endpoint {
        /// Where its groups talk.
        Raft = 0, "raft";
        /// Where snapshots are fetched.
        Snapshot = 1, "snapshot";
        /// Where queries come in.
        Sql = 2, "sql";
        /// Where it is administered.
        Admin = 3, "admin";
    }
}

numbered! {
    /// What keeps copies apart.
    Domain {
        /// The widest.
        Region = 0, "regions";
        /// Within a region.
        Zone = 1, "zones";
        /// Within a zone.
        Rack = 2, "racks";
    }
}

numbered! {
    /// A table of the store that can be full.
    TableKind {
        /// Room for [`NODE_ROOM`](crate::NODE_ROOM).
        Nodes = 0, "nodes";
        /// Room for [`TABLET_ROOM`](crate::TABLET_ROOM).
        Tablets = 1, "tablets";
        /// Room for [`RETIREMENT_ROOM`](crate::RETIREMENT_ROOM).
        Retirements = 2, "retirements";
    }
}

numbered! {
    /// What is wrong with a tape.
    TapeFault {
        /// A byte that is no command.
        Unknown = 1, "an unknown byte";
        /// A command or an opening that is cut short.
        Cut = 2, "cut short";
    }
}

numbered! {
    /// Why a command, an opening or a store is not admitted: the lowest reason that applies.
    Reason {
        /// An id in use is zero, a preferred leader excepted.
        ZeroId = 1, "an id is zero";
        /// A text or key has a wrong length, a byte that is not allowed, or padding that is not zero.
        Text = 2, "a text or key has another length, byte or padding than is allowed";
        /// Two endpoints of a node are equal.
        EqualEndpoints = 3, "two endpoints of the node are equal";
        /// A storage class, or a required class, is empty or all spaces.
        BlankClass = 4, "the storage class is empty or all spaces";
        /// A lifecycle above 4, or a role or partition kind above 1.
        UnknownVariant = 5, "there is no such lifecycle, role or partition kind";
        /// The bucket is not below the bucket count, the start key is not below the end key, or the other
        /// kind's operands are not zero.
        Partition = 6, "a bucket has to be below its count, and a start key below its end key";
        /// Not 1 to 7 replicas, another replication factor than their number, a replica or node twice, or an
        /// unused place that is not zero.
        Replicas = 7, "replicas have to be 1 to 7, as many as the replication factor, with no id and no node twice";
        /// A minimum of distinct regions, zones or racks is above the replication factor.
        Minima = 8, "a minimum is above the replication factor";
        /// More than 7 preferred leaders, one that is zero or stands twice, or an unused place that is not zero.
        Leaders = 9, "preferred leaders have to be at most 7, none of them zero or twice";
        /// An opening's only reason: more than 16 tables, a table id that is zero or stands twice, or a
        /// tablet count that is zero.
        Opening = 10, "tables have to be at most 16, with no id zero or twice, and no tablet count zero";
        /// The memory is no sound store. A [`Store`](crate::Store) never gets it.
        UnsoundStore = 12, "the memory is no sound store";
    }
}
