//! The ids, each a type of its own, as in the source.

use std::fmt;

macro_rules! id {
    ($(#[$doc:meta])* $name:ident) => {
        $(#[$doc])*
        #[derive(Debug, Clone, Copy, PartialEq, Eq, PartialOrd, Ord, Hash)]
        pub struct $name(
            /// The number.
            pub u64,
        );

        impl fmt::Display for $name {
            fn fmt(&self, out: &mut fmt::Formatter<'_>) -> fmt::Result {
                self.0.fmt(out)
            }
        }
    };
}

id! {
    /// A machine.
    NodeId
}

id! {
    /// A table of the tablet store.
    TableId
}

id! {
    /// A part of a table: one bucket, or one range of keys.
    TabletId
}

id! {
    /// The group of replicas that a tablet has.
    RaftGroupId
}

id! {
    /// A copy of a tablet.
    ReplicaId
}
