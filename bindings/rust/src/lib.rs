//! The placement tables of a tablet store: which machine holds which copy of which key range. Every function
//! of the static library below this crate is proved; the crate is a thin layer over it. docs/FORMAT.md of the
//! repository says what each command does and what each answer means, and bindings/lupinadze.h has the same for C.
//!
//! A [`Store`] takes commands and answers questions:
//!
//! ```
//! use lupinadze::*;
//!
//! # fn main() -> Result<(), Box<dyn std::error::Error>> {
//! let tables = vec![Table { id: TableId(5), tablet_count: 1 }];
//! let mut store = Store::open(&Opening { group_mark: 1, tables })?;
//! store.enter(Command::Naming("plates".into()))?.accepted()?;
//! for id in [1, 2] {
//!     let address = |service: &str| format!("{service}.node-{id}.plates.example:7000").into();
//!     let node = Node {
//!         id: NodeId(id),
//!         raft_addr: address("raft"),
//!         snapshot_addr: address("snapshot"),
//!         sql_addr: address("sql"),
//!         admin_addr: address("admin"),
//!         region: Some("north".into()),
//!         zone: None,
//!         rack: None,
//!         storage_class: "ssd".into(),
//!         lifecycle: Lifecycle::Active,
//!     };
//!     store.enter(node)?.accepted()?;
//! }
//! let key = |key: &str| Text::from(key);
//! let partition = Partition::Range { start_key: key("papyrus/0004"), end_key: key("") };
//! let tablet = Tablet { id: TabletId(3), table: TableId(5), group: RaftGroupId(40), epoch: 1, partition };
//! store.enter(tablet)?.accepted()?;
//!
//! // the first choice's nodes and policy, with replica numbers from the next one on
//! let choice = store.initial_placement();
//! let next = store.next_replica_id().expect("numbers are left").0;
//! let replicas = (next..).zip(&choice.nodes);
//! let replicas = replicas.map(|(id, node)| Replica { id: ReplicaId(id), node: *node, role: Role::Voter }).collect();
//! store.enter(Placement { tablet: TabletId(3), epoch: 1, replicas, policy: choice.policy })?.accepted()?;
//!
//! // a node on its way out is not let go while a copy is wanted there
//! store.enter(Command::Lifecycle { node: NodeId(2), to: Lifecycle::Draining })?.accepted()?;
//! store.enter(Command::Lifecycle { node: NodeId(2), to: Lifecycle::Decommissioning })?.accepted()?;
//! let answer = store.enter(Command::Lifecycle { node: NodeId(2), to: Lifecycle::Decommissioned })?;
//! let expected = Answer::NodeStillExpected { node: NodeId(2), group: RaftGroupId(40), replica: ReplicaId(2) };
//! assert_eq!(answer, expected);
//! assert_eq!(answer.to_string(), "node 2 is still wanted by group 40 as replica 2");
//!
//! // questions, and the store kept between runs
//! assert!(store.is_complete(TableId(5)));
//! assert_eq!(store.node(NodeId(2)).expect("it is registered").lifecycle, Lifecycle::Decommissioning);
//! let kept = Store::from_bytes(store.as_bytes())?;
//! assert_eq!(kept, store);
//! print!("{}", store.dump());
//! # Ok(())
//! # }
//! ```
//!
//! [`run`], [`run_into`] and [`answers`] take a whole tape, opening and commands, in memory.
#![deny(missing_docs, unsafe_code)]

mod answer;
mod bytes;
mod command;
mod error;
mod ids;
mod kinds;
pub mod linked;
mod opening;
mod sizes;
mod store;
mod tape;
mod text;

pub use answer::Answer;
pub use command::{Command, Node, Partition, Placement, Policy, Replica, Retirement, Tablet};
pub use error::{NotAStore, OpenError, Short, TooLong};
pub use ids::{NodeId, RaftGroupId, ReplicaId, TableId, TabletId};
pub use kinds::{Domain, Endpoint, Lifecycle, Reason, Role, TableKind, TapeFault};
pub use opening::{Opening, Table};
pub use sizes::{
    KEY_WIDTH, LABEL_WIDTH, LINE_BYTES, NAME_WIDTH, NODE_ROOM, PLACES, RETIREMENT_ROOM,
    STACK_BYTES, STORE_BYTES, TABLE_ROOM, TABLET_ROOM,
};
pub use store::{InitialPlacement, Store};
pub use tape::{answers, command_answers, run, run_into};
pub use text::Text;
