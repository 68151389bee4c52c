//! One command sequence in the forms that the three sides take: the bytes of its tape for the oracle and the
//! library, the Rust's own values for its handlers.

use std::hint::black_box;
use std::time::{Duration, Instant};

use oracle::admission::{self, TABLE_ROOM};
use oracle::tape::{Command, Next, Opening, Reader};
use oracle::{dump, handlers};
use ragnordb_catalog::MetadataState;
use ragnordb_common::ids::NodeId;
use ragnordb_common::metadata_codec::{
    DesiredReplicaPlacement, NodeDescriptor, NodeLifecycle, RetiredReplicaLifetime,
    TabletDescriptor,
};

#[derive(Debug, Clone, Copy, PartialEq, Eq)]
pub enum Side {
    /// The original behind the tape: decoding, admission, the handler, the answers collected.
    Original,
    /// The original's handlers alone, their values ready.
    Handlers,
    /// `lupinadze_run` on the tape.
    Library,
}

pub const SIDES: [Side; 3] = [Side::Original, Side::Handlers, Side::Library];

/// A handler's operand.
#[derive(Clone)]
pub enum Ready {
    Naming(String),
    Node(NodeDescriptor),
    Lifecycle(NodeId, NodeLifecycle),
    Tablet(TabletDescriptor),
    Placement(DesiredReplicaPlacement),
    Retirement(RetiredReplicaLifetime),
    Pick,
}

impl Ready {
    /// Admission, and the operand as the handler takes it.
    pub fn new(command: &Command) -> Self {
        assert_eq!(
            admission::reason(command),
            None,
            "a handler gets admitted commands only"
        );
        match command {
            Command::Naming(name) => Self::Naming(handlers::text(name)),
            Command::Node(node) => Self::Node(handlers::node_descriptor(node)),
            Command::Lifecycle { node, lifecycle } => {
                Self::Lifecycle(NodeId(*node), handlers::lifecycle(*lifecycle))
            }
            Command::Tablet(tablet) => Self::Tablet(handlers::tablet_descriptor(tablet)),
            Command::Placement(placement) => {
                Self::Placement(handlers::desired_placement(placement))
            }
            Command::Retirement(retirement) => {
                Self::Retirement(handlers::retired_lifetime(retirement))
            }
            Command::Pick => Self::Pick,
        }
    }

    pub fn handle(self, state: &mut MetadataState) {
        let outcome = match self {
            Self::Naming(name) => state.reach_cluster_initialized(name),
            Self::Node(node) => state.reach_register_node(node),
            Self::Lifecycle(node, lifecycle) => state.reach_set_node_lifecycle(node, lifecycle),
            Self::Tablet(tablet) => state.reach_create_tablet(tablet),
            Self::Placement(placement) => state.reach_desired_placement(placement),
            Self::Retirement(retirement) => state.reach_replica_retirement(retirement),
            Self::Pick => {
                black_box(state.reach_initial_placement());
                return;
            }
        };
        black_box(outcome);
    }
}

pub struct Sequence {
    pub tape: Vec<u8>,
    opened: MetadataState,
    ready: Vec<Ready>,
    /// Room for the library's numbers.
    out: Vec<u64>,
    pub answers: Vec<[u64; 4]>,
}

impl Sequence {
    /// The opening must be accepted and every command admitted. All three sides must agree before anything is timed.
    pub fn new(tape: Vec<u8>) -> Self {
        let mut reader = Reader::new(&tape);
        let Opening::Tables { group_mark, tables } = reader.opening(TABLE_ROOM) else {
            panic!("the opening is whole");
        };
        let opened = MetadataState::open(&tables, group_mark);
        let mut ready = Vec::new();
        loop {
            match reader.next() {
                Next::Command(_, command) => ready.push(Ready::new(&command)),
                Next::End => break,
                Next::Unknown(_) | Next::Cut(_) => panic!("every command is whole"),
            }
        }
        let original = handlers::run(&tape);
        let answers = original_answers(&original);
        assert_eq!(
            lupinadze::run(&tape),
            answers,
            "the library answers as the original"
        );
        let mut state = opened.clone();
        for call in ready.clone() {
            call.handle(&mut state);
        }
        assert_eq!(
            dump::dump(Some(&state)),
            dump::dump(original.store.as_ref()),
            "the handlers alone leave the original's store"
        );
        let out = vec![0; 4 * answers.len()];
        Self {
            tape,
            opened,
            ready,
            out,
            answers,
        }
    }

    pub fn commands(&self) -> usize {
        self.ready.len()
    }

    /// The time of `times` runs of one side, from the opening's store on for the handlers, from the first
    /// byte on for the others. What a run leaves is dropped after the clock is read.
    pub fn time(&mut self, side: Side, times: usize) -> Duration {
        match side {
            Side::Original => {
                let mut left = Vec::with_capacity(times);
                let start = Instant::now();
                for _ in 0..times {
                    left.push(handlers::run(black_box(&self.tape)));
                }
                let time = start.elapsed();
                black_box(left);
                time
            }
            Side::Handlers => {
                let mut left: Vec<_> = (0..times)
                    .map(|_| (self.opened.clone(), self.ready.clone()))
                    .collect();
                let start = Instant::now();
                for (state, calls) in &mut left {
                    for call in calls.drain(..) {
                        call.handle(state);
                    }
                }
                let time = start.elapsed();
                black_box(left);
                time
            }
            Side::Library => {
                let start = Instant::now();
                for _ in 0..times {
                    let count = lupinadze::run_into(black_box(&self.tape), &mut self.out);
                    black_box(count).expect("there is room");
                    black_box(&self.out);
                }
                start.elapsed()
            }
        }
    }
}

pub fn original_answers(run: &handlers::Run) -> Vec<[u64; 4]> {
    run.lines
        .iter()
        .map(|line| {
            let [a, b, c] = line.answer.operands;
            [line.answer.number, a, b, c]
        })
        .collect()
}
