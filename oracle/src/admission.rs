//! Room and admission, from document 01: the reasons of InvalidCommand, and the rooms of answer 39. The
//! Rust has neither.

use std::collections::BTreeSet;

use crate::tape::{ABSENT, Command, Key, Label, Node, PLACES, Placement, Tablet, Text};

pub const NODE_ROOM: usize = 32;
pub const TABLE_ROOM: usize = 16;
pub const TABLET_ROOM: usize = 64;
pub const RETIREMENT_ROOM: usize = 256;

/// The opening's only reason.
pub const OPENING_REASON: u64 = 10;

pub fn opening_admitted(tables: &[(u64, u32)]) -> bool {
    let ids: BTreeSet<u64> = tables.iter().map(|(id, _)| *id).collect();
    tables.len() <= TABLE_ROOM
        && ids.len() == tables.len()
        && tables.iter().all(|(id, count)| *id != 0 && *count != 0)
}

/// The lowest reason for which the command is refused.
pub fn reason(command: &Command) -> Option<u64> {
    let reasons = match command {
        Command::Naming(name) => vec![(2, !name.admitted(1, 0x20))],
        Command::Node(node) => node_reasons(node),
        Command::Lifecycle { node, lifecycle } => vec![(1, *node == 0), (5, *lifecycle > 4)],
        Command::Tablet(tablet) => tablet_reasons(tablet),
        Command::Placement(placement) => placement_reasons(placement),
        Command::Retirement(retirement) => {
            vec![(1, retirement.group == 0 || retirement.replica == 0)]
        }
        Command::Pick => vec![],
    };
    reasons
        .into_iter()
        .filter(|(_, applies)| *applies)
        .map(|(reason, _)| reason)
        .min()
}

fn node_reasons(node: &Node) -> Vec<(u64, bool)> {
    let endpoints: BTreeSet<Vec<u8>> = node.endpoints.iter().map(|text| text.key()).collect();
    vec![
        (1, node.id == 0),
        (
            2,
            !node.endpoints.iter().all(|text| text.admitted(1, 0x21))
                || !node.labels.iter().all(Label::optional_admitted)
                || !node.class.admitted(0, 0x20),
        ),
        (3, endpoints.len() < node.endpoints.len()),
        (4, node.class.blank()),
        (5, node.lifecycle > 4),
    ]
}

fn tablet_reasons(tablet: &Tablet) -> Vec<(u64, bool)> {
    let keys = [&tablet.start, &tablet.end];
    let partition = match tablet.kind {
        0 => {
            tablet.bucket >= tablet.bucket_count
                || keys
                    .iter()
                    .any(|key| key.length != 0 || key.field != [0; 32])
        }
        1 => {
            let (start, end) = (tablet.start.bytes(), tablet.end.bytes());
            (!start.is_empty() && !end.is_empty() && start >= end)
                || tablet.bucket != 0
                || tablet.bucket_count != 0
        }
        _ => false,
    };
    vec![
        (1, [tablet.id, tablet.table, tablet.group].contains(&0)),
        (2, !keys.iter().all(|key| key.key_admitted())),
        (5, tablet.kind > 1),
        (6, partition),
    ]
}

fn placement_reasons(placement: &Placement) -> Vec<(u64, bool)> {
    let (used, unused) = placement
        .replicas
        .split_at((placement.count as usize).min(PLACES));
    let ids: BTreeSet<u64> = used.iter().map(|replica| replica.id).collect();
    let nodes: BTreeSet<u64> = used.iter().map(|replica| replica.node).collect();
    let (leaders, no_leaders) = placement
        .leaders
        .split_at((placement.leader_count as usize).min(PLACES));
    let distinct_leaders: BTreeSet<&u64> = leaders.iter().collect();
    vec![
        (
            1,
            placement.tablet == 0
                || used
                    .iter()
                    .any(|replica| replica.id == 0 || replica.node == 0),
        ),
        (2, !placement.class.optional_admitted()),
        (
            4,
            placement.class.length != ABSENT && placement.class.blank(),
        ),
        (5, used.iter().any(|replica| replica.role > 1)),
        (
            7,
            !(1..=PLACES).contains(&(placement.count as usize))
                || placement.factor != placement.count as u32
                || ids.len() < used.len()
                || nodes.len() < used.len()
                || unused
                    .iter()
                    .any(|replica| (replica.id, replica.node, replica.role) != (0, 0, 0)),
        ),
        (
            8,
            placement
                .minima
                .iter()
                .any(|minimum| *minimum > placement.factor),
        ),
        (
            9,
            placement.leader_count as usize > PLACES
                || leaders.contains(&0)
                || distinct_leaders.len() < leaders.len()
                || no_leaders.iter().any(|leader| *leader != 0),
        ),
    ]
}

impl<const WIDTH: usize> Text<WIDTH> {
    /// The bytes of the text; the whole field where the length is above it.
    pub fn bytes(&self) -> &[u8] {
        &self.field[..(self.length as usize).min(WIDTH)]
    }

    /// The length and the whole field: equal for equal texts, and for no others.
    fn key(&self) -> Vec<u8> {
        let mut key = vec![self.length];
        key.extend(self.field);
        key
    }

    /// A length from `least` to the width, bytes from `lowest` to 0x7E, padding of zeros.
    fn admitted(&self, least: u8, lowest: u8) -> bool {
        self.length >= least
            && self.padded()
            && self
                .bytes()
                .iter()
                .all(|byte| (lowest..=0x7E).contains(byte))
    }

    /// A length up to the width, and zeros after it.
    fn padded(&self) -> bool {
        self.length as usize <= WIDTH
            && self.field[self.length as usize..]
                .iter()
                .all(|byte| *byte == 0)
    }

    fn blank(&self) -> bool {
        self.bytes().iter().all(|byte| *byte == b' ')
    }
}

impl Label {
    /// An absent text is a field of zeros.
    fn optional_admitted(&self) -> bool {
        if self.length == ABSENT {
            return self.field == [0; 24];
        }
        self.admitted(0, 0x20)
    }
}

impl Key {
    fn key_admitted(&self) -> bool {
        self.padded()
    }
}
