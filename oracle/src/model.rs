//! A second reading of document 01, written from its text alone: plain maps, operands read at their
//! offsets, the table of refusals from top to bottom. It shares no code with the oracle but the form of
//! a line, so that the two can be compared, and it guides the generator. The maps hold the rows of every
//! sound store, also of those that no opening and no command gives; blocks.rs reads them from a block.

use std::collections::{BTreeMap, BTreeSet};
use std::fmt::Write;

use crate::tape::{Answer, Line};

/// Bytes after the command byte, by command.
const OPERANDS: [usize; 8] = [0, 49, 305, 9, 107, 234, 48, 0];

#[derive(Debug, Clone, PartialEq)]
pub struct NodeRow {
    /// Raft, snapshot, sql, admin.
    pub endpoints: [Vec<u8>; 4],
    /// Region, zone, rack.
    pub labels: [Option<Vec<u8>>; 3],
    pub class: Vec<u8>,
    pub lifecycle: u8,
}

#[derive(Debug, Clone, PartialEq)]
pub enum Part {
    Hash(u32, u32),
    Range(Vec<u8>, Vec<u8>),
    /// One that no admitted command has, in a store that was made by hand.
    Other(Partition),
}

/// The fields of a partition as a row has them.
#[derive(Debug, Clone, PartialEq)]
pub struct Partition {
    pub kind: u8,
    pub bucket: u32,
    pub count: u32,
    pub start: Vec<u8>,
    pub end: Vec<u8>,
}

#[derive(Debug, Clone, PartialEq)]
pub struct TabletRow {
    pub table: u64,
    pub group: u64,
    pub epoch: u64,
    pub part: Part,
}

#[derive(Debug, Clone, PartialEq)]
pub struct PlacementRow {
    pub epoch: u64,
    /// Replica, node, role.
    pub replicas: Vec<(u64, u64, u8)>,
    pub factor: u32,
    pub minima: [u32; 3],
    pub class: Option<Vec<u8>>,
    pub leaders: Vec<u64>,
}

/// Table, tablet, group, replica.
#[derive(Debug, Clone, Copy, PartialEq)]
pub struct Marks(pub [u64; 4]);

#[derive(Debug, Clone)]
pub struct Model {
    pub name: Option<Vec<u8>>,
    pub nodes: BTreeMap<u64, NodeRow>,
    pub tables: BTreeMap<u64, u32>,
    pub tablets: BTreeMap<u64, TabletRow>,
    pub placements: BTreeMap<u64, PlacementRow>,
    /// By group and replica: epoch, version, index, term.
    pub retired: BTreeMap<(u64, u64), [u64; 4]>,
    pub marks: Marks,
}

pub fn run(tape: &[u8]) -> (Vec<Line>, Model) {
    let mut lines = Vec::new();
    let mut at = 0;
    let mut model = match open(tape, &mut at) {
        Ok(model) => model,
        Err(answer) => {
            lines.push(Line { number: 0, answer });
            return (lines, Model::empty());
        }
    };
    while at < tape.len() {
        let answer = model.step(tape, &mut at);
        lines.push(Line {
            number: lines.len() as u64 + 1,
            answer,
        });
        if answer.number == 40 {
            break;
        }
    }
    (lines, model)
}

pub fn say(number: u64, a: u64, b: u64, c: u64) -> Answer {
    Answer {
        number,
        operands: [a, b, c],
    }
}

/// How many bytes of the tape are its opening: 9 where it has too many tables, none where it is cut.
pub fn opening_length(tape: &[u8]) -> usize {
    if tape.len() < 9 {
        return 0;
    }
    match tape[0] as usize {
        17.. => 9,
        count if tape.len() < 9 + 12 * count => 0,
        count => 9 + 12 * count,
    }
}

/// Where the command at `at` ends, or the answer to a byte that begins no command or a cut one.
pub fn command_end(tape: &[u8], at: usize) -> Result<usize, Answer> {
    let byte = tape[at];
    if byte == 0 || byte > 7 {
        return Err(say(40, 1, byte as u64, 0));
    }
    let end = at + 1 + OPERANDS[byte as usize];
    if end > tape.len() {
        return Err(say(40, 2, byte as u64, 0));
    }
    Ok(end)
}

/// The opening at the front of the tape; `at` moves behind it.
pub fn open(tape: &[u8], at: &mut usize) -> Result<Model, Answer> {
    let cut = say(40, 2, 0, 0);
    let refused = say(10, 10, 0, 0);
    if tape.len() < 9 {
        return Err(cut);
    }
    let count = tape[0] as usize;
    if count > 16 {
        return Err(refused);
    }
    let length = 9 + 12 * count;
    if tape.len() < length {
        return Err(cut);
    }
    *at = length;
    let mut model = Model::empty();
    let mut highest = 1;
    for table in 0..count {
        let id = long(tape, 9 + 12 * table);
        let tablets = short(tape, 17 + 12 * table);
        if id == 0 || tablets == 0 || model.tables.insert(id, tablets).is_some() {
            return Err(refused);
        }
        highest = highest.max(id);
    }
    model.marks = Marks([highest, 1, long(tape, 1), 0]);
    Ok(model)
}

/// The commands, one by one; what is no whole command is the last.
pub fn split(commands: &[u8]) -> Vec<Vec<u8>> {
    let mut parts = Vec::new();
    let mut at = 0;
    while at < commands.len() {
        let end = command_end(commands, at).unwrap_or(commands.len());
        parts.push(commands[at..end].to_vec());
        at = end;
    }
    parts
}

impl Model {
    /// The store of an opening that was refused or cut.
    pub fn empty() -> Self {
        Self {
            name: None,
            nodes: BTreeMap::new(),
            tables: BTreeMap::new(),
            tablets: BTreeMap::new(),
            placements: BTreeMap::new(),
            retired: BTreeMap::new(),
            marks: Marks([0; 4]),
        }
    }

    /// The command at `at`, which moves behind it.
    pub fn step(&mut self, tape: &[u8], at: &mut usize) -> Answer {
        let (byte, start) = (tape[*at], *at + 1);
        let end = match command_end(tape, *at) {
            Ok(end) => end,
            Err(answer) => return answer,
        };
        let operands = &tape[start..end];
        *at = end;
        for reason in 1..=9 {
            if faulty(byte, operands, reason) {
                return say(10, reason, 0, 0);
            }
        }
        if self.name.is_none() && byte != 1 && byte != 7 {
            return say(11, 0, 0, 0);
        }
        match byte {
            1 => self.naming(operands),
            2 => self.register(operands),
            3 => self.lifecycle(long(operands, 0), operands[8]),
            4 => self.tablet(operands),
            5 => self.placement(operands),
            6 => self.retirement(operands),
            _ => self.pick(),
        }
    }

    fn naming(&mut self, operands: &[u8]) -> Answer {
        let name = string(operands, 0);
        match &self.name {
            None => {
                self.name = Some(name);
                say(0, 0, 0, 0)
            }
            Some(known) if *known == name => say(1, 0, 0, 0),
            Some(_) => say(12, 0, 0, 0),
        }
    }

    fn register(&mut self, operands: &[u8]) -> Answer {
        let (id, row) = node_row(operands);
        if let Some(known) = self.nodes.get(&id) {
            if *known == row {
                return say(1, 0, 0, 0);
            }
            let moved = NodeRow {
                lifecycle: row.lifecycle,
                ..known.clone()
            };
            if moved == row {
                return self.lifecycle(id, row.lifecycle);
            }
            return say(13, id, 0, 0);
        }
        for (other, known) in &self.nodes {
            for field in 0..4 {
                if known.endpoints.contains(&row.endpoints[field]) {
                    return say(14, *other, id, field as u64);
                }
            }
        }
        if row.lifecycle != 0 {
            return say(15, id, 5, row.lifecycle as u64);
        }
        if self.nodes.len() == 32 {
            return say(39, 0, 32, 0);
        }
        self.nodes.insert(id, row);
        say(0, 0, 0, 0)
    }

    fn lifecycle(&mut self, id: u64, to: u8) -> Answer {
        let Some(node) = self.nodes.get_mut(&id) else {
            return say(17, id, 0, 0);
        };
        if node.lifecycle == to {
            return say(1, 0, 0, 0);
        }
        if node.lifecycle.checked_add(1) != Some(to) {
            return say(15, id, node.lifecycle as u64, to as u64);
        }
        // On the move to Tombstoned too, as the source has it; a placement without a tablet is not found.
        if to >= 3 {
            for (tablet, row) in &self.tablets {
                let Some(placement) = self.placements.get(tablet) else {
                    continue;
                };
                for (replica, host, _) in &placement.replicas {
                    if *host == id {
                        return say(16, id, row.group, *replica);
                    }
                }
            }
        }
        node.lifecycle = to;
        say(0, 0, 0, 0)
    }

    fn tablet(&mut self, operands: &[u8]) -> Answer {
        let (id, row) = tablet_row(operands);
        if let Some(known) = self.tablets.get(&id) {
            return if *known == row {
                say(1, 0, 0, 0)
            } else {
                say(18, id, 0, 0)
            };
        }
        if self.tablets.values().any(|known| known.group == row.group) {
            return say(19, row.group, 0, 0);
        }
        let Some(limit) = self.tables.get(&row.table).copied() else {
            return say(20, row.table, 0, 0);
        };
        let mut siblings = 0u64;
        let mut bucket_taken = false;
        let mut overlapped = None;
        for (other, known) in &self.tablets {
            if known.table != row.table {
                continue;
            }
            siblings += 1;
            if let (Some(known), Some(new)) = (known.part.bucket(), row.part.bucket()) {
                bucket_taken |= known == new;
            }
            if overlapped.is_none() && known.part.overlaps(&row.part) {
                overlapped = Some(*other);
            }
        }
        if let Part::Hash(bucket, count) = row.part {
            if count != limit {
                return say(21, row.table, limit as u64, count as u64);
            }
            if bucket_taken {
                return say(22, row.table, bucket as u64, 0);
            }
            if siblings >= limit as u64 {
                return say(23, row.table, limit as u64, 0);
            }
        }
        if let Some(other) = overlapped {
            return say(24, other, 0, 0);
        }
        if self.tablets.len() == 64 {
            return say(39, 1, 64, 0);
        }
        self.marks.raise(1, id);
        self.marks.raise(2, row.group);
        self.tablets.insert(id, row);
        say(0, 0, 0, 0)
    }

    fn placement(&mut self, operands: &[u8]) -> Answer {
        let (tablet, row) = placement_row(operands);
        let Some(group) = self.tablets.get(&tablet).map(|tablet| tablet.group) else {
            return say(25, tablet, 0, 0);
        };
        let stored = self.placements.get(&tablet);
        if stored == Some(&row) {
            return say(1, 0, 0, 0);
        }
        for (id, host, _) in &row.replicas {
            let Some(node) = self.nodes.get(host) else {
                return say(17, *host, 0, 0);
            };
            let kept = stored.is_some_and(|stored| {
                stored
                    .replicas
                    .iter()
                    .any(|(old, old_host, _)| old == id && old_host == host)
            });
            let eligible = match node.lifecycle {
                0 => true,
                1 | 2 => kept,
                _ => false,
            };
            if !eligible {
                return say(26, *host, node.lifecycle as u64, 0);
            }
            if row.class.as_ref().is_some_and(|class| *class != node.class) {
                return say(27, *host, 0, 0);
            }
            if self.retired.contains_key(&(group, *id)) {
                return say(28, group, *id, 0);
            }
        }
        for leader in &row.leaders {
            match self.nodes.get(leader) {
                None => return say(17, *leader, 0, 0),
                Some(node) if node.lifecycle != 0 => {
                    return say(26, *leader, node.lifecycle as u64, 0);
                }
                Some(_) => {}
            }
        }
        let hosts: Vec<u64> = row.replicas.iter().map(|(_, host, _)| *host).collect();
        for (domain, required) in row.minima.iter().enumerate() {
            let observed = self.distinct(&hosts, domain);
            if observed < *required as u64 {
                return say(29, domain as u64, *required as u64, observed);
            }
        }
        match stored {
            None => {
                if row.epoch != 1 {
                    return say(30, tablet, row.epoch, 0);
                }
            }
            Some(stored) => {
                if stored.epoch == u64::MAX {
                    return say(31, tablet, 0, 0);
                }
                if row.epoch != stored.epoch + 1 {
                    return say(32, tablet, stored.epoch + 1, row.epoch);
                }
                for (id, host, role) in &row.replicas {
                    // Of several with this number the last is the old one, as in the source.
                    let old = stored.replicas.iter().rfind(|(old, _, _)| old == id);
                    let Some((_, old_host, old_role)) = old else {
                        continue;
                    };
                    if old_host != host {
                        return say(33, *id, *old_host, *host);
                    }
                    if *old_role == 0 && *role == 1 {
                        return say(34, *id, 0, 0);
                    }
                }
            }
        }
        // Placements of tablets that are not there can fill the room that placements share with tablets.
        if stored.is_none() && self.placements.len() == 64 {
            return say(39, 1, 64, 0);
        }
        for (id, _, _) in &row.replicas {
            self.marks.raise(3, *id);
        }
        self.placements.insert(tablet, row);
        say(0, 0, 0, 0)
    }

    fn retirement(&mut self, operands: &[u8]) -> Answer {
        let ((group, replica), proof) = retirement_row(operands);
        let Some((tablet, _)) = self.tablets.iter().find(|(_, row)| row.group == group) else {
            return say(35, group, 0, 0);
        };
        let placement = self.placements.get(tablet);
        if placement.is_some_and(|row| row.replicas.iter().any(|(id, _, _)| *id == replica)) {
            return say(36, group, replica, 0);
        }
        if let Some(known) = self.retired.get(&(group, replica)) {
            return if *known == proof {
                say(1, 0, 0, 0)
            } else {
                say(37, group, replica, 0)
            };
        }
        let Some(placement) = placement else {
            return say(25, *tablet, 0, 0);
        };
        if placement.epoch != proof[0] {
            return say(32, *tablet, placement.epoch, proof[0]);
        }
        if self.retired.len() == 256 {
            return say(39, 2, 256, 0);
        }
        self.retired.insert((group, replica), proof);
        say(0, 0, 0, 0)
    }

    fn pick(&self) -> Answer {
        let chosen = self.first_choice();
        if chosen.is_empty() {
            return say(38, 0, 0, 0);
        }
        let place = |at: usize| chosen.get(at).copied().unwrap_or(0);
        say(2, place(0), place(1), place(2))
    }

    /// Up to three Active nodes, each time the highest gain and among those the lowest id.
    pub fn first_choice(&self) -> Vec<u64> {
        let mut chosen: Vec<u64> = Vec::new();
        for _ in 0..3 {
            let mut best: Option<(u64, u64)> = None;
            for (id, node) in &self.nodes {
                if node.lifecycle != 0 || chosen.contains(id) {
                    continue;
                }
                let mut with = chosen.clone();
                with.push(*id);
                let gain = (0..3)
                    .map(|domain| self.distinct(&with, domain) - self.distinct(&chosen, domain))
                    .sum();
                if best.is_none_or(|(highest, _)| gain > highest) {
                    best = Some((gain, *id));
                }
            }
            chosen.extend(best.map(|(_, id)| id));
        }
        chosen
    }

    /// As many tablets as the table's count says; no for an unknown table.
    pub fn is_complete(&self, table: u64) -> bool {
        let held = self.tablets.values().filter(|row| row.table == table);
        let count = self.tables.get(&table);
        count.is_some_and(|count| held.count() as u64 == *count as u64)
    }

    /// How many different present labels the nodes have in a domain.
    pub fn distinct(&self, nodes: &[u64], domain: usize) -> u64 {
        let labels: BTreeSet<&Vec<u8>> = nodes
            .iter()
            .filter_map(|id| self.nodes[id].labels[domain].as_ref())
            .collect();
        labels.len() as u64
    }

    /// What `--dump` prints after the lines.
    pub fn dump(&self) -> String {
        let mut out = String::new();
        let text = |bytes: &[u8]| {
            bytes
                .iter()
                .fold("=".to_string(), |text, byte| text + &format!("{byte:02x}"))
        };
        let maybe = |bytes: &Option<Vec<u8>>| match bytes {
            None => "-".to_string(),
            Some(bytes) => text(bytes),
        };
        writeln!(out, "name {}", maybe(&self.name)).unwrap();
        for (id, node) in &self.nodes {
            write!(out, "node {id}").unwrap();
            for endpoint in &node.endpoints {
                write!(out, " {}", text(endpoint)).unwrap();
            }
            for label in &node.labels {
                write!(out, " {}", maybe(label)).unwrap();
            }
            writeln!(out, " {} {}", text(&node.class), node.lifecycle).unwrap();
        }
        for (id, count) in &self.tables {
            let word = match self.is_complete(*id) {
                true => "complete",
                false => "incomplete",
            };
            writeln!(out, "table {id} {count} - {word}").unwrap();
        }
        for (id, row) in &self.tablets {
            write!(
                out,
                "tablet {id} {} {} {} ",
                row.table, row.group, row.epoch
            )
            .unwrap();
            match &row.part {
                Part::Hash(bucket, count) => writeln!(out, "hash {bucket} {count}").unwrap(),
                Part::Other(part) if part.kind == 0 => {
                    writeln!(out, "hash {} {}", part.bucket, part.count).unwrap()
                }
                Part::Range(start, end) | Part::Other(Partition { start, end, .. }) => {
                    writeln!(out, "range {} {}", text(start), text(end)).unwrap()
                }
            }
        }
        for (tablet, row) in &self.placements {
            write!(out, "placement {tablet} {} replicas", row.epoch).unwrap();
            for (id, host, role) in &row.replicas {
                write!(out, " {id}:{host}:{role}").unwrap();
            }
            let [regions, zones, racks] = row.minima;
            write!(
                out,
                " factor {} minima {regions} {zones} {racks} class {} leaders",
                row.factor,
                maybe(&row.class)
            )
            .unwrap();
            for leader in &row.leaders {
                write!(out, " {leader}").unwrap();
            }
            writeln!(out).unwrap();
        }
        for ((group, replica), [epoch, version, index, term]) in &self.retired {
            writeln!(
                out,
                "retired {group} {replica} {epoch} {version} {index} {term}"
            )
            .unwrap();
        }
        let [table, tablet, group, replica] = self.marks.0;
        writeln!(out, "marks {table} {tablet} {group} {replica}").unwrap();
        match replica {
            u64::MAX => writeln!(out, "next replica -").unwrap(),
            mark => writeln!(out, "next replica {}", mark + 1).unwrap(),
        }
        let chosen = self.first_choice();
        if chosen.is_empty() {
            writeln!(out, "pick -").unwrap();
        } else {
            write!(out, "pick").unwrap();
            for node in &chosen {
                write!(out, " {node}").unwrap();
            }
            writeln!(
                out,
                " factor {} minima {} {} {} class - leaders 0",
                chosen.len(),
                self.distinct(&chosen, 0),
                self.distinct(&chosen, 1),
                self.distinct(&chosen, 2)
            )
            .unwrap();
        }
        out
    }
}

impl Part {
    /// The bucket of a Hash tablet.
    fn bucket(&self) -> Option<u32> {
        match self {
            Self::Hash(bucket, _) => Some(*bucket),
            Self::Other(part) if part.kind == 0 => Some(part.bucket),
            _ => None,
        }
    }

    /// Start and end of a Range tablet.
    fn range(&self) -> Option<(&[u8], &[u8])> {
        match self {
            Self::Range(start, end) => Some((start, end)),
            Self::Other(part) if part.kind == 1 => Some((&part.start, &part.end)),
            _ => None,
        }
    }

    /// Both are ranges, and they overlap.
    fn overlaps(&self, other: &Self) -> bool {
        match (self.range(), other.range()) {
            (Some(one), Some(other)) => ranges_overlap(one, other),
            _ => false,
        }
    }
}

/// Disjoint only if one end is non-empty, the other start is non-empty, and end is at most start.
pub fn ranges_overlap(one: (&[u8], &[u8]), other: (&[u8], &[u8])) -> bool {
    let before = |end: &[u8], start: &[u8]| !end.is_empty() && !start.is_empty() && end <= start;
    let overlap = !before(one.1, other.0) && !before(other.1, one.0);
    let admitted = |(start, end): (&[u8], &[u8])| start.is_empty() || end.is_empty() || start < end;
    if admitted(one) && admitted(other) {
        // Admitted ranges share a key exactly when the later start lies in both.
        let later = one.0.max(other.0);
        let inside = |end: &[u8]| end.is_empty() || later < end;
        assert_eq!(overlap, inside(one.1) && inside(other.1));
    }
    overlap
}

impl Marks {
    fn raise(&mut self, which: usize, seen: u64) {
        self.0[which] = self.0[which].max(seen);
    }
}

/// Whether a command with these operands has the fault that the reason names.
fn faulty(byte: u8, operands: &[u8], reason: u64) -> bool {
    match (byte, reason) {
        (1, 2) => bad_text(operands, 0, 48, 1, 0x20),
        (2 | 3, 1) => long(operands, 0) == 0,
        (2, 2) => {
            (0..4).any(|field| bad_text(operands, 8 + 49 * field, 48, 1, 0x21))
                || (0..3).any(|label| bad_maybe(operands, 204 + 25 * label))
                || bad_text(operands, 279, 24, 0, 0x20)
        }
        (2, 3) => (0..4).any(|field| {
            (0..field).any(|other| {
                let of = |field: usize| &operands[8 + 49 * field..57 + 49 * field];
                of(field) == of(other)
            })
        }),
        (2, 4) => all_spaces(operands, 279),
        (2, 5) => operands[304] > 4,
        (3, 5) => operands[8] > 4,
        (4, 1) => [0, 8, 16].iter().any(|offset| long(operands, *offset) == 0),
        (4, 2) => {
            // Keys take all byte values.
            [41, 74]
                .iter()
                .any(|offset| bad_padding(operands, *offset, 32))
        }
        (4, 5) => operands[32] > 1,
        (4, 6) => {
            let (bucket, count) = (short(operands, 33), short(operands, 37));
            if operands[32] == 0 {
                return bucket >= count || operands[41..107].iter().any(|byte| *byte != 0);
            }
            let (start, end) = (string(operands, 41), string(operands, 74));
            bucket != 0 || count != 0 || (!start.is_empty() && !end.is_empty() && start >= end)
        }
        (5, 1) => {
            long(operands, 0) == 0
                || used(operands)
                    .iter()
                    .any(|(id, host, _)| *id == 0 || *host == 0)
        }
        (5, 2) => bad_maybe(operands, 152),
        (5, 4) => operands[152] != 255 && all_spaces(operands, 152),
        (5, 5) => used(operands).iter().any(|(_, _, role)| *role > 1),
        (5, 7) => {
            let count = operands[16] as usize;
            if count == 0 || count > 7 || short(operands, 136) as usize != count {
                return true;
            }
            let places = used(operands);
            let twice = (0..count).any(|place| {
                (0..place).any(|other| {
                    places[place].0 == places[other].0 || places[place].1 == places[other].1
                })
            });
            twice || operands[17 + 17 * count..136].iter().any(|byte| *byte != 0)
        }
        (5, 8) => [140, 144, 148]
            .iter()
            .any(|offset| short(operands, *offset) > short(operands, 136)),
        (5, 9) => {
            let count = operands[177] as usize;
            if count > 7 {
                return true;
            }
            let leader = |place: usize| long(operands, 178 + 8 * place);
            (0..count).any(|place| {
                leader(place) == 0 || (0..place).any(|other| leader(other) == leader(place))
            }) || operands[178 + 8 * count..].iter().any(|byte| *byte != 0)
        }
        (6, 1) => long(operands, 0) == 0 || long(operands, 8) == 0,
        _ => false,
    }
}

// Rows, from the bytes that stand behind a command's byte.

pub fn node_row(bytes: &[u8]) -> (u64, NodeRow) {
    let row = NodeRow {
        endpoints: [0, 1, 2, 3].map(|field| string(bytes, 8 + 49 * field)),
        labels: [0, 1, 2].map(|label| maybe(bytes, 204 + 25 * label)),
        class: string(bytes, 279),
        lifecycle: bytes[304],
    };
    (long(bytes, 0), row)
}

pub fn tablet_row(bytes: &[u8]) -> (u64, TabletRow) {
    let part = Partition {
        kind: bytes[32],
        bucket: short(bytes, 33),
        count: short(bytes, 37),
        start: string(bytes, 41),
        end: string(bytes, 74),
    };
    let row = TabletRow {
        table: long(bytes, 8),
        group: long(bytes, 16),
        epoch: long(bytes, 24),
        part: match part {
            Partition {
                kind: 0,
                bucket,
                count,
                start,
                end,
            } if start.is_empty() && end.is_empty() => Part::Hash(bucket, count),
            Partition {
                kind: 1,
                bucket: 0,
                count: 0,
                start,
                end,
            } => Part::Range(start, end),
            part => Part::Other(part),
        },
    };
    (long(bytes, 0), row)
}

pub fn placement_row(bytes: &[u8]) -> (u64, PlacementRow) {
    let row = PlacementRow {
        epoch: long(bytes, 8),
        replicas: used(bytes),
        factor: short(bytes, 136),
        minima: [140, 144, 148].map(|offset| short(bytes, offset)),
        class: maybe(bytes, 152),
        leaders: (0..7)
            .take(bytes[177] as usize)
            .map(|place| long(bytes, 178 + 8 * place))
            .collect(),
    };
    (long(bytes, 0), row)
}

pub fn retirement_row(bytes: &[u8]) -> ((u64, u64), [u64; 4]) {
    let key = (long(bytes, 0), long(bytes, 8));
    (key, [16, 24, 32, 40].map(|offset| long(bytes, offset)))
}

/// The used places: as many as the count says, all seven above that.
fn used(operands: &[u8]) -> Vec<(u64, u64, u8)> {
    (0..7)
        .take(operands[16] as usize)
        .map(|place| replica(operands, place))
        .collect()
}

fn replica(operands: &[u8], place: usize) -> (u64, u64, u8) {
    let offset = 17 + 17 * place;
    (
        long(operands, offset),
        long(operands, offset + 8),
        operands[offset + 16],
    )
}

fn bad_text(operands: &[u8], offset: usize, width: usize, least: u8, lowest: u8) -> bool {
    let length = operands[offset];
    length < least
        || bad_padding(operands, offset, width)
        || string(operands, offset)
            .iter()
            .any(|byte| *byte < lowest || *byte > 0x7E)
}

/// A label or required class: length 255 means absent, and then the field is padding.
fn bad_maybe(operands: &[u8], offset: usize) -> bool {
    match operands[offset] {
        255 => operands[offset + 1..offset + 25]
            .iter()
            .any(|byte| *byte != 0),
        _ => bad_text(operands, offset, 24, 0, 0x20),
    }
}

fn bad_padding(operands: &[u8], offset: usize, width: usize) -> bool {
    let length = operands[offset] as usize;
    length > width
        || operands[offset + 1 + length..offset + 1 + width]
            .iter()
            .any(|byte| *byte != 0)
}

fn all_spaces(operands: &[u8], offset: usize) -> bool {
    let length = (operands[offset] as usize).min(24);
    operands[offset + 1..offset + 1 + length]
        .iter()
        .all(|byte| *byte == 0x20)
}

pub fn string(operands: &[u8], offset: usize) -> Vec<u8> {
    operands[offset + 1..]
        .iter()
        .copied()
        .take(operands[offset] as usize)
        .collect()
}

fn maybe(operands: &[u8], offset: usize) -> Option<Vec<u8>> {
    (operands[offset] != 255).then(|| string(operands, offset))
}

pub fn long(bytes: &[u8], offset: usize) -> u64 {
    (0..8)
        .rev()
        .fold(0, |value, byte| value << 8 | bytes[offset + byte] as u64)
}

pub fn short(bytes: &[u8], offset: usize) -> u32 {
    (0..4)
        .rev()
        .fold(0, |value, byte| value << 8 | bytes[offset + byte] as u32)
}
