//! A second reading of the store as one block of bytes: where its parts stand, its rows, reason 12 clause by
//! clause, what commands do to it, and what questions to it are answered. Written from document 01 and the
//! layout's description (README.md, "A block"), and nothing else: it shares no code with what it is compared with.
//!
//! A block is the directory (name, nodes), then the catalog (tables, tablets, placements, retirements, marks).
//! A name is a length byte and 48 bytes, length 0 where there is none. A table is the count of its rows in
//! eight bytes, its rows as the tape has them, and zeros. The marks are eight bytes each: table, tablet,
//! group, replica.

use std::collections::BTreeSet;
use std::fmt;
use std::ops::Range;

use crate::generate::encode;
use crate::model::{
    self, Marks, Model, command_end, long, node_row, opening_length, placement_row, ranges_overlap,
    retirement_row, say, short, string, tablet_row,
};
use crate::tape::Answer;

/// Where a table stands: its count, then its rows.
#[derive(Clone, Copy, PartialEq, Eq, PartialOrd, Ord)]
pub struct Table {
    pub name: &'static str,
    pub at: usize,
    /// Bytes of a row.
    pub width: usize,
    /// The most rows.
    pub room: usize,
}

const fn table(name: &'static str, at: usize, width: usize, room: usize) -> Table {
    Table {
        name,
        at,
        width,
        room,
    }
}

/// A length byte and the field.
pub const NAME: TextPlace = text("name", 0, 48);
pub const NODES: Table = table("nodes", 49, 8 + 4 * 49 + 4 * 25 + 1, 32);
pub const TABLES: Table = table("tables", NODES.end(), 8 + 4, 16);
pub const TABLETS: Table = table("tablets", TABLES.end(), 4 * 8 + 1 + 2 * 4 + 2 * 33, 64);
pub const PLACEMENTS: Table = table(
    "placements",
    TABLETS.end(),
    2 * 8 + 1 + 7 * 17 + 4 * 4 + 25 + 1 + 7 * 8,
    64,
);
pub const RETIREMENTS: Table = table("retirements", PLACEMENTS.end(), 6 * 8, 256);
pub const MARKS: usize = RETIREMENTS.end();
/// Bytes of a store.
pub const LENGTH: usize = MARKS + 4 * 8;

/// In the order of the block.
pub const ALL: [Table; 5] = [NODES, TABLES, TABLETS, PLACEMENTS, RETIREMENTS];

/// Places in a placement's row.
pub const REPLICA_COUNT: usize = 16;
pub const REPLICAS: usize = 17;
pub const REPLICA_WIDTH: usize = 17;
pub const LEADER_COUNT: usize = 177;
pub const LEADERS: usize = 178;
pub const PLACES: usize = 7;

/// A text of a row: its length byte's place, and the bytes of its field, which stand behind it.
#[derive(Clone, Copy, PartialEq, Eq, PartialOrd, Ord)]
pub struct TextPlace {
    pub name: &'static str,
    pub at: usize,
    pub width: usize,
    /// Length 255 means absent.
    pub optional: bool,
}

const fn text(name: &'static str, at: usize, width: usize) -> TextPlace {
    TextPlace {
        name,
        at,
        width,
        optional: false,
    }
}

const fn label(name: &'static str, at: usize) -> TextPlace {
    TextPlace {
        name,
        at,
        width: 24,
        optional: true,
    }
}

impl Table {
    const fn end(&self) -> usize {
        self.at + 8 + self.room * self.width
    }

    /// Where the rows begin.
    pub const fn rows(&self) -> usize {
        self.at + 8
    }

    /// The table's bytes, the count included.
    pub const fn part(&self) -> Range<usize> {
        self.at..self.end()
    }

    pub const fn row(&self, number: usize) -> Range<usize> {
        let at = self.rows() + number * self.width;
        at..at + self.width
    }

    pub fn count(&self, block: &[u8]) -> u64 {
        long(block, self.at)
    }

    /// The rows in use; a count over the room reads as the room.
    pub fn rows_in<'a>(&self, block: &'a [u8]) -> impl Iterator<Item = &'a [u8]> + use<'a> {
        let table = *self;
        (0..table.used(block)).map(move |number| &block[table.row(number)])
    }

    pub fn used(&self, block: &[u8]) -> usize {
        self.count(block).min(self.room as u64) as usize
    }

    /// What the rows rise by; the second number is 0 where the key is one number.
    fn key(&self, row: &[u8]) -> (u64, u64) {
        match self.name {
            "retirements" => (long(row, 0), long(row, 8)),
            _ => (long(row, 0), 0),
        }
    }

    pub fn texts(&self) -> Vec<TextPlace> {
        match self.name {
            "nodes" => vec![
                text("raft", 8, 48),
                text("snapshot", 57, 48),
                text("sql", 106, 48),
                text("admin", 155, 48),
                label("region", 204),
                label("zone", 229),
                label("rack", 254),
                text("class", 279, 24),
            ],
            "tablets" => vec![text("start", 41, 32), text("end", 74, 32)],
            "placements" => vec![label("required class", 152)],
            _ => vec![],
        }
    }
}

/// A clause of reason 12: "a store over this room, its rows not rising, with a node twice in one placement,
/// with padding not zero, or with a mark below a table, tablet, group or desired replica id".
#[derive(Clone, Copy, PartialEq, Eq, PartialOrd, Ord)]
pub enum Clause {
    /// Another length than a store's.
    Length,
    /// More rows than the room.
    Room(Table),
    /// More bytes in a text than its width.
    TextRoom(TextPlace),
    /// More than seven replicas, or preferred leaders.
    ReplicaRoom,
    LeaderRoom,
    Rising(Table),
    NodeTwice,
    /// A byte behind a text that is not zero; of an absent text any.
    TextPadding(TextPlace),
    /// An unused place of a placement that is not zero.
    ReplicaPadding,
    LeaderPadding,
    /// A byte behind the rows in use that is not zero.
    RowPadding(Table),
    /// Table, tablet, group, replica.
    Mark(usize),
}

impl fmt::Display for Clause {
    fn fmt(&self, out: &mut fmt::Formatter<'_>) -> fmt::Result {
        match self {
            Self::Length => write!(out, "length"),
            Self::Room(table) => write!(out, "room of {}", table.name),
            Self::TextRoom(text) => write!(out, "length of {}", text.name),
            Self::ReplicaRoom => write!(out, "replica count"),
            Self::LeaderRoom => write!(out, "leader count"),
            Self::Rising(table) => write!(out, "order of {}", table.name),
            Self::NodeTwice => write!(out, "node twice"),
            Self::TextPadding(text) => write!(out, "padding of {}", text.name),
            Self::ReplicaPadding => write!(out, "unused replicas"),
            Self::LeaderPadding => write!(out, "unused leaders"),
            Self::RowPadding(table) => write!(out, "behind {}", table.name),
            Self::Mark(which) => {
                let name = ["table", "tablet", "group", "replica"][*which];
                write!(out, "{name} mark")
            }
        }
    }
}

/// Every clause that the block breaks.
pub fn broken(block: &[u8]) -> BTreeSet<Clause> {
    if block.len() != LENGTH {
        return BTreeSet::from([Clause::Length]);
    }
    let mut broken = BTreeSet::new();
    judge_text(&mut broken, block, &NAME);
    for table in ALL {
        judge_table(&mut broken, block, &table);
    }
    for row in PLACEMENTS.rows_in(block) {
        judge_places(&mut broken, row);
    }
    let marks = [0, 1, 2, 3].map(|mark| long(block, MARKS + 8 * mark));
    for (mark, id) in marked(block) {
        if marks[mark] < id {
            broken.insert(Clause::Mark(mark));
        }
    }
    broken
}

pub fn sound(block: &[u8]) -> bool {
    broken(block).is_empty()
}

fn judge_table(broken: &mut BTreeSet<Clause>, block: &[u8], table: &Table) {
    if table.count(block) > table.room as u64 {
        broken.insert(Clause::Room(*table));
    }
    let unused = table.row(table.used(block)).start..table.end();
    if block[unused].iter().any(|byte| *byte != 0) {
        broken.insert(Clause::RowPadding(*table));
    }
    let rows: Vec<&[u8]> = table.rows_in(block).collect();
    let rising = |pair: &[&[u8]]| table.key(pair[0]) < table.key(pair[1]);
    if !rows.windows(2).all(rising) {
        broken.insert(Clause::Rising(*table));
    }
    for row in rows {
        for text in table.texts() {
            judge_text(broken, row, &text);
        }
    }
}

fn judge_text(broken: &mut BTreeSet<Clause>, row: &[u8], text: &TextPlace) {
    let field = &row[text.at + 1..text.at + 1 + text.width];
    let length = match row[text.at] {
        255 if text.optional => 0,
        length => length as usize,
    };
    match field.get(length..) {
        None => broken.insert(Clause::TextRoom(*text)),
        Some(rest) if rest.iter().any(|byte| *byte != 0) => {
            broken.insert(Clause::TextPadding(*text))
        }
        Some(_) => false,
    };
}

/// The replica and leader places of a placement.
fn judge_places(broken: &mut BTreeSet<Clause>, row: &[u8]) {
    let (replicas, leaders) = (row[REPLICA_COUNT] as usize, row[LEADER_COUNT] as usize);
    if replicas > PLACES {
        broken.insert(Clause::ReplicaRoom);
    }
    if leaders > PLACES {
        broken.insert(Clause::LeaderRoom);
    }
    let used = replicas.min(PLACES);
    let unused = REPLICAS + REPLICA_WIDTH * used..REPLICAS + REPLICA_WIDTH * PLACES;
    if row[unused].iter().any(|byte| *byte != 0) {
        broken.insert(Clause::ReplicaPadding);
    }
    if row[LEADERS + 8 * leaders.min(PLACES)..]
        .iter()
        .any(|byte| *byte != 0)
    {
        broken.insert(Clause::LeaderPadding);
    }
    let nodes: BTreeSet<u64> = (0..used)
        .map(|place| long(row, REPLICAS + REPLICA_WIDTH * place + 8))
        .collect();
    if nodes.len() < used {
        broken.insert(Clause::NodeTwice);
    }
}

/// Each id that a mark is not below, with the mark's number.
fn marked(block: &[u8]) -> Vec<(usize, u64)> {
    let mut ids = Vec::new();
    for row in TABLES.rows_in(block) {
        ids.push((0, long(row, 0)));
    }
    for row in TABLETS.rows_in(block) {
        ids.push((1, long(row, 0)));
        ids.push((2, long(row, 16)));
    }
    for row in PLACEMENTS.rows_in(block) {
        for place in 0..PLACES.min(row[REPLICA_COUNT] as usize) {
            ids.push((3, long(row, REPLICAS + REPLICA_WIDTH * place)));
        }
    }
    ids
}

// ---- rows

/// The rows of a block that is sound.
pub fn rows(block: &[u8]) -> Model {
    let name = string(block, NAME.at);
    Model {
        name: (!name.is_empty()).then_some(name),
        nodes: NODES.rows_in(block).map(node_row).collect(),
        tables: TABLES
            .rows_in(block)
            .map(|row| (long(row, 0), short(row, 8)))
            .collect(),
        tablets: TABLETS.rows_in(block).map(tablet_row).collect(),
        placements: PLACEMENTS.rows_in(block).map(placement_row).collect(),
        retired: RETIREMENTS.rows_in(block).map(retirement_row).collect(),
        marks: Marks([0, 1, 2, 3].map(|mark| long(block, MARKS + 8 * mark))),
    }
}

/// The block that holds the rows.
pub fn bytes(model: &Model) -> Vec<u8> {
    let mut block = vec![0; LENGTH];
    if let Some(name) = &model.name {
        put(&mut block, NAME.at, &encode::naming(name)[1..]);
    }
    // Rows stand as the commands have them behind the command byte, tables as the opening has them.
    for (number, (id, row)) in model.nodes.iter().enumerate() {
        put_row(&mut block, &NODES, number, &encode::node(*id, row)[1..]);
    }
    for (number, (id, count)) in model.tables.iter().enumerate() {
        let row = &encode::opening(0, &[(*id, *count)])[9..];
        put_row(&mut block, &TABLES, number, row);
    }
    for (number, (id, row)) in model.tablets.iter().enumerate() {
        put_row(&mut block, &TABLETS, number, &encode::tablet(*id, row)[1..]);
    }
    for (number, (id, row)) in model.placements.iter().enumerate() {
        let row = &encode::placement(*id, row)[1..];
        put_row(&mut block, &PLACEMENTS, number, row);
    }
    for (number, ((group, replica), proof)) in model.retired.iter().enumerate() {
        let row = &encode::retirement(*group, *replica, *proof)[1..];
        put_row(&mut block, &RETIREMENTS, number, row);
    }
    for (mark, number) in model.marks.0.iter().enumerate() {
        put(&mut block, MARKS + 8 * mark, &number.to_le_bytes());
    }
    block
}

fn put(block: &mut [u8], at: usize, bytes: &[u8]) {
    block[at..at + bytes.len()].copy_from_slice(bytes);
}

/// The row behind those that are there, and the count with it.
fn put_row(block: &mut [u8], table: &Table, number: usize, row: &[u8]) {
    assert!(number < table.room);
    put(block, table.at, &(number as u64 + 1).to_le_bytes());
    block[table.row(number)].copy_from_slice(row);
}

// ---- what is done to a block

/// Opening a block, and how many bytes of the opening were taken.
pub fn open(block: &mut [u8], opening: &[u8]) -> (usize, Answer) {
    let taken = opening_length(opening);
    let answer = match model::open(opening, &mut 0) {
        Ok(model) => {
            block.copy_from_slice(&bytes(&model));
            say(0, 0, 0, 0)
        }
        Err(answer) => {
            if taken > 0 {
                block.copy_from_slice(&bytes(&Model::empty()));
            }
            answer
        }
    };
    (taken, answer)
}

/// The answers to the commands that stand in the bytes; an unknown byte or a cut command ends them.
pub fn apply(block: &mut [u8], commands: &[u8]) -> Vec<Answer> {
    let mut model = sound(block).then(|| rows(block));
    let mut answers = Vec::new();
    let mut at = 0;
    let mut changed = false;
    while at < commands.len() {
        let end = match command_end(commands, at) {
            Ok(end) => end,
            Err(answer) => {
                answers.push(answer);
                break;
            }
        };
        answers.push(match &mut model {
            Some(model) => model.step(commands, &mut { at }),
            None => say(10, 12, 0, 0),
        });
        changed |= answers.last().is_some_and(|answer| answer.number == 0);
        at = end;
    }
    if let Some(model) = model.filter(|_| changed) {
        block.copy_from_slice(&bytes(&model));
    }
    answers
}

// ---- questions

/// What is given in place of a number: a list or buffer too short, no sound store, no such row.
pub const SHORT: u64 = u64::MAX;
pub const NOT_A_STORE: u64 = u64::MAX - 1;
pub const NONE: u64 = u64::MAX - 2;

/// A question's number, and what it writes at the start of the list that is lent.
#[derive(Debug, Clone, PartialEq, Eq)]
pub struct Said<T> {
    pub given: u64,
    pub written: Vec<T>,
}

impl<T> Said<T> {
    fn code(given: u64) -> Self {
        Self {
            given,
            written: Vec::new(),
        }
    }

    /// The same with a list of so many places.
    pub fn within(self, room: usize) -> Self {
        match self.written.len() > room {
            true => Self::code(SHORT),
            false => self,
        }
    }
}

/// The rows of a block, as questions see them: none where it is not sound.
pub struct Asked<'a> {
    block: &'a [u8],
    model: Option<Model>,
}

impl<'a> Asked<'a> {
    pub fn new(block: &'a [u8]) -> Self {
        Self {
            block,
            model: sound(block).then(|| rows(block)),
        }
    }

    pub fn model(&self) -> Option<&Model> {
        self.model.as_ref()
    }

    pub fn is_sound(&self) -> u64 {
        self.model.is_some() as u64
    }

    /// The row under a key, as it stands.
    pub fn row(&self, table: &Table, key: (u64, u64)) -> Said<u8> {
        if self.model.is_none() {
            return Said::code(NOT_A_STORE);
        }
        match table.rows_in(self.block).find(|row| table.key(row) == key) {
            Some(row) => Said {
                given: table.width as u64,
                written: row.to_vec(),
            },
            None => Said::code(NONE),
        }
    }

    pub fn next_replica_id(&self) -> Said<u64> {
        match &self.model {
            None => Said::code(NOT_A_STORE),
            Some(model) => match model.marks.0[3].checked_add(1) {
                None => Said::code(NONE),
                Some(next) => Said {
                    given: 1,
                    written: vec![next],
                },
            },
        }
    }

    pub fn is_complete(&self, table: u64) -> u64 {
        match &self.model {
            None => NOT_A_STORE,
            Some(model) => model.is_complete(table) as u64,
        }
    }

    /// Three nodes, the replication factor, the minima of regions, zones and racks.
    pub fn initial_placement(&self) -> Said<u64> {
        let Some(model) = &self.model else {
            return Said::code(NOT_A_STORE);
        };
        let chosen = model.first_choice();
        let mut written = chosen.clone();
        written.resize(3, 0);
        written.push(chosen.len() as u64);
        written.extend((0..3).map(|domain| model.distinct(&chosen, domain)));
        Said {
            given: chosen.len() as u64,
            written,
        }
    }

    /// From which key on the range of `other`, a tablet's row, overlaps that of the stored tablet.
    pub fn overlap_start(&self, tablet: u64, other: &[u8]) -> Said<u8> {
        let Some(model) = &self.model else {
            return Said::code(NOT_A_STORE);
        };
        if other.len() < TABLETS.width {
            return Said::code(SHORT);
        }
        let stored = TABLETS
            .rows_in(self.block)
            .find(|row| long(row, 0) == tablet);
        let Some(stored) = stored else {
            return Said::code(NONE);
        };
        debug_assert!(model.tablets.contains_key(&tablet));
        let [[start, end], [from, to]] =
            [other, stored].map(|row| [41, 74].map(|key| key_in(row, key)));
        if !ranges_overlap((start, end), (from, to)) {
            return Said::code(NONE);
        }
        let later = start.max(from);
        Said {
            given: later.len() as u64,
            written: later.to_vec(),
        }
    }
}

/// A key of a tablet's row; of a length above its width, which no sound store has, the whole field.
fn key_in(row: &[u8], at: usize) -> &[u8] {
    &row[at + 1..at + 1 + (row[at] as usize).min(32)]
}

#[cfg(test)]
mod tests {
    use super::*;
    use crate::generate::{self, KINDS};

    #[test]
    fn a_store_is_44185_bytes() {
        assert_eq!(LENGTH, 44_185);
        let parts = ALL.map(|table| (table.at, table.part().len()));
        let from_the_layout = [
            (49, 9768),
            (9817, 200),
            (10_017, 6856),
            (16_873, 14_984),
            (31_857, 12_296),
        ];
        assert_eq!(parts, from_the_layout);
    }

    #[test]
    fn rows_that_are_written_are_read_again() {
        for kind in KINDS {
            for seed in 1..20 {
                let (_, model) = model::run(&generate::tape(kind, seed).bytes());
                let block = bytes(&model);
                assert!(sound(&block), "{} {seed}", kind.name());
                let read = rows(&block);
                assert_eq!(read.dump(), model.dump());
                assert_eq!(bytes(&read), block);
            }
        }
    }

    #[test]
    fn zeros_are_the_store_of_a_refused_opening() {
        assert_eq!(bytes(&Model::empty()), vec![0; LENGTH]);
    }
}
