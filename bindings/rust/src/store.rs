//! A store that lives between calls.

use std::fmt;

use crate::answer::Answer;
use crate::command::{Command, Node, Placement, Policy, Retirement, Tablet};
use crate::error::{NotAStore, OpenError, Short, TooLong};
use crate::ids::{NodeId, RaftGroupId, ReplicaId, TableId, TabletId};
use crate::linked;
use crate::opening::Opening;
use crate::sizes::{KEY_WIDTH, LINE_BYTES, STORE_BYTES};
use crate::tape::command_answers;
use crate::text::Text;

/// The placement tables, in one block of [`STORE_BYTES`] bytes on the heap. The block is always a sound
/// store: an opening gives one, and every command leaves one.
///
/// Questions borrow it shared, so that several threads may ask at once; commands borrow it alone.
#[derive(Clone, PartialEq, Eq)]
pub struct Store {
    block: Box<[u8; STORE_BYTES]>,
}

/// The first choice among the nodes, and the policy that it keeps to.
#[derive(Debug, Clone, PartialEq, Eq, Hash)]
pub struct InitialPlacement {
    /// Up to three Active nodes, in the order of choice.
    pub nodes: Vec<NodeId>,
    /// As many replicas as nodes, and as many distinct labels as the nodes have. It has no class and no leaders.
    pub policy: Policy,
}

impl Store {
    /// A store with the opening's tables and group mark; all else is empty.
    ///
    /// # Errors
    /// The opening is refused, or has no form on the tape.
    pub fn open(opening: &Opening) -> Result<Self, OpenError> {
        let (store, _) = Self::open_bytes(&opening.to_bytes()?)?;
        Ok(store)
    }

    /// The store of the opening that stands at the start of a tape, and how many bytes the opening has; the
    /// tape's commands stand behind them.
    ///
    /// # Errors
    /// The answer to an opening that is refused or cut short.
    pub fn open_bytes(tape: &[u8]) -> Result<(Self, usize), Answer> {
        let mut store = Self { block: zeros() };
        let mut numbers = [0; 4];
        let taken = given(linked::open(&mut store.block[..], tape, &mut numbers))
            .expect("an opening takes a number of bytes");
        match answer(numbers) {
            Answer::Applied => Ok((store, taken)),
            refusal => Err(refusal),
        }
    }

    /// Gives the store one command.
    ///
    /// # Errors
    /// A field of the command has no form on the tape. A refusal is an answer and not an error;
    /// [`Answer::accepted`] makes one of it.
    pub fn enter(&mut self, command: impl Into<Command>) -> Result<Answer, TooLong> {
        let mut numbers = [0; 4];
        self.apply_into(&command.into().to_bytes()?, &mut numbers)
            .expect("one command has one answer");
        Ok(answer(numbers))
    }

    /// Gives the store commands as the tape has them, one behind the other: an answer for each, and one more
    /// where a byte that is no command, or a command that is cut short, ends them.
    pub fn apply(&mut self, commands: &[u8]) -> Vec<Answer> {
        let mut numbers = vec![[0; 4]; command_answers(commands)];
        self.apply_into(commands, numbers.as_flattened_mut())
            .expect("`command_answers` gave the room");
        numbers.into_iter().map(answer).collect()
    }

    /// As [`apply`](Store::apply), without memory of its own: writes each answer's number and three operands
    /// to the start of `out`, and gives how many answers there are.
    ///
    /// # Errors
    /// The list is too short; it is as it was, and so is the store.
    pub fn apply_into(&mut self, commands: &[u8], out: &mut [u64]) -> Result<usize, Short> {
        match linked::apply(&mut self.block[..], commands, out) {
            linked::SHORT => Err(Short {
                needed: 4 * command_answers(commands),
                room: out.len(),
            }),
            count => Ok(count as usize),
        }
    }

    /// The node with this id.
    pub fn node(&self, id: NodeId) -> Option<Node> {
        self.row(|store, row| linked::node(store, id.0, row))
            .map(|row| Node::from_row(&row))
    }

    /// The tablet with this id.
    pub fn tablet(&self, id: TabletId) -> Option<Tablet> {
        self.row(|store, row| linked::tablet(store, id.0, row))
            .map(|row| Tablet::from_row(&row))
    }

    /// Where the tablet's copies are wanted.
    pub fn placement(&self, tablet: TabletId) -> Option<Placement> {
        self.row(|store, row| linked::placement(store, tablet.0, row))
            .map(|row| Placement::from_row(&row))
    }

    /// The proof with which the replica was retired.
    pub fn retirement(&self, group: RaftGroupId, replica: ReplicaId) -> Option<Retirement> {
        self.row(|store, row| linked::retirement(store, group.0, replica.0, row))
            .map(|row| Retirement::from_row(&row))
    }

    /// The replica id above all that were wanted; none at the end of the numbers.
    pub fn next_replica_id(&self) -> Option<ReplicaId> {
        let mut number = [0];
        given(linked::next_replica_id(&self.block[..], &mut number))?;
        Some(ReplicaId(number[0]))
    }

    /// Whether the table has as many tablets as its tablet count; no for a table that there is not.
    pub fn is_complete(&self, table: TableId) -> bool {
        given(linked::is_complete(&self.block[..], table.0)) == Some(1)
    }

    /// Up to three Active nodes that stand far apart, and the policy that they keep to. [`Command::Picking`]
    /// answers with the same nodes.
    pub fn initial_placement(&self) -> InitialPlacement {
        let mut numbers = [0; 7];
        let count = given(linked::initial_placement(&self.block[..], &mut numbers))
            .expect("there is always a choice, if of no node");
        // the policy's numbers have 32 bits in the library
        let policy = |place: usize| numbers[3 + place] as u32;
        InitialPlacement {
            nodes: numbers[..count].iter().copied().map(NodeId).collect(),
            policy: Policy {
                replication_factor: policy(0),
                min_distinct_regions: policy(1),
                min_distinct_zones: policy(2),
                min_distinct_racks: policy(3),
                required_storage_class: None,
                preferred_leaders: Vec::new(),
            },
        }
    }

    /// From which key on the range of `other` overlaps that of the stored tablet, which
    /// [`Answer::RangeOverlap`] names; none where they do not overlap, or no such tablet is stored. The table
    /// of `other` is not asked.
    ///
    /// # Errors
    /// A key of `other` has no form on the tape.
    pub fn overlap_start(&self, tablet: TabletId, other: &Tablet) -> Result<Option<Text>, TooLong> {
        let command = other.to_bytes()?;
        let mut key = [0; KEY_WIDTH];
        let length = given(linked::overlap_start(
            &self.block[..],
            tablet.0,
            &command[1..],
            &mut key,
        ));
        Ok(length.map(|length| Text::from(&key[..length])))
    }

    /// One line of the dump, counted from 0, with its line feed; none behind the last.
    pub fn dump_line(&self, line: u64) -> Option<String> {
        let mut bytes = vec![0; LINE_BYTES];
        let length = given(linked::dump(&self.block[..], line, &mut bytes))?;
        bytes.truncate(length);
        Some(String::from_utf8(bytes).expect("the dump is ASCII"))
    }

    /// All tables and marks as text, a line for each row; texts and keys as `=` and their bytes in hexadecimal.
    pub fn dump(&self) -> String {
        (0..).map_while(|line| self.dump_line(line)).collect()
    }

    /// The store's bytes, to be kept. Another version of the library reads them where the version's major
    /// number is the same.
    pub fn as_bytes(&self) -> &[u8; STORE_BYTES] {
        &self.block
    }

    /// A store that was kept.
    ///
    /// # Errors
    /// The bytes are no sound store. That a sound store is the one that was kept, they do not say.
    pub fn from_bytes(bytes: &[u8]) -> Result<Self, NotAStore> {
        if bytes.len() != STORE_BYTES {
            return Err(NotAStore::Length(bytes.len()));
        }
        if linked::is_sound(bytes) != 1 {
            return Err(NotAStore::Unsound);
        }
        let mut block = zeros();
        block.copy_from_slice(bytes);
        Ok(Self { block })
    }

    /// A row that the library writes, which knows its width.
    fn row<const WIDTH: usize>(
        &self,
        ask: impl FnOnce(&[u8], &mut [u8]) -> u64,
    ) -> Option<[u8; WIDTH]> {
        let mut row = [0; WIDTH];
        let width = given(ask(&self.block[..], &mut row))?;
        assert_eq!(width, WIDTH, "a row has its width");
        Some(row)
    }
}

/// The tables and marks.
impl fmt::Debug for Store {
    fn fmt(&self, out: &mut fmt::Formatter<'_>) -> fmt::Result {
        write!(out, "Store\n{}", self.dump())
    }
}

/// The block without a copy of it on the stack.
fn zeros() -> Box<[u8; STORE_BYTES]> {
    vec![0; STORE_BYTES]
        .try_into()
        .expect("it has a store's length")
}

fn answer(numbers: [u64; 4]) -> Answer {
    Answer::from_numbers(numbers).expect("the library gives the answers of docs/FORMAT.md")
}

/// What the library counts. Of the codes only `NONE` is left: a store is sound, and the room is right.
fn given(number: u64) -> Option<usize> {
    match number {
        linked::NONE => None,
        linked::NOT_A_STORE | linked::SHORT => {
            unreachable!("a store is sound, and the room is that of bindings/lupinadze.h")
        }
        count => Some(count as usize),
    }
}
