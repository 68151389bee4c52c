//! Tapes, and stores made by hand, through the static library.

use std::fmt::Debug;

use lupinadze::linked as library;

use crate::alter::HandMade;
use crate::blocks::{
    self, Asked, LENGTH, NODES, NONE, NOT_A_STORE, PLACEMENTS, RETIREMENTS, SHORT, Said, TABLES,
    TABLETS, Table,
};
use crate::coverage::Coverage;
use crate::difference::{self, Difference, same};
use crate::model::{command_end, long, opening_length};
use crate::random::Random;
use crate::tape::{Answer, Line};

type Compared = Result<(), Difference>;

/// What was sent.
#[derive(Default)]
pub struct Sent {
    pub pieces: u64,
    /// Pieces that ended in a cut command.
    pub cut: u64,
    pub blocks: u64,
    /// Blocks that were sound.
    pub sound: u64,
    pub questions: u64,
    /// Answers to commands on blocks made by hand.
    pub coverage: Coverage,
}

impl Sent {
    pub fn merge(&mut self, other: Self) {
        self.pieces += other.pieces;
        self.cut += other.cut;
        self.blocks += other.blocks;
        self.sound += other.sound;
        self.questions += other.questions;
        self.coverage.merge(other.coverage);
    }
}

/// What a list holds that nothing has been written to.
trait Untouched: Copy + PartialEq + Debug {
    const HERE: Self;
}

impl Untouched for u8 {
    const HERE: Self = 0xA5;
}

impl Untouched for u64 {
    const HERE: Self = 0xA5A5_A5A5_A5A5_A5A5;
}

/// A call that has a list lent: what it gives, what it writes to the start, and that the rest stays.
fn lent<T: Untouched>(
    what: &str,
    room: usize,
    due: Said<T>,
    call: impl FnOnce(&mut [T]) -> u64,
) -> Compared {
    let due = due.within(room);
    let mut out = vec![T::HERE; room];
    let given = call(&mut out);
    same(&format!("{what}: number given"), due.given, given)?;
    let mut expected = due.written;
    expected.resize(room, T::HERE);
    difference::list(&format!("{what}: list"), 4, &expected, &out)
}

fn code<T>(given: u64) -> Said<T> {
    Said {
        given,
        written: Vec::new(),
    }
}

fn numbers(answers: &[Answer]) -> Vec<u64> {
    let rows = answers.iter().map(|answer| {
        let [a, b, c] = answer.operands;
        [answer.number, a, b, c]
    });
    rows.flatten().collect()
}

// ---- tapes

/// The tape through `lupinadze_run`, and through `lupinadze_open` and `lupinadze_apply` in pieces.
pub fn tape(
    tape: &[u8],
    lines: &[Line],
    dump: &str,
    mut random: Random,
    sent: &mut Sent,
) -> Compared {
    let answers: Vec<Answer> = lines.iter().map(|line| line.answer).collect();
    whole(tape, &answers, &mut random)?;
    let refused = lines.first().is_some_and(|line| line.number == 0);
    let mut block = vec![0xA5; LENGTH];
    let opening = match refused {
        true => answers[0],
        false => Answer {
            number: 0,
            operands: [0; 3],
        },
    };
    open(&mut block, tape, opening, &mut random)?;
    if opening.number == 40 {
        return Ok(());
    }
    if !refused {
        in_pieces(&mut block, tape, &answers, &mut random, sent)?;
    }
    left(&block, dump)?;
    lines_of_dump(&block, dump, &mut random)?;
    questions(&block, &mut random, sent)
}

fn whole(tape: &[u8], answers: &[Answer], random: &mut Random) -> Compared {
    let what = "lupinadze_run";
    same(
        "lupinadze_answers",
        answers.len() as u64,
        library::answers(tape),
    )?;
    let due = Said {
        given: answers.len() as u64,
        written: numbers(answers),
    };
    if random.chance(25) && !answers.is_empty() {
        let room = due.written.len() - 1;
        lent(what, room, code(SHORT), |out| library::run(tape, out))?;
    }
    let room = due.written.len() + random.below(9);
    lent(what, room, due, |out| library::run(tape, out))
}

/// The opening alone or with the tape behind it, after a cut one and one with too short a list.
fn open(block: &mut [u8], tape: &[u8], answer: Answer, random: &mut Random) -> Compared {
    let what = "lupinadze_open";
    let taken = opening_length(tape);
    let mut unchanged = block.to_vec();
    if random.chance(10) {
        let whole = taken.max(1);
        let cut = &tape[..random.below(whole).min(tape.len())];
        let due = Said {
            given: 0,
            written: vec![40, 2, 0, 0],
        };
        lent(what, 6, due, |out| library::open(block, cut, out))?;
        let room = random.below(4);
        lent(what, room, code(SHORT), |out| {
            library::open(block, tape, out)
        })?;
        let other = random.one(&[0, 1, LENGTH - 1, LENGTH + 1]);
        let mut other = vec![0xA5; other];
        let room = random.below(6);
        lent(what, room, code(NOT_A_STORE), |out| {
            library::open(&mut other, tape, out)
        })?;
        same(
            "memory of another length",
            true,
            other.iter().all(|byte| *byte == 0xA5),
        )?;
        difference::list("the block after a cut opening", 1, &unchanged, block)?;
    }
    let bytes = match random.chance(50) && taken > 0 {
        true => &tape[..taken],
        false => tape,
    };
    let due = Said {
        given: taken as u64,
        written: numbers(&[answer]),
    };
    lent(what, 4 + random.below(3), due, |out| {
        library::open(block, bytes, out)
    })?;
    if taken == 0 {
        return difference::list("the block after a cut opening", 1, &unchanged, block);
    }
    let (due, opened) = blocks::open(&mut unchanged, tape);
    same(
        "the two readings of an opening",
        (taken, answer),
        (due, opened),
    )?;
    difference::list("the block after an opening", 1, &unchanged, block)
}

/// The commands behind the opening, cut between commands; in one run of ten some pieces end in a command that is
/// cut, whose bytes are then sent again.
fn in_pieces(
    block: &mut [u8],
    tape: &[u8],
    answers: &[Answer],
    random: &mut Random,
    sent: &mut Sent,
) -> Compared {
    let mut ends = vec![opening_length(tape)];
    while let Some(at) = ends.last().copied().filter(|at| *at < tape.len()) {
        match command_end(tape, at) {
            Ok(end) => ends.push(end),
            Err(_) => break,
        }
    }
    let commands = ends.len() - 1;
    let most = random.one(&[1, 1, 2, 8, 8, 60, 200, 1000, usize::MAX]);
    // Where not above 0, no piece is cut in a command.
    let cut_chance = random.one(&[0, 0, 0, 0, 0, 0, 0, 0, 0, 30]);
    let (mut from, mut to_cut) = (0, cut_chance > 0);
    loop {
        let count = random.between(1, most.min(commands).max(1));
        let to = (from + count).min(commands);
        let mut end = match to == commands && (from == to || random.chance(70)) {
            true => tape.len(),
            false => ends[to],
        };
        let mut due = answers[from..to].to_vec();
        if end == tape.len() {
            // What is no command is the tape's last answer.
            due = answers[from..].to_vec();
        }
        let next = ends.get(to + 1).map(|next| next - ends[to]);
        if let Some(length) = next.filter(|length| *length > 1)
            && (to_cut || random.chance(cut_chance))
        {
            to_cut = false;
            end = ends[to] + random.between(1, length - 1);
            due.push(Answer {
                number: 40,
                operands: [2, tape[ends[to]] as u64, 0],
            });
            sent.cut += 1;
        }
        apply(block, &tape[ends[from]..end], &due, random)?;
        sent.pieces += 1;
        if end == tape.len() {
            return Ok(());
        }
        from = to;
    }
}

fn apply(block: &mut [u8], commands: &[u8], due: &[Answer], random: &mut Random) -> Compared {
    let what = "lupinadze_apply";
    let said = Said {
        given: due.len() as u64,
        written: numbers(due),
    };
    let before = block.to_vec();
    if random.chance(10) && !due.is_empty() {
        let room = said.written.len() - random.between(1, 4);
        lent(what, room, code(SHORT), |out| {
            library::apply(block, commands, out)
        })?;
        difference::list("the block after too short a list", 1, &before, block)?;
    }
    let room = said.written.len() + random.below(9);
    lent(what, room, said, |out| library::apply(block, commands, out))?;
    if due.iter().all(|answer| answer.number != 0) {
        difference::list("the block after refusals", 1, &before, block)?;
    }
    Ok(())
}

/// The block's rows, by the second reading of the block.
fn left(block: &[u8], dump: &str) -> Compared {
    let broken: Vec<String> = blocks::broken(block)
        .iter()
        .map(|clause| clause.to_string())
        .collect();
    same(
        "clauses of reason 12 that the last block breaks",
        vec![],
        broken,
    )?;
    let rows = blocks::rows(block);
    difference::lines("the rows of the last block", dump, &rows.dump())?;
    difference::list(
        "the bytes of the last block",
        8,
        &blocks::bytes(&rows),
        block,
    )
}

/// No line of the dump is longer.
const LINE_BYTES: usize = 1024;

fn lines_of_dump(block: &[u8], dump: &str, random: &mut Random) -> Compared {
    let what = "lupinadze_dump";
    let lines: Vec<&str> = dump.split_inclusive('\n').collect();
    let short = random.below(lines.len());
    for (number, line) in lines.iter().enumerate() {
        let due = Said {
            given: line.len() as u64,
            written: line.as_bytes().to_vec(),
        };
        let what = format!("{what} {number}");
        let call = |out: &mut [u8]| library::dump(block, number as u64, out);
        if number == short {
            lent(&what, line.len() - 1, code(SHORT), call)?;
            lent(&what, line.len(), due, call)?;
        } else {
            lent(&what, LINE_BYTES, due, call)?;
        }
    }
    for number in [lines.len() as u64, lines.len() as u64 + 1, u64::MAX] {
        let room = random.one(&[0, LINE_BYTES]);
        lent(what, room, code(NONE), |out| {
            library::dump(block, number, out)
        })?;
    }
    Ok(())
}

// ---- stores made by hand

/// Each command on the block that the one before left, and questions before and behind.
pub fn hand_made(made: &HandMade, random: &mut Random, sent: &mut Sent) -> Compared {
    let mut block = made.block.clone();
    sent.blocks += 1;
    sent.sound += blocks::sound(&block) as u64;
    questions(&block, random, sent)?;
    if random.chance(20) {
        dump_of_any(&block, random)?;
    }
    for (number, command) in made.commands.iter().enumerate() {
        let command = match random.chance(10) {
            true => [command.clone(), tail(random, command)].concat(),
            false => command.clone(),
        };
        let mut due_block = block.clone();
        let due = blocks::apply(&mut due_block, &command);
        let mut at = 0;
        for answer in &due {
            sent.coverage.add(Some(command[at]), answer);
            at = command_end(&command, at).unwrap_or(command.len());
        }
        let compared = apply(&mut block, &command, &due, random)
            .and_then(|()| difference::list("the block behind", 8, &due_block, &block));
        if let Err(found) = compared {
            let what = format!("command {number}, {}", found.what);
            return Err(Difference { what, ..found });
        }
    }
    questions(&block, random, sent)
}

/// An unknown byte, or a cut command.
fn tail(random: &mut Random, command: &[u8]) -> Vec<u8> {
    match command.len() {
        length if length > 1 && random.chance(50) => {
            command[..random.between(1, length - 1)].to_vec()
        }
        _ => vec![random.one(&[0, 8, 255])],
    }
}

fn dump_of_any(block: &[u8], random: &mut Random) -> Compared {
    match Asked::new(block).model() {
        Some(model) => lines_of_dump(block, &model.dump(), random),
        None => {
            let line = random.one(&[0, 1, u64::MAX]);
            let room = random.one(&[0, LINE_BYTES]);
            lent("lupinadze_dump", room, code(NOT_A_STORE), |out| {
                library::dump(block, line, out)
            })
        }
    }
}

// ---- questions

/// Each question, about rows that are there and about others.
fn questions(block: &[u8], random: &mut Random, sent: &mut Sent) -> Compared {
    let asked = Asked::new(block);
    same(
        "lupinadze_is_sound",
        asked.is_sound(),
        library::is_sound(block),
    )?;
    let room = random.below(3);
    lent(
        "lupinadze_next_replica_id",
        room,
        asked.next_replica_id(),
        |out| library::next_replica_id(block, out),
    )?;
    let room = random.one(&[0, 6, 7, 9]);
    lent(
        "lupinadze_initial_placement",
        room,
        asked.initial_placement(),
        |out| library::initial_placement(block, out),
    )?;
    for _ in 0..3 {
        let (table, _) = a_key(random, block, &TABLES);
        let what = format!("lupinadze_is_complete {table}");
        same(
            &what,
            asked.is_complete(table),
            library::is_complete(block, table),
        )?;
    }
    rows(&asked, block, random)?;
    for _ in 0..4 {
        overlap(&asked, block, random)?;
    }
    sent.questions += 18;
    Ok(())
}

/// A question for a row, its key as two numbers, of which most tables have one.
type RowCall = fn(&[u8], (u64, u64), &mut [u8]) -> u64;

fn rows(asked: &Asked, block: &[u8], random: &mut Random) -> Compared {
    let calls: [(&str, Table, Table, RowCall); 4] = [
        ("lupinadze_node", NODES, NODES, |block, (id, _), out| {
            library::node(block, id, out)
        }),
        (
            "lupinadze_tablet",
            TABLETS,
            TABLETS,
            |block, (id, _), out| library::tablet(block, id, out),
        ),
        // Of a tablet, with a placement or without one.
        (
            "lupinadze_placement",
            PLACEMENTS,
            TABLETS,
            |block, (id, _), out| library::placement(block, id, out),
        ),
        (
            "lupinadze_retirement",
            RETIREMENTS,
            RETIREMENTS,
            |block, (group, replica), out| library::retirement(block, group, replica, out),
        ),
    ];
    for (name, table, keys, call) in calls {
        for keys in [table, keys] {
            let key = a_key(random, block, &keys);
            let due = asked.row(&table, key);
            let room = random.one(&[0, table.width - 1, table.width, table.width + 3, 400]);
            let what = format!("{name} {key:?} in {room} bytes");
            lent(&what, room, due, |out| call(block, key, out))?;
        }
    }
    Ok(())
}

fn overlap(asked: &Asked, block: &[u8], random: &mut Random) -> Compared {
    let (tablet, _) = a_key(random, block, &TABLETS);
    let mut other = vec![0; TABLETS.width];
    if let Some(row) = a_row(random, block, &TABLETS).filter(|_| random.chance(70)) {
        other = row.to_vec();
    }
    for key in [41, 74] {
        if random.chance(40) {
            let length = random.one(&[0, 1, 2, 31, 32, 33, 255]);
            other[key] = length as u8;
            let byte = random.one(&[0, 1, b'a', b'b', 255]);
            other[key + 1..key + 1 + length.min(32)].fill(byte);
        }
    }
    if random.chance(10) {
        other.truncate(random.below(TABLETS.width));
    } else if random.chance(20) {
        other.extend([1, 2, 3]);
    }
    let due = asked.overlap_start(tablet, &other);
    let length = due.written.len();
    let room = random.one(&[0, length.saturating_sub(1), length, 32, 40]);
    let what = format!("lupinadze_overlap_start {tablet} with {other:?} in {room} bytes");
    lent(&what, room, due, |out| {
        library::overlap_start(block, tablet, &other, out)
    })
}

fn a_row<'a>(random: &mut Random, block: &'a [u8], table: &Table) -> Option<&'a [u8]> {
    if block.len() != LENGTH {
        return None;
    }
    let rows: Vec<&[u8]> = table.rows_in(block).collect();
    random.any(&rows)
}

/// The key of a row that is there, mostly, or one like it.
fn a_key(random: &mut Random, block: &[u8], table: &Table) -> (u64, u64) {
    let row = a_row(random, block, table);
    let of = |at: usize| row.map_or(1, |row| long(row, at));
    let second = match *table == RETIREMENTS {
        true => of(8),
        false => 0,
    };
    match random.below(8) {
        0 => (of(0).wrapping_add(1), second),
        1 => (of(0), second.wrapping_add((*table == RETIREMENTS) as u64)),
        2 => (random.one(&[0, 1, u64::MAX, of(0).swap_bytes()]), second),
        _ => (of(0), second),
    }
}

/// What the library has to be for a comparison.
pub fn missing() -> Option<String> {
    let bytes = library::store_bytes();
    (bytes != LENGTH as u64).then(|| format!("lupinadze_store_bytes: {bytes}, and not {LENGTH}"))
}
