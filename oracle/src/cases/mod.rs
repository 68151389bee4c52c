//! Stores made by hand, one for each clause of reason 12 at its limit and one past it, at the first and the last row;
//! and sound stores that no opening and no command gives. What they are answered is the second reading's
//! (blocks.rs, model.rs); what each is there for is written beside it and held against that by the tests below.

mod answers;
mod bases;
mod clauses;

use crate::blocks::{self, Clause, LENGTH, MARKS};
use crate::model;
use bases::Base;

/// What a case is there for.
#[derive(Clone, PartialEq)]
pub enum Due {
    /// A sound store.
    Sound,
    /// One that breaks this clause and no other.
    Breaks(Clause),
    /// A sound store whose commands get these answers.
    Answers(Vec<[u64; 4]>),
}

/// A block: what a tape leaves, with bytes changed, and cut or with zeros behind to a length.
#[derive(Clone)]
pub struct Case {
    pub name: String,
    pub tape: Vec<u8>,
    pub patches: Vec<(usize, Vec<u8>)>,
    pub length: usize,
    pub commands: Vec<u8>,
    pub due: Due,
}

impl Case {
    pub fn block(&self) -> Vec<u8> {
        let (_, model) = model::run(&self.tape);
        let mut block = blocks::bytes(&model);
        for (at, bytes) in &self.patches {
            block[*at..at + bytes.len()].copy_from_slice(bytes);
        }
        block.resize(self.length, 0);
        block
    }
}

type Patch = (usize, Vec<u8>);

struct Cases(Vec<Case>);

impl Cases {
    fn put(&mut self, base: &Base, name: String, patches: Vec<Patch>, due: Due) {
        self.0.push(Case {
            name: format!("{}, {name}", base.name),
            tape: base.tape.clone(),
            patches,
            length: LENGTH,
            commands: base.commands.clone(),
            due,
        });
    }

    fn sound(&mut self, base: &Base, name: impl Into<String>, patches: Vec<Patch>) {
        self.put(base, name.into(), patches, Due::Sound);
    }

    fn breaks(
        &mut self,
        base: &Base,
        name: impl Into<String>,
        patches: Vec<Patch>,
        clause: Clause,
    ) {
        self.put(base, name.into(), patches, Due::Breaks(clause));
    }

    fn lengths(&mut self, base: &Base) {
        for length in [0, 1, LENGTH - 1, LENGTH + 1] {
            let due = Due::Breaks(Clause::Length);
            self.put(base, format!("{length} bytes"), vec![], due);
            self.0.last_mut().expect("put").length = length;
        }
    }

    /// Commands of their own, and the answers that document 01 gives.
    fn answered(
        &mut self,
        base: &Base,
        name: &str,
        patches: Vec<Patch>,
        commands: Vec<(Vec<u8>, [u64; 4])>,
    ) {
        let (commands, answers): (Vec<_>, Vec<_>) = commands.into_iter().unzip();
        self.put(base, name.to_string(), patches, Due::Answers(answers));
        self.0.last_mut().expect("put").commands = commands.concat();
    }
}

fn long(number: u64) -> Vec<u8> {
    number.to_le_bytes().to_vec()
}

fn mark(which: usize, number: u64) -> Patch {
    (MARKS + 8 * which, long(number))
}

/// In the order of their tapes, so that each tape stands once or twice.
pub fn list() -> Vec<Case> {
    let mut cases = Cases(Vec::new());
    let (three, full) = (bases::three(), bases::full());
    clauses::of_zeros(&mut cases, &bases::zeros(&three));
    clauses::of_three_rows(&mut cases, &three);
    answers::of_placements(&mut cases, &three);
    answers::of_tablets(&mut cases, &three);
    answers::of_the_rest(&mut cases, &three);
    clauses::marks_of_one_row(&mut cases, &bases::one());
    clauses::rooms(&mut cases, &full);
    answers::of_full_tables(&mut cases, &full);
    cases.0
}

#[cfg(test)]
mod tests {
    use super::*;
    use crate::blocks::NAME;
    use std::collections::BTreeSet;

    #[test]
    fn each_case_is_what_it_is_there_for() {
        for case in list() {
            let mut block = case.block();
            let broken: Vec<Clause> = blocks::broken(&block).into_iter().collect();
            let shown: Vec<String> = broken.iter().map(Clause::to_string).collect();
            let alone = match &case.due {
                Due::Breaks(clause) => broken == [*clause],
                Due::Sound | Due::Answers(_) => broken.is_empty(),
            };
            assert!(alone, "{}: broken are {shown:?}", case.name);
            let before = block.clone();
            let answers: Vec<[u64; 4]> = blocks::apply(&mut block, &case.commands)
                .iter()
                .map(|answer| {
                    let [a, b, c] = answer.operands;
                    [answer.number, a, b, c]
                })
                .collect();
            match &case.due {
                Due::Breaks(_) => {
                    assert_eq!(
                        answers,
                        vec![[10, 12, 0, 0]; answers.len()],
                        "{}",
                        case.name
                    );
                    assert_eq!(block, before, "{}", case.name);
                }
                Due::Sound => assert!(answers.iter().all(|answer| *answer != [10, 12, 0, 0])),
                Due::Answers(due) => assert_eq!(answers, *due, "{}", case.name),
            }
        }
    }

    #[test]
    fn every_clause_of_every_table_and_text_is_broken_alone() {
        let broken: BTreeSet<Clause> = list()
            .into_iter()
            .filter_map(|case| match case.due {
                Due::Breaks(clause) => Some(clause),
                _ => None,
            })
            .collect();
        let mut due = BTreeSet::from([
            Clause::Length,
            Clause::ReplicaRoom,
            Clause::LeaderRoom,
            Clause::NodeTwice,
            Clause::ReplicaPadding,
            Clause::LeaderPadding,
            Clause::TextRoom(NAME),
            Clause::TextPadding(NAME),
        ]);
        due.extend((0..4).map(Clause::Mark));
        for table in blocks::ALL {
            due.extend([
                Clause::Room(table),
                Clause::Rising(table),
                Clause::RowPadding(table),
            ]);
            for text in table.texts() {
                due.extend([Clause::TextRoom(text), Clause::TextPadding(text)]);
            }
        }
        assert!(broken == due);
    }

    #[test]
    fn names_are_there_once() {
        let names: BTreeSet<String> = list().into_iter().map(|case| case.name).collect();
        assert_eq!(names.len(), list().len());
    }
}
