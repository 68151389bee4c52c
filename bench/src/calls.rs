//! Commands on a store that lives between calls, in the forms of its sides: the Rust handlers behind a store
//! that they own, and the library's `lupinadze_apply` on a block, with one command a call and with many.

use std::hint::black_box;
use std::time::{Duration, Instant};

use lupinadze::{Answer, Store};
use oracle::tape::{Next, Reader};
use oracle::{dump, handlers};
use ragnordb_catalog::MetadataState;

use crate::sequence::Ready;

/// How many commands a call of many has.
pub const MANY: usize = 100;

#[derive(Debug, Clone, Copy, PartialEq, Eq)]
pub enum CallSide {
    /// The original on its own store: each command decoded, admitted, handled.
    Owned,
    /// `lupinadze_apply` with one command a call.
    Single,
    /// `lupinadze_apply` with [`MANY`] commands a call.
    Many,
}

pub const CALL_SIDES: [CallSide; 3] = [CallSide::Owned, CallSide::Single, CallSide::Many];

pub struct Calls {
    state: MetadataState,
    store: Store,
    single: Vec<Vec<u8>>,
    many: Vec<Vec<u8>>,
    out: Vec<u64>,
    pub answers: Vec<[u64; 4]>,
}

impl Calls {
    /// The store that `before` leaves, and the commands that are timed on it. The sides must agree before
    /// anything is timed.
    pub fn new(before: &[u8], commands: Vec<Vec<u8>>) -> Self {
        let run = handlers::run(before);
        let state = run.store.expect("the opening is accepted");
        let (mut store, taken) = Store::open_bytes(before).expect("the opening is accepted");
        store.apply(&before[taken..]);
        let many = commands.chunks(MANY).map(<[_]>::concat).collect();
        let mut calls = Self {
            state,
            store,
            single: commands,
            many,
            out: vec![0; 4 * MANY],
            answers: Vec::new(),
        };
        calls.compare();
        calls
    }

    fn compare(&mut self) {
        let mut judged = self.state.clone();
        let mut handled = self.state.clone();
        let mut single = self.store.clone();
        let mut many = self.store.clone();
        for bytes in &self.single {
            let Next::Command(_, command) = Reader::new(bytes).next() else {
                panic!("every command is whole");
            };
            let answer = handlers::judge(&mut judged, &command);
            let [a, b, c] = answer.operands;
            self.answers.push([answer.number, a, b, c]);
            Ready::new(&command).handle(&mut handled);
            let given: Vec<_> = single.apply(bytes).iter().map(Answer::numbers).collect();
            assert_eq!(&given, &self.answers[self.answers.len() - 1..]);
        }
        let given: Vec<_> = self
            .many
            .iter()
            .flat_map(|bytes| many.apply(bytes))
            .map(|answer| answer.numbers())
            .collect();
        assert_eq!(given, self.answers);
        let dumped = single.dump();
        assert_eq!(dumped, many.dump());
        assert_eq!(dumped, dump::dump(Some(&judged)));
        assert_eq!(dumped, dump::dump(Some(&handled)));
    }

    pub fn commands(&self) -> usize {
        self.single.len()
    }

    /// The time of `times` runs of one side, each on a store as it was before, which is made while the clock stands.
    pub fn time(&mut self, side: CallSide, times: usize) -> Duration {
        let mut time = Duration::ZERO;
        match side {
            CallSide::Owned => {
                for _ in 0..times {
                    let mut state = self.state.clone();
                    let start = Instant::now();
                    for bytes in &self.single {
                        let Next::Command(_, command) = Reader::new(black_box(bytes)).next() else {
                            panic!("every command is whole");
                        };
                        Ready::new(&command).handle(&mut state);
                    }
                    time += start.elapsed();
                    black_box(&state);
                }
            }
            CallSide::Single => time += apply(&self.store, &self.single, &mut self.out, times),
            CallSide::Many => time += apply(&self.store, &self.many, &mut self.out, times),
        }
        time
    }
}

fn apply(before: &Store, calls: &[Vec<u8>], out: &mut [u64], times: usize) -> Duration {
    let mut store = before.clone();
    let mut time = Duration::ZERO;
    for _ in 0..times {
        store.clone_from(before);
        let start = Instant::now();
        for commands in calls {
            let count = store.apply_into(black_box(commands), out);
            black_box(count).expect("there is room");
            black_box(&out);
        }
        time += start.elapsed();
    }
    time
}
