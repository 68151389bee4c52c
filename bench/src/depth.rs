//! How deep each function of the library uses the stack: on the mixed tapes, the oracle's vectors and a full store.

use std::hint::black_box;

use lupinadze::{KEY_WIDTH, LINE_BYTES, Store, linked};

use crate::stack::deepest;

/// What a thread has on its stack that is not the library's: its caller's frames, and what the system puts there.
const BESIDE: usize = 8 << 10;

/// What a function takes at most that holds no store.
const SHALLOW: usize = 8 << 10;

/// A tape whose opening is accepted, and the store that it leaves.
struct Case {
    opening: Vec<u8>,
    commands: Vec<u8>,
    store: Vec<u8>,
    /// The first two numbers of each line of the dump: the ids of every row.
    ids: Vec<(u64, u64)>,
}

impl Case {
    fn new(tape: &[u8]) -> Option<Self> {
        let (mut store, taken) = Store::open_bytes(tape).ok()?;
        store.apply(&tape[taken..]);
        let number = |word: Option<&str>| word.and_then(|word| word.parse().ok()).unwrap_or(0);
        let dump = store.dump();
        let ids = dump.lines().map(|line| {
            let mut words = line.split(' ').skip(1);
            (number(words.next()), number(words.next()))
        });
        Some(Self {
            opening: tape[..taken].to_vec(),
            commands: tape[taken..].to_vec(),
            store: store.as_bytes().to_vec(),
            ids: ids.collect(),
        })
    }
}

/// What the questions write to.
struct Lists {
    bytes: [u8; LINE_BYTES],
    numbers: [u64; 7],
}

/// A question about a store and up to two ids.
type Question = fn(&[u8], (u64, u64), &mut Lists) -> u64;

const QUESTIONS: [(&str, Question); 9] = [
    ("is_sound", |store, _, _| linked::is_sound(store)),
    ("node", |store, ids, out| {
        linked::node(store, ids.0, &mut out.bytes)
    }),
    ("tablet", |store, ids, out| {
        linked::tablet(store, ids.0, &mut out.bytes)
    }),
    ("placement", |store, ids, out| {
        linked::placement(store, ids.0, &mut out.bytes)
    }),
    ("retirement", |store, ids, out| {
        linked::retirement(store, ids.0, ids.1, &mut out.bytes)
    }),
    ("next_replica_id", |store, _, out| {
        linked::next_replica_id(store, &mut out.numbers)
    }),
    ("is_complete", |store, ids, _| {
        linked::is_complete(store, ids.0)
    }),
    ("initial_placement", |store, _, out| {
        linked::initial_placement(store, &mut out.numbers)
    }),
    ("overlap_start", |store, ids, out| {
        // a stored row overlaps itself
        let (key, row) = out.bytes.split_at_mut(KEY_WIDTH);
        linked::tablet(store, ids.0, row);
        linked::overlap_start(store, ids.0, row, key)
    }),
];

/// Each function with the bytes that it used at its deepest.
pub fn all(tapes: &[Vec<u8>]) -> Vec<(&'static str, usize)> {
    let cases: Vec<Case> = tapes.iter().filter_map(|tape| Case::new(tape)).collect();
    let mut depths = on_tapes(tapes);
    depths.extend(on_stores(&cases));
    let mut lists = Lists {
        bytes: [0; LINE_BYTES],
        numbers: [0; 7],
    };
    for (name, question) in QUESTIONS {
        let depth = deepest(&mut || {
            for case in &cases {
                for ids in &case.ids {
                    black_box(question(&case.store, *ids, &mut lists));
                }
            }
        });
        depths.push((name, depth));
    }
    let dump = deepest(&mut || {
        for case in &cases {
            let mut line = 0;
            while linked::dump(&case.store, line, &mut lists.bytes) != linked::NONE {
                line += 1;
            }
        }
    });
    depths.push(("dump", dump));
    depths
}

fn on_tapes(tapes: &[Vec<u8>]) -> Vec<(&'static str, usize)> {
    let most = tapes.iter().map(|tape| lupinadze::answers(tape)).max();
    let mut out = vec![0; 4 * most.unwrap_or(0)];
    let store_bytes = deepest(&mut || {
        black_box(linked::store_bytes());
    });
    let answers = deepest(&mut || {
        for tape in tapes {
            black_box(linked::answers(tape));
        }
    });
    let run = deepest(&mut || {
        for tape in tapes {
            assert_ne!(linked::run(tape, &mut out), linked::SHORT);
        }
    });
    vec![
        ("store_bytes", store_bytes),
        ("answers", answers),
        ("run", run),
    ]
}

/// Stores are opened, and given their commands as they were opened and as those left them.
fn on_stores(cases: &[Case]) -> Vec<(&'static str, usize)> {
    let most = cases
        .iter()
        .map(|case| lupinadze::command_answers(&case.commands))
        .max();
    let mut out = vec![0; 4 * most.unwrap_or(1).max(1)];
    let mut stores: Vec<Vec<u8>> = cases.iter().map(|case| case.store.clone()).collect();
    let open = deepest(&mut || {
        for (case, store) in cases.iter().zip(&mut stores) {
            assert_eq!(
                linked::open(store, &case.opening, &mut out),
                case.opening.len() as u64
            );
        }
    });
    let apply = deepest(&mut || {
        for (case, store) in cases.iter().zip(&mut stores) {
            for _ in 0..2 {
                assert_ne!(
                    linked::apply(store, &case.commands, &mut out),
                    linked::SHORT
                );
            }
        }
    });
    vec![("open", open), ("apply", apply)]
}

/// What the header says that the function may take.
pub fn allowed(name: &str) -> usize {
    match name {
        "answers" | "run" => stack_bytes() - BESIDE,
        _ => SHALLOW,
    }
}

fn stack_bytes() -> usize {
    const NAME: &str = "#define LUPINADZE_STACK_BYTES ";
    include_str!("../../bindings/lupinadze.h")
        .lines()
        .find_map(|line| line.strip_prefix(NAME))
        .and_then(|number| number.parse().ok())
        .expect("the header names the stack")
}
