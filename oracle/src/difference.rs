//! Where two sides part.

use std::fmt::Debug;

/// What was expected and what came.
pub struct Difference {
    pub what: String,
    pub expected: String,
    pub received: String,
}

impl Difference {
    pub fn new(what: &str, expected: impl ToString, received: impl ToString) -> Self {
        Self {
            what: what.to_string(),
            expected: expected.to_string(),
            received: received.to_string(),
        }
    }

    pub fn print(&self) {
        println!("{}:", self.what);
        println!("  expected {}", self.expected);
        println!("  received {}", self.received);
    }
}

/// The first line that is not the same.
pub fn lines(what: &str, expected: &str, received: &str) -> Result<(), Difference> {
    if expected == received {
        return Ok(());
    }
    let (mut expected, mut received) = (expected.split('\n'), received.split('\n'));
    let mut at = 0;
    loop {
        at += 1;
        let (wanted, came) = (expected.next(), received.next());
        if wanted != came {
            let what = format!("{what}, line {at} of the output");
            let [wanted, came] = [wanted, came].map(|line| line.unwrap_or("nothing"));
            return Err(Difference::new(&what, wanted, came));
        }
    }
}

pub fn same<T: PartialEq + Debug>(what: &str, expected: T, received: T) -> Result<(), Difference> {
    if expected == received {
        return Ok(());
    }
    let [expected, received] = [expected, received].map(|value| format!("{value:?}"));
    Err(Difference::new(what, expected, received))
}

/// The first element that is not the same, with the `group` of elements that it stands in.
pub fn list<T: PartialEq + Debug>(
    what: &str,
    group: usize,
    expected: &[T],
    received: &[T],
) -> Result<(), Difference> {
    if expected == received {
        return Ok(());
    }
    let pairs = expected.iter().zip(received);
    let at = pairs.take_while(|(wanted, came)| wanted == came).count();
    let from = at / group * group;
    let shown = |list: &[T]| {
        let end = list.len().min(from + group);
        match list.get(from..end) {
            Some(part) if !part.is_empty() => format!("{part:?}"),
            _ => "nothing".to_string(),
        }
    };
    let what = format!("{what}, from place {from} on");
    Err(Difference::new(&what, shown(expected), shown(received)))
}
