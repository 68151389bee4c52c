//! The command tape of document 01: bytes in, commands out. Nothing is judged here but whether a byte
//! is known and whether its operands are all there.

use std::fmt;

/// A text or key as it stands on the tape: a length byte, then the whole field.
#[derive(Debug, Clone, Copy)]
pub struct Text<const WIDTH: usize> {
    pub length: u8,
    pub field: [u8; WIDTH],
}

/// The length byte of an absent label or required class.
pub const ABSENT: u8 = 255;

/// The number of places for replicas, and for preferred leaders.
pub const PLACES: usize = 7;

pub type Endpoint = Text<48>;
pub type Label = Text<24>;
pub type Key = Text<32>;

#[derive(Debug, Clone)]
pub struct Node {
    pub id: u64,
    pub endpoints: [Endpoint; 4],
    /// Region, zone, rack.
    pub labels: [Label; 3],
    pub class: Label,
    pub lifecycle: u8,
}

#[derive(Debug, Clone)]
pub struct Tablet {
    pub id: u64,
    pub table: u64,
    pub group: u64,
    pub epoch: u64,
    pub kind: u8,
    pub bucket: u32,
    pub bucket_count: u32,
    pub start: Key,
    pub end: Key,
}

#[derive(Debug, Clone, Copy)]
pub struct Replica {
    pub id: u64,
    pub node: u64,
    pub role: u8,
}

#[derive(Debug, Clone)]
pub struct Placement {
    pub tablet: u64,
    pub epoch: u64,
    pub count: u8,
    pub replicas: [Replica; PLACES],
    pub factor: u32,
    /// Regions, zones, racks.
    pub minima: [u32; 3],
    pub class: Label,
    pub leader_count: u8,
    pub leaders: [u64; PLACES],
}

#[derive(Debug, Clone)]
pub struct Retirement {
    pub group: u64,
    pub replica: u64,
    pub epoch: u64,
    pub version: u64,
    pub index: u64,
    pub term: u64,
}

#[derive(Debug, Clone)]
pub enum Command {
    Naming(Endpoint),
    Node(Box<Node>),
    Lifecycle { node: u64, lifecycle: u8 },
    Tablet(Box<Tablet>),
    Placement(Box<Placement>),
    Retirement(Retirement),
    Pick,
}

/// What the front of the tape holds.
pub enum Opening {
    Cut,
    /// A count above the room; no table is read.
    TooMany,
    Tables {
        group_mark: u64,
        tables: Vec<(u64, u32)>,
    },
}

/// What comes next on the tape.
pub enum Next {
    End,
    Unknown(u8),
    Cut(u8),
    Command(u8, Command),
}

/// An answer's number and its three operands.
#[derive(Debug, Clone, Copy, PartialEq, Eq)]
pub struct Answer {
    pub number: u64,
    pub operands: [u64; 3],
}

/// One line of output.
#[derive(Debug, Clone, Copy, PartialEq, Eq)]
pub struct Line {
    pub number: u64,
    pub answer: Answer,
}

impl fmt::Display for Line {
    fn fmt(&self, out: &mut fmt::Formatter<'_>) -> fmt::Result {
        let [a, b, c] = self.answer.operands;
        write!(out, "{} {} {a} {b} {c}", self.number, self.answer.number)
    }
}

/// The rest of a tape. A read that finds too few bytes gives `None`.
pub struct Reader<'a> {
    rest: &'a [u8],
}

impl<'a> Reader<'a> {
    pub fn new(tape: &'a [u8]) -> Self {
        Self { rest: tape }
    }

    pub fn opening(&mut self, room: usize) -> Opening {
        let Some((count, group_mark)) = self.opening_head() else {
            return Opening::Cut;
        };
        if count as usize > room {
            return Opening::TooMany;
        }
        let mut tables = Vec::new();
        for _ in 0..count {
            let Some(table) = self.table() else {
                return Opening::Cut;
            };
            tables.push(table);
        }
        Opening::Tables { group_mark, tables }
    }

    pub fn next(&mut self) -> Next {
        let Some(byte) = self.byte() else {
            return Next::End;
        };
        let command = match byte {
            1 => self.text().map(Command::Naming),
            2 => self.node().map(|node| Command::Node(Box::new(node))),
            3 => self.lifecycle(),
            4 => self
                .tablet()
                .map(|tablet| Command::Tablet(Box::new(tablet))),
            5 => self
                .placement()
                .map(|placement| Command::Placement(Box::new(placement))),
            6 => self.retirement().map(Command::Retirement),
            7 => Some(Command::Pick),
            _ => return Next::Unknown(byte),
        };
        match command {
            Some(command) => Next::Command(byte, command),
            None => Next::Cut(byte),
        }
    }

    fn opening_head(&mut self) -> Option<(u8, u64)> {
        Some((self.byte()?, self.long()?))
    }

    fn table(&mut self) -> Option<(u64, u32)> {
        Some((self.long()?, self.short()?))
    }

    fn node(&mut self) -> Option<Node> {
        Some(Node {
            id: self.long()?,
            endpoints: [self.text()?, self.text()?, self.text()?, self.text()?],
            labels: [self.text()?, self.text()?, self.text()?],
            class: self.text()?,
            lifecycle: self.byte()?,
        })
    }

    fn lifecycle(&mut self) -> Option<Command> {
        Some(Command::Lifecycle {
            node: self.long()?,
            lifecycle: self.byte()?,
        })
    }

    fn tablet(&mut self) -> Option<Tablet> {
        Some(Tablet {
            id: self.long()?,
            table: self.long()?,
            group: self.long()?,
            epoch: self.long()?,
            kind: self.byte()?,
            bucket: self.short()?,
            bucket_count: self.short()?,
            start: self.text()?,
            end: self.text()?,
        })
    }

    fn placement(&mut self) -> Option<Placement> {
        let tablet = self.long()?;
        let epoch = self.long()?;
        let count = self.byte()?;
        let mut replicas = [Replica {
            id: 0,
            node: 0,
            role: 0,
        }; PLACES];
        for replica in &mut replicas {
            *replica = Replica {
                id: self.long()?,
                node: self.long()?,
                role: self.byte()?,
            };
        }
        let factor = self.short()?;
        let minima = [self.short()?, self.short()?, self.short()?];
        let class = self.text()?;
        let leader_count = self.byte()?;
        let mut leaders = [0; PLACES];
        for leader in &mut leaders {
            *leader = self.long()?;
        }
        Some(Placement {
            tablet,
            epoch,
            count,
            replicas,
            factor,
            minima,
            class,
            leader_count,
            leaders,
        })
    }

    fn retirement(&mut self) -> Option<Retirement> {
        Some(Retirement {
            group: self.long()?,
            replica: self.long()?,
            epoch: self.long()?,
            version: self.long()?,
            index: self.long()?,
            term: self.long()?,
        })
    }

    fn text<const WIDTH: usize>(&mut self) -> Option<Text<WIDTH>> {
        Some(Text {
            length: self.byte()?,
            field: self.bytes()?,
        })
    }

    fn long(&mut self) -> Option<u64> {
        self.bytes().map(u64::from_le_bytes)
    }

    fn short(&mut self) -> Option<u32> {
        self.bytes().map(u32::from_le_bytes)
    }

    fn byte(&mut self) -> Option<u8> {
        self.bytes().map(|[byte]| byte)
    }

    fn bytes<const COUNT: usize>(&mut self) -> Option<[u8; COUNT]> {
        let (bytes, rest) = self.rest.split_first_chunk()?;
        self.rest = rest;
        Some(*bytes)
    }
}
