//! Numbers, texts and lists as the tape has them: numbers little-endian, a text as a length byte and its full
//! width, a list as a count and all of its places.

use crate::error::TooLong;
use crate::text::Text;

/// The length byte of a text that is absent.
const ABSENT: u8 = 255;

/// Bytes behind those that a buffer has already. If a field has no form they are taken out again.
pub struct Writer<'a> {
    bytes: &'a mut Vec<u8>,
    field: Result<(), TooLong>,
    start: usize,
}

impl<'a> Writer<'a> {
    pub fn new(bytes: &'a mut Vec<u8>) -> Self {
        let start = bytes.len();
        Self {
            bytes,
            field: Ok(()),
            start,
        }
    }

    /// The first field that had no form.
    pub fn end(self) -> Result<(), TooLong> {
        if self.field.is_err() {
            self.bytes.truncate(self.start);
        }
        self.field
    }

    pub fn byte(&mut self, number: u8) {
        self.bytes.push(number);
    }

    pub fn short(&mut self, number: u32) {
        self.bytes.extend(number.to_le_bytes());
    }

    pub fn long(&mut self, number: u64) {
        self.bytes.extend(number.to_le_bytes());
    }

    pub fn text(&mut self, field: &'static str, text: &Text, width: usize) {
        let length = self.length(field, text.as_bytes().len(), width);
        self.byte(length as u8);
        self.bytes.extend(&text.as_bytes()[..length]);
        self.zeros(width - length);
    }

    pub fn optional(&mut self, field: &'static str, text: Option<&Text>, width: usize) {
        match text {
            Some(text) => self.text(field, text, width),
            None => {
                self.byte(ABSENT);
                self.zeros(width);
            }
        }
    }

    /// A count and `room` places of `size` bytes, the unused ones zero.
    pub fn list<T>(
        &mut self,
        field: &'static str,
        list: &[T],
        room: usize,
        size: usize,
        each: impl Fn(&mut Self, &T),
    ) {
        let length = self.length(field, list.len(), room);
        self.byte(length as u8);
        for element in &list[..length] {
            each(self, element);
        }
        self.zeros((room - length) * size);
    }

    /// The length, where there is room for it. No room is more than a byte can say.
    pub fn length(&mut self, field: &'static str, length: usize, room: usize) -> usize {
        if length > room {
            self.field = self.field.and(Err(TooLong {
                field,
                length,
                room,
            }));
        }
        length.min(room)
    }

    fn zeros(&mut self, count: usize) {
        self.bytes.resize(self.bytes.len() + count, 0);
    }
}

/// What is left of a row of a sound store, whose lengths and counts are within their rooms.
pub struct Row<'a>(pub &'a [u8]);

impl<'a> Row<'a> {
    pub fn byte(&mut self) -> u8 {
        self.take(1)[0]
    }

    pub fn short(&mut self) -> u32 {
        self.take(4)
            .iter()
            .rev()
            .fold(0, |number, byte| number << 8 | u32::from(*byte))
    }

    pub fn long(&mut self) -> u64 {
        self.take(8)
            .iter()
            .rev()
            .fold(0, |number, byte| number << 8 | u64::from(*byte))
    }

    pub fn text(&mut self, width: usize) -> Text {
        let length = self.byte();
        self.field(length, width)
    }

    pub fn optional(&mut self, width: usize) -> Option<Text> {
        let length = self.byte();
        match length {
            ABSENT => {
                self.take(width);
                None
            }
            length => Some(self.field(length, width)),
        }
    }

    /// A count and `room` places of `size` bytes.
    pub fn list<T>(&mut self, room: usize, size: usize, each: impl Fn(&mut Row) -> T) -> Vec<T> {
        let count = usize::from(self.byte());
        let places = self.take(room * size);
        places
            .chunks(size)
            .take(count)
            .map(|place| each(&mut Row(place)))
            .collect()
    }

    fn field(&mut self, length: u8, width: usize) -> Text {
        self.take(width)[..usize::from(length)].into()
    }

    fn take(&mut self, count: usize) -> &'a [u8] {
        let (bytes, rest) = self.0.split_at(count);
        self.0 = rest;
        bytes
    }
}
