//! How long things are: rooms, texts, rows, commands, the store. tests/header.rs holds them to
//! bindings/lupinadze.h and to the proofs' specs.

/// How many bytes a store has.
pub const STORE_BYTES: usize = 44_185;

/// No line of the dump has more bytes, its line feed included.
pub const LINE_BYTES: usize = 811;

/// A thread with a stack of so many bytes can make every call of the library.
pub const STACK_BYTES: usize = 65_536;

/// How many nodes a store has room for.
pub const NODE_ROOM: usize = 32;

/// How many tables a store has room for.
pub const TABLE_ROOM: usize = 16;

/// How many tablets a store has room for, and as many placements.
pub const TABLET_ROOM: usize = 64;

/// How many retired replicas a store has room for.
pub const RETIREMENT_ROOM: usize = 256;

/// How many replicas a placement has room for, and as many preferred leaders.
pub const PLACES: usize = 7;

/// How many bytes the cluster's name and an endpoint have at most.
pub const NAME_WIDTH: usize = 48;

/// How many bytes a region, a zone, a rack and a storage class have at most.
pub const LABEL_WIDTH: usize = 24;

/// How many bytes a key has at most.
pub const KEY_WIDTH: usize = 32;

pub(crate) const NODE_ROW: usize = 305;
pub(crate) const TABLET_ROW: usize = 107;
pub(crate) const PLACEMENT_ROW: usize = 234;
pub(crate) const RETIREMENT_ROW: usize = 48;

pub(crate) const NAMING: u8 = 1;
pub(crate) const REGISTERING: u8 = 2;
pub(crate) const LIFECYCLE: u8 = 3;
pub(crate) const TABLET: u8 = 4;
pub(crate) const PLACEMENT: u8 = 5;
pub(crate) const RETIREMENT: u8 = 6;
pub(crate) const PICKING: u8 = 7;

/// How many bytes the command with this byte has, the byte included; none where the byte is no command.
pub(crate) fn command_bytes(byte: u8) -> Option<usize> {
    let operands = match byte {
        NAMING => 1 + NAME_WIDTH,
        REGISTERING => NODE_ROW,
        LIFECYCLE => 9,
        TABLET => TABLET_ROW,
        PLACEMENT => PLACEMENT_ROW,
        RETIREMENT => RETIREMENT_ROW,
        PICKING => 0,
        _ => return None,
    };
    Some(1 + operands)
}
