//! Stands in for `prost`: messages exist as types, their bytes do not. Writing or reading one ends
//! the program.

pub extern crate alloc;

pub use prost_derive::{Enumeration, Message, Oneof};

pub trait Message: Sized {
    fn encode_to_vec(&self) -> Vec<u8> {
        unimplemented!("protobuf is not part of the oracle")
    }

    fn decode(_bytes: &[u8]) -> Result<Self, DecodeError> {
        unimplemented!("protobuf is not part of the oracle")
    }
}

#[derive(Debug)]
pub struct DecodeError;

impl std::fmt::Display for DecodeError {
    fn fmt(&self, out: &mut std::fmt::Formatter<'_>) -> std::fmt::Result {
        out.write_str("no protobuf")
    }
}
