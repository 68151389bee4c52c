//! A stub: the error cases that the catalog names, each with its text.

#[derive(Debug, Clone, PartialEq, Eq, thiserror::Error)]
pub enum Error {
    Configuration(String),
    ConstraintViolation(String),
    CorruptData(String),
    SchemaMismatch(String),
}

pub type Result<T> = std::result::Result<T, Error>;
