//! Stands in for `blake3`: the type is there, hashing ends the program.

pub struct Hasher;

impl Hasher {
    #[allow(clippy::new_without_default)]
    pub fn new() -> Self {
        unimplemented!("hashing is not part of the oracle")
    }

    pub fn update(&mut self, _bytes: &[u8]) -> &mut Self {
        self
    }

    pub fn finalize(&self) -> Hash {
        Hash([0; 32])
    }
}

pub struct Hash([u8; 32]);

impl Hash {
    pub fn as_bytes(&self) -> &[u8; 32] {
        &self.0
    }
}
