//! Stands in for the `raft` crate: its replica number, which is not zero.

pub mod types {
    use std::num::NonZeroU64;

    #[derive(Debug, Clone, Copy, PartialEq, Eq)]
    pub struct ReplicaId(NonZeroU64);

    impl ReplicaId {
        pub fn new(number: u64) -> Option<Self> {
            NonZeroU64::new(number).map(Self)
        }

        pub fn get(self) -> u64 {
            self.0.get()
        }
    }
}
