//! The static library's functions as they are, on slices: for memory that the caller holds, such as a mapped
//! file. bindings/lupinadze.h says what each takes, gives and writes; [`Store`](crate::Store) is built on them.
#![allow(unsafe_code)]

/// A list is too short.
pub const SHORT: u64 = u64::MAX;

/// The memory is no sound store.
pub const NOT_A_STORE: u64 = u64::MAX - 1;

/// There is no such row, line or number.
pub const NONE: u64 = u64::MAX - 2;

/// As the linker has them. A slice crosses as its pointer and its number of elements.
mod c {
    unsafe extern "C" {
        pub fn lupinadze_answers(tape: *const u8, tape_bytes: usize) -> u64;
        pub fn lupinadze_run(
            tape: *const u8,
            tape_bytes: usize,
            out: *mut u64,
            out_numbers: usize,
        ) -> u64;
        pub fn lupinadze_store_bytes() -> u64;
        pub fn lupinadze_open(
            store: *mut u8,
            store_bytes: usize,
            opening: *const u8,
            opening_bytes: usize,
            out: *mut u64,
            out_numbers: usize,
        ) -> u64;
        pub fn lupinadze_apply(
            store: *mut u8,
            store_bytes: usize,
            commands: *const u8,
            commands_bytes: usize,
            out: *mut u64,
            out_numbers: usize,
        ) -> u64;
        pub fn lupinadze_dump(
            store: *const u8,
            store_bytes: usize,
            line: u64,
            out: *mut u8,
            out_bytes: usize,
        ) -> u64;
        pub fn lupinadze_is_sound(store: *const u8, store_bytes: usize) -> u64;
        pub fn lupinadze_node(
            store: *const u8,
            store_bytes: usize,
            node: u64,
            out: *mut u8,
            out_bytes: usize,
        ) -> u64;
        pub fn lupinadze_tablet(
            store: *const u8,
            store_bytes: usize,
            tablet: u64,
            out: *mut u8,
            out_bytes: usize,
        ) -> u64;
        pub fn lupinadze_placement(
            store: *const u8,
            store_bytes: usize,
            tablet: u64,
            out: *mut u8,
            out_bytes: usize,
        ) -> u64;
        pub fn lupinadze_retirement(
            store: *const u8,
            store_bytes: usize,
            group: u64,
            replica: u64,
            out: *mut u8,
            out_bytes: usize,
        ) -> u64;
        pub fn lupinadze_next_replica_id(
            store: *const u8,
            store_bytes: usize,
            out: *mut u64,
            out_numbers: usize,
        ) -> u64;
        pub fn lupinadze_is_complete(store: *const u8, store_bytes: usize, table: u64) -> u64;
        pub fn lupinadze_initial_placement(
            store: *const u8,
            store_bytes: usize,
            out: *mut u64,
            out_numbers: usize,
        ) -> u64;
        pub fn lupinadze_overlap_start(
            store: *const u8,
            store_bytes: usize,
            tablet: u64,
            other: *const u8,
            other_bytes: usize,
            out: *mut u8,
            out_bytes: usize,
        ) -> u64;
    }
}

// SAFETY, of every call below: pointers and lengths are those of slices that live as long as the call, and
// what is written to is borrowed by the call alone.

/// How many answers the tape gets.
pub fn answers(tape: &[u8]) -> u64 {
    unsafe { c::lupinadze_answers(tape.as_ptr(), tape.len()) }
}

/// Runs a tape on a store that the library holds: gives the number of answers, or [`SHORT`].
pub fn run(tape: &[u8], out: &mut [u64]) -> u64 {
    unsafe { c::lupinadze_run(tape.as_ptr(), tape.len(), out.as_mut_ptr(), out.len()) }
}

/// [`STORE_BYTES`](crate::STORE_BYTES), as the library has it.
pub fn store_bytes() -> u64 {
    unsafe { c::lupinadze_store_bytes() }
}

/// Makes a store of the memory: gives how many bytes the opening takes, [`NOT_A_STORE`] or [`SHORT`].
pub fn open(store: &mut [u8], opening: &[u8], out: &mut [u64]) -> u64 {
    unsafe {
        c::lupinadze_open(
            store.as_mut_ptr(),
            store.len(),
            opening.as_ptr(),
            opening.len(),
            out.as_mut_ptr(),
            out.len(),
        )
    }
}

/// Gives the store commands: gives the number of answers, or [`SHORT`].
pub fn apply(store: &mut [u8], commands: &[u8], out: &mut [u64]) -> u64 {
    unsafe {
        c::lupinadze_apply(
            store.as_mut_ptr(),
            store.len(),
            commands.as_ptr(),
            commands.len(),
            out.as_mut_ptr(),
            out.len(),
        )
    }
}

/// One line of the dump: gives its bytes, or a code.
pub fn dump(store: &[u8], line: u64, out: &mut [u8]) -> u64 {
    unsafe {
        c::lupinadze_dump(
            store.as_ptr(),
            store.len(),
            line,
            out.as_mut_ptr(),
            out.len(),
        )
    }
}

/// 1 where the memory is a sound store, else 0.
pub fn is_sound(store: &[u8]) -> u64 {
    unsafe { c::lupinadze_is_sound(store.as_ptr(), store.len()) }
}

/// The row of a node: gives its width, or a code.
pub fn node(store: &[u8], node: u64, out: &mut [u8]) -> u64 {
    unsafe {
        c::lupinadze_node(
            store.as_ptr(),
            store.len(),
            node,
            out.as_mut_ptr(),
            out.len(),
        )
    }
}

/// The row of a tablet: gives its width, or a code.
pub fn tablet(store: &[u8], tablet: u64, out: &mut [u8]) -> u64 {
    unsafe {
        c::lupinadze_tablet(
            store.as_ptr(),
            store.len(),
            tablet,
            out.as_mut_ptr(),
            out.len(),
        )
    }
}

/// The row of a tablet's placement: gives its width, or a code.
pub fn placement(store: &[u8], tablet: u64, out: &mut [u8]) -> u64 {
    unsafe {
        c::lupinadze_placement(
            store.as_ptr(),
            store.len(),
            tablet,
            out.as_mut_ptr(),
            out.len(),
        )
    }
}

/// The row of a retired replica: gives its width, or a code.
pub fn retirement(store: &[u8], group: u64, replica: u64, out: &mut [u8]) -> u64 {
    unsafe {
        c::lupinadze_retirement(
            store.as_ptr(),
            store.len(),
            group,
            replica,
            out.as_mut_ptr(),
            out.len(),
        )
    }
}

/// The replica id above all that were wanted: gives 1, or a code.
pub fn next_replica_id(store: &[u8], out: &mut [u64]) -> u64 {
    unsafe {
        c::lupinadze_next_replica_id(store.as_ptr(), store.len(), out.as_mut_ptr(), out.len())
    }
}

/// 1 where the table has as many tablets as its tablet count, else 0, or [`NOT_A_STORE`].
pub fn is_complete(store: &[u8], table: u64) -> u64 {
    unsafe { c::lupinadze_is_complete(store.as_ptr(), store.len(), table) }
}

/// The first choice and its policy: gives the number of nodes, or a code.
pub fn initial_placement(store: &[u8], out: &mut [u64]) -> u64 {
    unsafe {
        c::lupinadze_initial_placement(store.as_ptr(), store.len(), out.as_mut_ptr(), out.len())
    }
}

/// From which key on the row of `other` overlaps the stored tablet: gives the key's length, or a code.
pub fn overlap_start(store: &[u8], tablet: u64, other: &[u8], out: &mut [u8]) -> u64 {
    unsafe {
        c::lupinadze_overlap_start(
            store.as_ptr(),
            store.len(),
            tablet,
            other.as_ptr(),
            other.len(),
            out.as_mut_ptr(),
            out.len(),
        )
    }
}

/// What no [`Store`](crate::Store) lets happen: memory that is no store, and lists that are too short.
#[cfg(test)]
mod tests {
    use super::*;
    use crate::sizes::{STORE_BYTES, TABLET_ROW};

    #[test]
    fn the_library_has_the_crates_store() {
        assert_eq!(store_bytes(), STORE_BYTES as u64);
    }

    #[test]
    fn memory_of_another_length_is_not_opened() {
        for length in [0, STORE_BYTES - 1, STORE_BYTES + 1] {
            let mut memory = vec![7; length];
            let mut out = [7; 4];
            assert_eq!(open(&mut memory, &[0; 9], &mut out), NOT_A_STORE);
            assert_eq!((memory, out), (vec![7; length], [7; 4]));
        }
    }

    #[test]
    fn an_opening_needs_four_numbers() {
        let mut memory = vec![7; STORE_BYTES];
        let mut out = [7; 3];
        assert_eq!(open(&mut memory, &[0; 9], &mut out), SHORT);
        assert_eq!((memory, out), (vec![7; STORE_BYTES], [7; 3]));
    }

    #[test]
    fn a_refused_opening_writes_the_store_that_it_gives() {
        let mut memory = vec![7; STORE_BYTES];
        let mut out = [7; 5];
        let mut opening = vec![0; 21];
        opening[0] = 1;
        assert_eq!(open(&mut memory, &opening, &mut out), 21);
        assert_eq!((memory, out), (vec![0; STORE_BYTES], [10, 10, 0, 0, 7]));
    }

    #[test]
    fn an_opening_that_is_cut_short_writes_no_store() {
        let mut memory = vec![7; STORE_BYTES];
        let mut out = [7; 5];
        assert_eq!(open(&mut memory, &[1; 20], &mut out), 0);
        assert_eq!((memory, out), (vec![7; STORE_BYTES], [40, 2, 0, 0, 7]));
    }

    #[test]
    fn commands_on_memory_that_is_no_store_get_reason_12() {
        for length in [0, STORE_BYTES - 1, STORE_BYTES, STORE_BYTES + 1] {
            let mut memory = vec![7; length];
            let mut out = [7; 13];
            assert_eq!(apply(&mut memory, &[7, 7, 255, 7], &mut out[..11]), SHORT);
            assert_eq!(out, [7; 13]);
            assert_eq!(apply(&mut memory, &[7, 7, 255, 7], &mut out), 3);
            assert_eq!(memory, vec![7; length]);
            assert_eq!(out, [10, 12, 0, 0, 10, 12, 0, 0, 40, 1, 255, 0, 7]);
        }
    }

    #[test]
    fn questions_to_memory_that_is_no_store_say_so_before_all_else() {
        for length in [0, STORE_BYTES - 1, STORE_BYTES, STORE_BYTES + 1] {
            let memory = vec![7; length];
            assert_eq!(is_sound(&memory), 0);
            assert_eq!(dump(&memory, u64::MAX, &mut []), NOT_A_STORE);
            assert_eq!(node(&memory, 1, &mut []), NOT_A_STORE);
            assert_eq!(tablet(&memory, 1, &mut []), NOT_A_STORE);
            assert_eq!(placement(&memory, 1, &mut []), NOT_A_STORE);
            assert_eq!(retirement(&memory, 1, 1, &mut []), NOT_A_STORE);
            assert_eq!(next_replica_id(&memory, &mut []), NOT_A_STORE);
            assert_eq!(is_complete(&memory, 1), NOT_A_STORE);
            assert_eq!(initial_placement(&memory, &mut []), NOT_A_STORE);
            assert_eq!(overlap_start(&memory, 1, &[], &mut []), NOT_A_STORE);
        }
    }

    #[test]
    fn questions_say_what_is_none_before_what_is_too_short() {
        let memory = vec![0; STORE_BYTES];
        assert_eq!(is_sound(&memory), 1);
        assert_eq!(dump(&memory, 4, &mut []), NONE);
        assert_eq!(node(&memory, 1, &mut []), NONE);
        assert_eq!(tablet(&memory, 1, &mut []), NONE);
        assert_eq!(placement(&memory, 1, &mut []), NONE);
        assert_eq!(retirement(&memory, 1, 1, &mut []), NONE);
        assert_eq!(is_complete(&memory, 1), 0);
        assert_eq!(overlap_start(&memory, 1, &[0; TABLET_ROW], &mut []), NONE);
        assert_eq!(dump(&memory, 0, &mut [7; 6]), SHORT);
        assert_eq!(next_replica_id(&memory, &mut []), SHORT);
        assert_eq!(initial_placement(&memory, &mut [7; 6]), SHORT);
    }
}
