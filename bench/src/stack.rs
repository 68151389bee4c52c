//! How deep the library's functions use the stack: a thread runs them on a stack that was filled with a known byte.

use std::alloc::{Layout, alloc, dealloc};
use std::ffi::{c_int, c_void};
use std::ptr;

/// More than any call takes; the thread's own needs are at its upper end.
const ROOM: usize = 16 << 20;
const FILL: u8 = 0xA5;

/// glibc's pthread_attr_t has 56 bytes; more do no harm.
#[repr(C, align(16))]
struct Attributes([u8; 128]);

unsafe extern "C" {
    fn pthread_attr_init(attributes: *mut Attributes) -> c_int;
    fn pthread_attr_setstack(
        attributes: *mut Attributes,
        lowest: *mut c_void,
        size: usize,
    ) -> c_int;
    fn pthread_create(
        thread: *mut u64,
        attributes: *const Attributes,
        start: extern "C" fn(*mut c_void) -> *mut c_void,
        argument: *mut c_void,
    ) -> c_int;
    fn pthread_join(thread: u64, result: *mut *mut c_void) -> c_int;
}

struct Work<'a> {
    work: &'a mut dyn FnMut(),
    /// The address from which the use is counted.
    from: usize,
}

extern "C" fn start(argument: *mut c_void) -> *mut c_void {
    // SAFETY: `deepest` passes its `Work` and waits for the thread.
    let work = unsafe { &mut *argument.cast::<Work>() };
    let here = 0u8;
    work.from = ptr::from_ref(&here).addr();
    (work.work)();
    ptr::null_mut()
}

/// The bytes of stack that `work` used at its deepest, whole pages touched by its frames included.
pub fn deepest(work: &mut dyn FnMut()) -> usize {
    let layout = Layout::from_size_align(ROOM, 4096).expect("a page divides the room");
    let mut work = Work { work, from: 0 };
    // SAFETY: the memory is the thread's stack until it is joined, and is read and freed only afterwards.
    unsafe {
        let lowest = alloc(layout);
        assert!(!lowest.is_null());
        ptr::write_bytes(lowest, FILL, ROOM);
        let mut attributes = Attributes([0; 128]);
        let mut thread = 0;
        assert_eq!(pthread_attr_init(&mut attributes), 0);
        assert_eq!(
            pthread_attr_setstack(&mut attributes, lowest.cast(), ROOM),
            0
        );
        assert_eq!(
            pthread_create(&mut thread, &attributes, start, (&raw mut work).cast()),
            0
        );
        assert_eq!(pthread_join(thread, ptr::null_mut()), 0);
        let untouched = std::slice::from_raw_parts(lowest, ROOM)
            .iter()
            .take_while(|byte| **byte == FILL)
            .count();
        let deepest = lowest.addr() + untouched;
        dealloc(lowest, layout);
        work.from - deepest
    }
}
