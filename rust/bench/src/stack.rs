//! How deep a call goes into its stack: it is made on a thread whose stack is
//! memory of ours, painted before, and looked at after.

use std::alloc::{alloc, dealloc, handle_alloc_error, Layout};
use std::ffi::{c_int, c_ulong, c_void};
use std::ptr;

/// The thread's stack, in bytes.
const STACK: usize = 1 << 20;
const PAGE: usize = 4096;

/// No smaller than any system's pthread_attr_t.
#[repr(C, align(16))]
struct Attributes([u8; 256]);

extern "C" {
    fn pthread_attr_init(attributes: *mut Attributes) -> c_int;
    fn pthread_attr_setstack(attributes: *mut Attributes, stack: *mut c_void, size: usize) -> c_int;
    fn pthread_attr_destroy(attributes: *mut Attributes) -> c_int;
    fn pthread_create(
        thread: *mut c_ulong,
        attributes: *const Attributes,
        start: extern "C" fn(*mut c_void) -> *mut c_void,
        argument: *mut c_void,
    ) -> c_int;
    fn pthread_join(thread: c_ulong, value: *mut *mut c_void) -> c_int;
}

/// What the thread is given: the work, and where to say where its frame is.
struct Given<'a> {
    work: &'a mut dyn FnMut(),
    frame: usize,
}

extern "C" fn start(given: *mut c_void) -> *mut c_void {
    let here = 0_u8;
    // The one thread that has it: who started this waits for its end.
    let given = unsafe { &mut *given.cast::<Given>() };
    given.frame = ptr::from_ref(&here) as usize;
    (given.work)();
    ptr::null_mut()
}

/// How many bytes below the frame that calls the work were written while it ran.
/// Two paints, since a byte written may have the colour of one of them.
pub fn depth(work: &mut dyn FnMut()) -> usize {
    depth_on(0x5A, work).max(depth_on(0xC3, work))
}

fn depth_on(paint: u8, work: &mut dyn FnMut()) -> usize {
    let layout = Layout::from_size_align(STACK, PAGE).expect("a size and an alignment");
    let mut given = Given { work, frame: 0 };
    // The memory is ours, all of it is written before it is read, and it is the
    // thread's alone from its start until it has been joined.
    unsafe {
        let stack = alloc(layout);
        if stack.is_null() {
            handle_alloc_error(layout);
        }
        ptr::write_bytes(stack, paint, STACK);
        run_on(stack, &mut given);
        let lowest = (0..STACK).find(|&place| stack.add(place).read_volatile() != paint);
        let lowest = stack as usize + lowest.expect("a thread writes to its stack");
        dealloc(stack, layout);
        assert!(lowest > stack as usize + PAGE, "the stack was too small to measure by");
        given.frame - lowest
    }
}

/// Runs the work on a thread with this stack, to its end.
unsafe fn run_on(stack: *mut u8, given: &mut Given) {
    let mut attributes = Attributes([0; 256]);
    let mut thread = 0;
    let fine = |status: c_int, what: &str| assert_eq!(status, 0, "{what}");
    fine(pthread_attr_init(&mut attributes), "pthread_attr_init");
    fine(pthread_attr_setstack(&mut attributes, stack.cast(), STACK), "pthread_attr_setstack");
    let argument = ptr::from_mut(given).cast();
    fine(pthread_create(&mut thread, &attributes, start, argument), "pthread_create");
    fine(pthread_join(thread, ptr::null_mut()), "pthread_join");
    fine(pthread_attr_destroy(&mut attributes), "pthread_attr_destroy");
}

#[cfg(test)]
mod tests {
    use super::depth;
    use std::hint::black_box;

    /// Writes an array of this many bytes on the stack.
    #[inline(never)]
    fn deep<const BYTES: usize>() {
        black_box(&mut [1_u8; BYTES]);
    }

    #[test]
    fn an_array_on_the_stack_is_seen_and_little_more() {
        let shallow = depth(&mut || deep::<16>());
        assert!(shallow < 2000, "{shallow}");
        for (measured, bytes) in
            [(depth(&mut || deep::<5000>()), 5000), (depth(&mut || deep::<100_000>()), 100_000)]
        {
            assert!(bytes <= measured && measured < bytes + 2000, "{measured} for {bytes}");
        }
    }
}
