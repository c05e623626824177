//! A stack of our own for a call, painted before and looked at after: how deep the call went.

use std::ffi::c_void;

/// More than any call takes.
const ROOM: usize = 64 << 20;
const PAINT: u64 = 0xa5a5_5a5a_a5a5_5a5a;

/// At least as large as C's `pthread_attr_t`.
type Attributes = [u64; 32];
type Start = extern "C" fn(*mut c_void) -> *mut c_void;

extern "C" {
    fn pthread_attr_init(attributes: *mut Attributes) -> i32;
    fn pthread_attr_setstack(attributes: *mut Attributes, low: *mut c_void, size: usize) -> i32;
    fn pthread_create(thread: *mut usize, attributes: *const Attributes, start: Start, work: *mut c_void) -> i32;
    fn pthread_join(thread: usize, answer: *mut *mut c_void) -> i32;
}

extern "C" fn start(work: *mut c_void) -> *mut c_void {
    let work = unsafe { &mut *(work as *mut &mut dyn FnMut()) };
    work();
    std::ptr::null_mut()
}

/// Runs some work in a thread, and answers how many bytes of its stack were touched.
pub fn depth_of(work: &mut dyn FnMut()) -> usize {
    let mut words = vec![PAINT; ROOM / 8];
    let mut work: &mut dyn FnMut() = work;
    let mut attributes = [0; 32];
    let mut thread = 0;
    let made = unsafe {
        let low = words.as_mut_ptr() as *mut c_void;
        pthread_attr_init(&mut attributes)
            | pthread_attr_setstack(&mut attributes, low, ROOM)
            | pthread_create(&mut thread, &attributes, start, &mut work as *mut _ as *mut c_void)
    };
    assert_eq!(made, 0, "a thread");
    assert_eq!(unsafe { pthread_join(thread, std::ptr::null_mut()) }, 0, "the thread's end");
    let whole = words.iter().take_while(|&&word| unsafe { std::ptr::read_volatile(&word) } == PAINT).count();
    ROOM - 8 * whole
}
