//! The stack a call takes: a thread runs it on memory that was filled with a pattern before.

use std::ffi::c_void;
use std::ptr;

#[repr(C, align(16))]
struct Attributes([u8; 256]);

extern "C" {
    fn mmap(place: *mut c_void, length: usize, may: i32, kind: i32, file: i32, offset: i64) -> *mut c_void;
    fn munmap(place: *mut c_void, length: usize) -> i32;
    fn pthread_attr_init(attributes: *mut Attributes) -> i32;
    fn pthread_attr_setstack(attributes: *mut Attributes, place: *mut c_void, length: usize) -> i32;
    fn pthread_attr_destroy(attributes: *mut Attributes) -> i32;
    fn pthread_create(
        thread: *mut usize,
        attributes: *const Attributes,
        start: extern "C" fn(*mut c_void) -> *mut c_void,
        argument: *mut c_void,
    ) -> i32;
    fn pthread_join(thread: usize, answer: *mut *mut c_void) -> i32;
}

const READ_AND_WRITE: i32 = 1 | 2;
const PRIVATE_AND_EMPTY: i32 = 0x02 | 0x20;
const SIZE: usize = 64 << 20;
const PATTERN: u8 = 0xa5;

/// The stack of a call in bytes, without what a thread that does nothing takes.
pub fn stack_of(mut call: impl FnMut()) -> usize {
    let nothing = touched(&mut || {});
    touched(&mut call).saturating_sub(nothing)
}

/// How far down the stack was changed by a thread that runs `call`.
fn touched(call: &mut dyn FnMut()) -> usize {
    let mut call = call;
    // SAFETY: the region is ours, the thread is joined before it is read or given back, and `call` outlives it.
    unsafe {
        let region = mmap(ptr::null_mut(), SIZE, READ_AND_WRITE, PRIVATE_AND_EMPTY, -1, 0);
        assert!(region as isize != -1, "no memory");
        ptr::write_bytes(region.cast::<u8>(), PATTERN, SIZE);
        let mut attributes = Attributes([0; 256]);
        assert_eq!(pthread_attr_init(&mut attributes), 0);
        assert_eq!(pthread_attr_setstack(&mut attributes, region, SIZE), 0);
        let mut thread = 0;
        let argument = ptr::from_mut(&mut call).cast();
        assert_eq!(pthread_create(&mut thread, &attributes, start, argument), 0);
        assert_eq!(pthread_join(thread, ptr::null_mut()), 0);
        pthread_attr_destroy(&mut attributes);
        let bytes = std::slice::from_raw_parts(region.cast::<u8>(), SIZE);
        let untouched = bytes.iter().take_while(|&&byte| byte == PATTERN).count();
        munmap(region, SIZE);
        SIZE - untouched
    }
}

extern "C" fn start(argument: *mut c_void) -> *mut c_void {
    // SAFETY: `touched` hands over exactly this, and waits.
    let call = unsafe { &mut *argument.cast::<&mut dyn FnMut()>() };
    call();
    ptr::null_mut()
}
