//! How much stack a call takes: it runs on a thread whose stack was filled with a pattern before.

use crate::Tables;
use generate::nest::Nest;
use generate::text::{spell, Layout};
use generate::{Grammar, Random};
use ordinary::number;
use std::ffi::c_void;
use std::mem::size_of;

/// The text that is nested in this way to this depth, which both readers accept at this setting.
pub fn accepted(nest: &Nest, depth: u32, grammar: &Grammar) -> Vec<u8> {
    let text = spell(&nest.kinds(depth as usize, grammar), grammar, Layout::Tidy, &mut Random::new(1));
    let Tables { mut tokens, mut tree } = Tables::with_room(text.len());
    let theirs = ordinary::read(&text, &mut tokens, &mut tree, depth).number;
    let ours = idl::raw::read(&text, &mut tokens, &mut tree, depth).number;
    assert_eq!([theirs, ours], [number::ACCEPTED; 2], "{} at depth {depth}", nest.name);
    text
}

const SIZE: usize = 1 << 20;
const PATTERN: u8 = 0xa5;

/// Room for the attributes of a thread, as the C library lays them out.
#[repr(C, align(16))]
struct Attributes([u8; 64]);

extern "C" {
    fn pthread_attr_init(attributes: *mut Attributes) -> i32;
    fn pthread_attr_setstack(attributes: *mut Attributes, stack: *mut c_void, size: usize) -> i32;
    fn pthread_attr_destroy(attributes: *mut Attributes) -> i32;
    fn pthread_create(
        thread: *mut usize,
        attributes: *const Attributes,
        start: extern "C" fn(*mut c_void) -> *mut c_void,
        argument: *mut c_void,
    ) -> i32;
    fn pthread_join(thread: usize, result: *mut *mut c_void) -> i32;
}

#[repr(C, align(4096))]
struct Page([u8; 4096]);

extern "C" fn start(argument: *mut c_void) -> *mut c_void {
    // SAFETY: the argument is the reference to a call that `touched` passes and keeps alive.
    let call = unsafe { &mut *argument.cast::<&mut dyn FnMut()>() };
    call();
    std::ptr::null_mut()
}

/// The bytes of stack that a call takes, beyond those of a thread that does nothing.
pub fn of_call(call: &mut dyn FnMut()) -> usize {
    let nothing = touched(&mut || {});
    touched(call).saturating_sub(nothing)
}

/// The bytes of its stack that a thread touches when it runs this call.
fn touched(mut call: &mut dyn FnMut()) -> usize {
    let mut stack: Vec<Page> = (0..SIZE / size_of::<Page>()).map(|_| Page([PATTERN; 4096])).collect();
    let mut attributes = Attributes([0; 64]);
    let mut thread = 0;
    let argument: *mut &mut dyn FnMut() = &mut call;
    // SAFETY: the stack and the call outlive the thread, which is joined here.
    let done = unsafe {
        let mut done = pthread_attr_init(&mut attributes);
        done |= pthread_attr_setstack(&mut attributes, stack.as_mut_ptr().cast(), SIZE);
        done |= pthread_create(&mut thread, &attributes, start, argument.cast());
        done |= pthread_join(thread, std::ptr::null_mut());
        done | pthread_attr_destroy(&mut attributes)
    };
    assert_eq!(done, 0, "the thread ran");
    let untouched = stack.iter().flat_map(|page| page.0).take_while(|&byte| byte == PATTERN).count();
    SIZE - untouched
}
