//! What the bench calls in C: the lean kernel, and the measures of the stack.

use compare::{lent, Call};
use std::ffi::c_void;

/// A step in place: the record or state, the code and three numbers, the message, and the block.
pub type StepFunction =
    unsafe extern "C" fn(*mut c_void, u32, u32, u32, u32, *const u32, u64, *mut u32, u64) -> u64;

/// The functions that make a step so: the lean kernel's, the library's, and one that makes none.
macro_rules! step_functions {
    ($($name:ident),*) => {
        extern "C" {
            $(pub fn $name(
                k: *mut c_void,
                code: u32,
                a: u32,
                b: u32,
                c: u32,
                message: *const u32,
                count: u64,
                block: *mut u32,
                block_words: u64,
            ) -> u64;)*
        }
    };
}

step_functions!(lean_step, cungkalisa_step, stack_no_step);

extern "C" {
    static lean_size: usize;
    fn lean_fresh(k: *mut c_void);
    fn stack_of_step(made: *const Made, pattern: u8) -> usize;
    fn stack_lower(bytes: usize, work: extern "C" fn(*mut c_void), data: *mut c_void);
}

/// A step to be made, as stack.h has it.
#[repr(C)]
struct Made {
    step: StepFunction,
    place: *mut c_void,
    numbers: [u32; 4],
    message: *const u32,
    count: u64,
    block: *mut u32,
    block_words: u64,
}

/// The step of the function on what stands at the place.
pub fn step_at(step: StepFunction, place: *mut c_void, call: &Call, block: &mut [u32]) -> u64 {
    let Call { code, a, b, c, .. } = *call;
    let (message, count, block, words) = lent(call, block);
    unsafe { step(place, code, a, b, c, message, count, block, words) }
}

/// The lean kernel's state. Its parts point at one another: it stays where it was made fresh.
pub struct Lean(Vec<u64>);

impl Lean {
    pub fn new() -> Lean {
        let mut lean = Lean(vec![0; unsafe { lean_size }.div_ceil(8)]);
        lean.fresh();
        lean
    }

    pub fn fresh(&mut self) {
        unsafe { lean_fresh(self.place()) }
    }

    pub fn place(&mut self) -> *mut c_void {
        self.0.as_mut_ptr().cast()
    }

    pub fn step(&mut self, call: &Call, block: &mut [u32]) -> u64 {
        step_at(lean_step, self.place(), call, block)
    }
}

/// The bytes of stack that a step changes on a painted stack, from its caller's frame on.
pub fn stack_of(
    step: StepFunction,
    place: *mut c_void,
    call: &Call,
    block: &mut [u32],
    pattern: u8,
) -> usize {
    let (message, count, block, block_words) = lent(call, block);
    let numbers = [call.code, call.a, call.b, call.c];
    let made = Made { step, place, numbers, message, count, block, block_words };
    unsafe { stack_of_step(&made, pattern) }
}

/// What the work finds with the stack so many bytes lower.
pub fn lower<T>(bytes: usize, mut work: impl FnMut() -> T) -> T {
    extern "C" fn do_it(data: *mut c_void) {
        let work = unsafe { &mut *data.cast::<&mut dyn FnMut()>() };
        work()
    }
    let mut found = None;
    let mut keep = || found = Some(work());
    let mut keep: &mut dyn FnMut() = &mut keep;
    unsafe { stack_lower(bytes, do_it, (&raw mut keep).cast()) };
    found.unwrap()
}
