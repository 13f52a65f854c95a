//! The stack that a step needs: each step of a load on a painted stack, and the deepest byte that changed.

use crate::linked::{cungkalisa_step, lean_step, stack_no_step, stack_of, Lean, StepFunction};
use crate::loads;
use crate::passes::List;
use compare::{Bytes, Call};
use outside::script::BLOCK;
use std::ffi::c_void;
use std::ptr::null_mut;

const PATTERNS: [u8; 2] = [0xa5, 0x5a];

pub fn table() {
    println!("| load | tasks | in place / lean | in place, bytes | lean, bytes |");
    println!("|---|---|---|---|---|");
    let (mut bytes, mut kernel) = (Bytes::default(), Lean::new());
    for load in loads::NAMES {
        let List { calls, .. } = List::new(load, 16);
        let no_step = deepest(stack_no_step, &calls, || null_mut());
        let library = deepest(cungkalisa_step, &calls, || {
            bytes.fresh();
            (&raw mut bytes).cast()
        });
        let lean = deepest(lean_step, &calls, || {
            kernel.fresh();
            kernel.place()
        });
        // A call that does nothing needs its return address, and so does a step.
        let [library, lean] = [library, lean].map(|bytes| bytes - no_step + size_of::<usize>());
        let ratio = library as f64 / lean as f64;
        println!("| {load} | 16 | {ratio:.1} | {library} | {lean} |");
    }
}

/// The most that any step of the list changes, from its caller's frame on: the list is run on a fresh state for each pattern.
fn deepest(step: StepFunction, calls: &[Call], mut fresh: impl FnMut() -> *mut c_void) -> usize {
    let (mut most, mut block) = (0, [0; BLOCK]);
    for pattern in PATTERNS {
        let place = fresh();
        let used = calls.iter().map(|call| stack_of(step, place, call, &mut block, pattern));
        most = used.fold(most, usize::max);
    }
    most
}
