//! A list of steps run once from a fresh state, by each of those that are measured.

use crate::linked::{stack_no_step, step_at, Lean};
use crate::loads;
use compare::{Bytes, Call};
use outside::kernel::{State, Step};
use outside::script::BLOCK;
use std::hint::black_box;
use std::ptr::null_mut;
use std::time::{Duration, Instant};

/// How many steps a list has after set-up.
const STEPS: usize = 4000;

/// A load's steps, and the same as calls.
pub struct List {
    pub steps: Vec<Step>,
    pub calls: Vec<Call>,
}

pub type Pass<'a> = Box<dyn FnMut() + 'a>;

impl List {
    /// The load's list, on which the lean kernel must give the library's answers, and leave the same block.
    pub fn new(load: &str, tasks: usize) -> List {
        let steps = loads::steps(load, tasks, STEPS);
        let calls: Vec<Call> = steps.iter().map(|&s| Call::of(s, Call::default())).collect();
        let (mut bytes, mut kernel) = (Bytes::default(), Lean::new());
        let (mut block, mut lean_block) = ([0; BLOCK], [0; BLOCK]);
        bytes.fresh();
        for call in &calls {
            let (answer, lean) = (bytes.step(call, &mut block), kernel.step(call, &mut lean_block));
            assert_eq!(answer, lean, "{load}, {tasks} tasks: {call:?}");
        }
        assert!(block == lean_block, "{load}, {tasks} tasks: the blocks differ");
        List { steps, calls }
    }

    pub fn pass(&self, what: &str) -> Pass<'_> {
        match what {
            "in-place" => in_place(&self.calls),
            "test" => test(&self.calls),
            "lean" => lean(&self.calls),
            "plain" => plain(&self.steps),
            "copy" => copy(&self.steps),
            _ => nothing(&self.calls),
        }
    }

    /// The quickest of the passes made in so much time, in nanoseconds for each step.
    pub fn quickest(&self, pass: &mut Pass, time: Duration) -> f64 {
        let (mut best, began) = (Duration::MAX, Instant::now());
        while began.elapsed() < time {
            let start = Instant::now();
            pass();
            best = best.min(start.elapsed());
        }
        best.as_nanos() as f64 / self.steps.len() as f64
    }
}

/// The library in place: one record, changed where it lies, tested at each step.
fn in_place(calls: &[Call]) -> Pass<'_> {
    let (mut bytes, mut block) = (Bytes::default(), [0; BLOCK]);
    Box::new(move || {
        bytes.fresh();
        for call in calls {
            black_box(bytes.step(call, &mut block));
        }
    })
}

/// The library's test of the record alone, at each state of the list.
fn test(calls: &[Call]) -> Pass<'_> {
    let (mut bytes, mut block) = (Bytes::default(), [0; BLOCK]);
    bytes.fresh();
    let mut states = Vec::new();
    for call in calls {
        states.push(bytes);
        bytes.step(call, &mut block);
    }
    Box::new(move || {
        for bytes in &states {
            black_box(bytes.is_sound(BLOCK));
        }
    })
}

/// The lean kernel: changed in place, without a test of the state.
fn lean(calls: &[Call]) -> Pass<'_> {
    let (mut kernel, mut block) = (Lean::new(), [0; BLOCK]);
    Box::new(move || {
        kernel.fresh();
        for call in calls {
            black_box(kernel.step(call, &mut block));
        }
    })
}

/// The second implementation, without a test of the state.
fn plain(steps: &[Step]) -> Pass<'_> {
    Box::new(move || {
        let mut state = State::default();
        for &s in steps {
            let (next, answer) = state.step(s, BLOCK);
            black_box(answer);
            state = next;
        }
    })
}

/// What the second implementation's copy of the state takes, at each state of the list: it hands on a new one.
fn copy(steps: &[Step]) -> Pass<'_> {
    let mut states = vec![State::default()];
    for &s in steps {
        states.push(states[states.len() - 1].step(s, BLOCK).0);
    }
    Box::new(move || {
        for state in &states {
            black_box(state.clone());
        }
    })
}

/// The calls alone, of a step that does nothing.
fn nothing(calls: &[Call]) -> Pass<'_> {
    let mut block = [0; BLOCK];
    Box::new(move || {
        for call in calls {
            black_box(step_at(stack_no_step, null_mut(), call, &mut block));
        }
    })
}
