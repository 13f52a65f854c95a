//! The proved library as Rust calls it, and steps as it takes them.

use outside::kernel::{Message, Step};
use outside::record::{Kept, Record};

mod linked {
    use super::Bytes;
    extern "C" {
        pub fn cungkalisa_fresh(k: *mut Bytes);
        pub fn cungkalisa_is_sound(k: *const Bytes, block_words: u64) -> bool;
        pub fn cungkalisa_step(
            k: *mut Bytes,
            code: u32,
            a: u32,
            b: u32,
            c: u32,
            message: *const u32,
            count: u64,
            block: *mut u32,
            block_words: u64,
        ) -> u64;
        pub fn cungkalisa_number(answer: u64) -> u8;
        pub fn cungkalisa_run(answer: u64) -> u8;
        pub fn cungkalisa_value(answer: u64) -> u32;
    }
}

/// How many bytes a state has, and where in it those of the queues stand.
pub const STATE: usize = 332;
pub const QUEUES: std::ops::Range<usize> = 253..294;

/// A state as its bytes, those that no field has included. Any bytes are a state.
#[repr(C, align(4))]
#[derive(Clone, Copy, PartialEq, Eq)]
pub struct StateBytes(pub [u8; STATE]);

/// A record so: a state, and the words that tasks hold.
#[repr(C)]
#[derive(Clone, Copy, PartialEq, Eq)]
pub struct Bytes {
    pub state: StateBytes,
    pub words: [u32; 128],
}

const _: () = assert!(size_of::<StateBytes>() == size_of::<Record>());
const _: () = assert!(size_of::<Bytes>() == size_of::<Kept>());
const _: () = assert!(align_of::<Bytes>() == align_of::<Kept>());

impl Default for Bytes {
    fn default() -> Bytes {
        Bytes { state: StateBytes([0; STATE]), words: [0; 128] }
    }
}

impl Bytes {
    /// Is this one of the state's bytes that no field has? An accepted step may leave anything there.
    pub fn is_padding(at: usize) -> bool {
        matches!(at, 161..164 | 229..232 | 331..)
    }

    pub fn kept(&self) -> Kept {
        // Sound: the sizes and alignments agree, and a Kept has integers only.
        unsafe { std::ptr::read((self as *const Bytes).cast()) }
    }

    /// The state of the record, the bytes that no field has staying as they are.
    pub fn set(&mut self, r: &Record) {
        unsafe { std::ptr::write((&raw mut self.state).cast(), r.clone()) }
    }

    pub fn fresh(&mut self) {
        unsafe { linked::cungkalisa_fresh(self) }
    }

    pub fn is_sound(&self, block_words: usize) -> bool {
        unsafe { linked::cungkalisa_is_sound(self, block_words as u64) }
    }

    pub fn step(&mut self, call: &Call, block: &mut [u32]) -> u64 {
        let Call { code, a, b, c, .. } = *call;
        let (message, count, place, length) = lent(call, block);
        unsafe { linked::cungkalisa_step(self, code, a, b, c, message, count, place, length) }
    }
}

/// Where a call's message lies and how many words it has, and the same of the block.
pub fn lent(call: &Call, block: &mut [u32]) -> (*const u32, u64, *mut u32, u64) {
    (call.words.as_ptr(), call.count as u64, block.as_mut_ptr(), block.len() as u64)
}

/// The parts of an answer, as the library takes it apart: number, value, task to run.
pub fn parts(answer: u64) -> (u8, u32, u8) {
    unsafe {
        let (number, run) = (linked::cungkalisa_number(answer), linked::cungkalisa_run(answer));
        (number, linked::cungkalisa_value(answer), run)
    }
}

/// The most words that a call can have beside it: some more than a message can.
pub const MOST_WORDS: usize = 12;

/// A step as the library takes it: any code, any three numbers, and any words beside them.
#[derive(Clone, Copy, Debug, Default)]
pub struct Call {
    pub code: u32,
    pub a: u32,
    pub b: u32,
    pub c: u32,
    pub words: [u32; MOST_WORDS],
    pub count: usize,
}

impl Call {
    pub fn message(&self) -> &[u32] {
        &self.words[..self.count]
    }

    /// The step's code, numbers and words; those that it hasn't are as in the call given.
    pub fn of(s: Step, rest: Call) -> Call {
        let Call { a, b, c, .. } = rest;
        let mut call = rest;
        (call.code, call.a, call.b, call.c) = match s {
            Step::Task(priority) => (0, priority, b, c),
            Step::Mutex(kind) => (1, kind, b, c),
            Step::Sem(count, maximum) => (2, count, maximum, c),
            Step::Start => (3, a, b, c),
            Step::Lock(mutex, time) => (4, mutex, time, c),
            Step::Unlock(mutex) => (5, mutex, b, c),
            Step::Pend(semaphore, time) => (6, semaphore, time, c),
            Step::Post(semaphore) => (7, semaphore, b, c),
            Step::Flush(semaphore) => (8, semaphore, b, c),
            Step::Sleep(time) => (9, time, b, c),
            Step::Yield => (10, a, b, c),
            Step::Hold => (11, a, b, c),
            Step::Free => (12, a, b, c),
            Step::Tick => (13, a, b, c),
            Step::Level(task) => (14, task, b, c),
            Step::Outcome(task) => (15, task, b, c),
            Step::Queue(width, depth, None) => (16, width, depth, c),
            Step::Queue(width, depth, Some(owner)) => (17, width, depth, owner),
            Step::Send(queue, time, message) => {
                call.count = message.words().len();
                call.words[..call.count].copy_from_slice(message.words());
                (18, queue, time, c)
            }
            Step::Receive(queue, time) => (19, queue, time, c),
            Step::Word(task, n) => (20, task, n, c),
        };
        call
    }

    /// The step that the code stands for, if any.
    pub fn step(&self) -> Option<Step> {
        let Call { code, a, b, c, .. } = *self;
        Some(match code {
            0 => Step::Task(a),
            1 => Step::Mutex(a),
            2 => Step::Sem(a, b),
            3 => Step::Start,
            4 => Step::Lock(a, b),
            5 => Step::Unlock(a),
            6 => Step::Pend(a, b),
            7 => Step::Post(a),
            8 => Step::Flush(a),
            9 => Step::Sleep(a),
            10 => Step::Yield,
            11 => Step::Hold,
            12 => Step::Free,
            13 => Step::Tick,
            14 => Step::Level(a),
            15 => Step::Outcome(a),
            16 => Step::Queue(a, b, None),
            17 => Step::Queue(a, b, Some(c)),
            18 => Step::Send(a, b, Message::new(self.message())?),
            19 => Step::Receive(a, b),
            20 => Step::Word(a, b),
            _ => return None,
        })
    }
}
