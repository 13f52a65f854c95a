//! Random calls, damages and clocks.

use compare::{Bytes, Call, MOST_WORDS, QUEUES, STATE};
use outside::kernel::{State, Step, FOREVER};
use outside::random::{self, Random};
use outside::record::Record;

/// Numbers at which something changes.
const EDGES: [u32; 22] = [
    0, 1, 2, 4, 5, 7, 8, 9, 15, 16, 17, 31, 32, 64, 65, 255, 256, 2147483646, 2147483647,
    2147483648, 4294967294, 4294967295,
];

/// Any number, edges often.
fn number(random: &mut Random) -> u32 {
    match random.below(4) {
        0 => random.next() as u32,
        1 => random.below(40) as u32,
        _ => EDGES[random.below(EDGES.len())],
    }
}

/// What a run leans to, with queues or without.
#[derive(Clone, Copy)]
pub enum Way {
    Plain,
    Chains { queues: bool },
    TimeOuts { queues: bool },
}

impl Way {
    pub fn of(seed: u64) -> Way {
        match seed % 6 {
            0 => Way::Chains { queues: false },
            1 => Way::TimeOuts { queues: false },
            2 => Way::Chains { queues: true },
            3 => Way::TimeOuts { queues: true },
            _ => Way::Plain,
        }
    }
}

/// How many words the block of a run has: often as many as all queues can have, often few, perhaps none.
pub fn block_words(random: &mut Random) -> usize {
    match random.below(4) {
        0 => random.below(16),
        1 => random.below(200),
        _ => 4096,
    }
}

/// A step that mostly makes sense in the state; one in ten is any numbers and words at all.
pub fn call(random: &mut Random, state: &State, way: Way) -> Call {
    let any = any_call(random);
    if random.one_in(10) {
        return any;
    }
    let step = match way {
        _ if random.one_in(4) => None,
        Way::Plain => None,
        Way::Chains { queues } => chaining(random, state, queues),
        Way::TimeOuts { queues } => timing_out(random, state, queues),
    };
    Call::of(step.unwrap_or_else(|| random::step(random, state)), any)
}

fn any_call(random: &mut Random) -> Call {
    let code = if random.one_in(4) { number(random) } else { random.below(21) as u32 };
    let (a, b, c) = (number(random), number(random), number(random));
    let mut words = [0; MOST_WORDS];
    words.fill_with(|| number(random));
    Call { code, a, b, c, words, count: random.below(MOST_WORDS + 1) }
}

/// A step towards long chains of waits: full tables, then each task takes a free mutex and waits for what another owns: a taken
/// mutex, or room in a full queue.
fn chaining(random: &mut Random, state: &State, queues: bool) -> Option<Step> {
    if !state.started {
        return Some(match (state.tasks.len(), state.mutexes.len(), state.queues.len()) {
            (0..16, ..) => Step::Task(random.below(32) as u32),
            (_, 0..8, _) => Step::Mutex(!random.one_in(6) as u32),
            (_, _, 0..8) if queues => {
                Step::Queue(1 << random.below(4), 1, Some(random.below(16) as u32))
            }
            _ => Step::Start,
        });
    }
    let running = state.running?;
    let owner = |m: u32| state.mutexes[m as usize].owner;
    let mutexes = 0..state.mutexes.len() as u32;
    if !mutexes.clone().any(|m| owner(m) == Some(running)) {
        if let Some(free) = mutexes.clone().find(|&m| owner(m).is_none()) {
            return Some(Step::Lock(free, 0));
        }
    }
    let time = if random.one_in(3) { 1 + random.below(60) as u32 } else { FOREVER };
    let others = |owner: Option<usize>| owner.is_some_and(|i| i != running);
    let taken = mutexes.filter(|&m| others(owner(m)));
    let mut ways: Vec<(u32, Step)> =
        taken.map(|m| (links(state, owner(m)), Step::Lock(m, time))).collect();
    for (q, queue) in state.queues.iter().enumerate().filter(|(_, queue)| others(queue.owner)) {
        let message = random::message(random, queue.width);
        ways.push((links(state, queue.owner), Step::Send(q as u32, time, message)));
    }
    let longest = ways.iter().copied().max_by_key(|&(links, _)| links)?;
    let any = ways[random.below(ways.len())];
    Some(if random.one_in(3) { any.1 } else { longest.1 })
}

/// A step towards several waits that end at one tick, with their owners ready: few priorities, waits till the clock is
/// next a multiple of eight, and now and then a short sleep, a receive or a tick.
fn timing_out(random: &mut Random, state: &State, queues: bool) -> Option<Step> {
    if !state.started {
        return match chaining(random, state, queues)? {
            Step::Task(_) => Some(Step::Task([1, 4, 9][random.below(3)])),
            other => Some(other),
        };
    }
    let left = 8 - state.clock % 8;
    match random.below(6) {
        0 => Some(Step::Tick),
        1 => Some(Step::Sleep(1 + random.below(left as usize) as u32)),
        2 if queues => Some(Step::Receive(random.below(8) as u32, left)),
        _ => match chaining(random, state, queues)? {
            Step::Lock(m, time) if time > 0 => Some(Step::Lock(m, left)),
            Step::Send(q, _, message) => Some(Step::Send(q, left, message)),
            other => Some(other),
        },
    }
}

/// How many tasks stand on the chain of what this task owns.
fn links(state: &State, owner: Option<usize>) -> u32 {
    let Some(i) = owner else { return 0 };
    1 + links(state, state.tasks[i].wait.and_then(|wait| state.owner_of(wait.object)))
}

/// The place of a byte that some field of the state has, the queues' often.
fn field_byte(random: &mut Random) -> usize {
    loop {
        let at = match random.below(4) {
            0 => QUEUES.start + random.below(QUEUES.len()),
            _ => random.below(STATE),
        };
        if !Bytes::is_padding(at) {
            return at;
        }
    }
}

/// A bit flipped, a byte set, or a word set, perhaps in several places, or nothing; and now and then a word that a task holds,
/// mostly one of an unused place or past a message.
pub fn damage(random: &mut Random, bytes: &mut Bytes) {
    let state = &mut bytes.state.0;
    for _ in 0..random.below(3) {
        let at = if random.one_in(2) { field_byte(random) } else { random.below(STATE) };
        match random.below(4) {
            0 => state[at] ^= 1 << random.below(8),
            1 => state[at] = number(random) as u8,
            2 => state[at] = state[field_byte(random)],
            _ => {
                let word = number(random).to_ne_bytes();
                state[at / 4 * 4..at / 4 * 4 + 4].copy_from_slice(&word);
            }
        }
    }
    if random.one_in(4) {
        bytes.words[random.below(128)] = number(random);
    }
}

/// The record with one byte of its state changed, or behind those one word that a task holds; small numbers often, since they
/// stand for most things.
pub fn changed_at(random: &mut Random, bytes: &Bytes, at: usize) -> Bytes {
    let mut other = *bytes;
    let value = if random.one_in(2) { random.below(4) as u32 } else { number(random) };
    match at.checked_sub(STATE) {
        None => other.state.0[at] = value as u8,
        Some(word) => other.words[word] = value,
    }
    other
}

/// The step of a run of so many before which each byte is changed in turn, if any: often one of set-up, which is short.
pub fn sweep_at(random: &mut Random, steps: usize) -> Option<usize> {
    match random.below(10) {
        0 => Some(random.below(40)),
        1 => Some(random.below(steps)),
        _ => None,
    }
}

/// Some words of the block set, and perhaps a shorter block: gives its length.
pub fn damage_block(random: &mut Random, block: &mut [u32]) -> usize {
    for _ in 0..random.below(3) {
        if !block.is_empty() {
            block[random.below(block.len())] = number(random);
        }
    }
    if random.one_in(8) {
        random.below(block.len() + 1)
    } else {
        block.len()
    }
}

/// Another clock, mostly shortly before it wraps, with the due times moved along: as sound as it was.
pub fn set_clock(random: &mut Random, r: &mut Record) {
    let near = u32::MAX - random.below(20) as u32;
    let clock = if random.one_in(4) { number(random) } else { near };
    for i in 0..16 {
        if r.tasks.timed[i] == 1 {
            r.tasks.due[i] = r.tasks.due[i].wrapping_sub(r.clock).wrapping_add(clock);
        }
    }
    r.clock = clock;
}
