//! Random steps on both implementations, in place and by value, each record, block and answer compared.
//!
//!     compare [--steps N] [--seed S] [--layout]
//!
//! Runs of a few hundred steps go from a fresh record; run i has the seed S + i. A difference is printed with its
//! run's seed, so that `--seed THAT --steps 1` plays the run again. `--layout` prints the fields' places instead.

mod choose;

use choose::{block_words, call, changed_at, damage, damage_block, set_clock, sweep_at, Way};
use compare::{parts, Bytes, Call, STATE};
use outside::kernel::State;
use outside::random::Random;
use outside::record::{self, from_record, is_sound, Kept, Record, NONE};
use std::mem::offset_of;
use std::process::ExitCode;

/// How many steps a run has.
const RUN: usize = 500;

/// How many words stand behind the block that is lent, to see that none of them is changed.
const BEHIND: usize = 8;

/// What was seen, to tell that much was.
#[derive(Default)]
struct Seen {
    steps: u64,
    numbers: [u64; 16],
    links_of_lock: u32,
    links_of_send: u32,
    sound: u64,
    unsound: u64,
}

impl Seen {
    fn note(&mut self, call: &Call, number: u8, value: u32, sound: bool) {
        self.steps += 1;
        self.numbers[number as usize] += 1;
        match call.code {
            4 => self.links_of_lock = self.links_of_lock.max(value),
            18 => self.links_of_send = self.links_of_send.max(value),
            _ => {}
        }
        *if sound { &mut self.sound } else { &mut self.unsound } += 1;
    }
}

fn main() -> ExitCode {
    let words: Vec<String> = std::env::args().skip(1).collect();
    let (mut steps, mut seed) = (4_000_000, 1);
    let mut at = 0;
    while at < words.len() {
        match (words[at].as_str(), words.get(at + 1).and_then(|word| word.parse().ok())) {
            ("--steps", Some(n)) => steps = n,
            ("--seed", Some(n)) => seed = n,
            ("--layout", _) => return layout(),
            _ => {
                eprintln!("usage: compare [--steps N] [--seed S] [--layout]");
                return ExitCode::from(2);
            }
        }
        at += 2;
    }
    println!("compare: {steps} steps from seed {seed}");
    let mut seen = Seen::default();
    let mut of_run = seed;
    while seen.steps < steps {
        if let Err(difference) = run(of_run, &mut seen) {
            println!("compare: DIFFERENT, replay with --seed {of_run} --steps 1\n{difference}");
            return ExitCode::FAILURE;
        }
        of_run += 1;
    }
    println!("answers 0 to 15: {:?}", seen.numbers);
    println!("links up to {} by lock, {} by send", seen.links_of_lock, seen.links_of_send);
    println!("records: {} sound, {} not", seen.sound, seen.unsound);
    let few_links = seen.links_of_lock < 8 || seen.links_of_send < 8;
    if steps >= 1_000_000 && (seen.numbers.contains(&0) || few_links) {
        println!("compare: not every answer was seen");
        return ExitCode::FAILURE;
    }
    println!("compare: {} steps, no difference", seen.steps);
    ExitCode::SUCCESS
}

/// One run: a record made fresh, stepped, and now and then damaged, and its block with it.
fn run(seed: u64, seen: &mut Seen) -> Result<(), String> {
    let mut random = Random(seed.wrapping_mul(0x9e37_79b9_7f4a_7c15));
    let mut bytes = Bytes::default();
    bytes.state.0.fill_with(|| random.next() as u8);
    bytes.words.fill_with(|| random.next() as u32);
    bytes.fresh();
    if bytes.kept() != record::fresh() {
        return Err(format!("the fresh record is {:?}", bytes.kept()));
    }
    let length = block_words(&mut random);
    let mut block = vec![0; length + BEHIND];
    block.fill_with(|| random.next() as u32);
    let mut state = State::default();
    let sweeps_at = sweep_at(&mut random, RUN);
    for step in 0..RUN {
        let call = call(&mut random, &state, Way::of(seed));
        if sweeps_at == Some(step) {
            sweep(&mut random, &bytes, &block, length, &call, seen)?;
        }
        let (mut other, mut other_block) = (bytes, block.clone());
        damage(&mut random, &mut other);
        let other_length = damage_block(&mut random, &mut other_block[..length]);
        step_both(&mut other, &mut other_block, other_length, &call, seen)?;
        step_both(&mut bytes, &mut block, length, &call, seen)?;
        if random.one_in(100) && is_sound(&other.kept(), length) {
            (bytes, block) = (other, other_block);
        }
        if random.one_in(60) && bytes.kept().record.started == 1 {
            let mut r = bytes.kept().record;
            set_clock(&mut random, &mut r);
            bytes.set(&r);
        }
        state = from_record(&bytes.kept(), &block);
    }
    Ok(())
}

/// Each byte of the state and each word held changed alone, in turn, and the same step made.
fn sweep(
    random: &mut Random,
    bytes: &Bytes,
    block: &[u32],
    length: usize,
    call: &Call,
    seen: &mut Seen,
) -> Result<(), String> {
    for at in 0..STATE + bytes.words.len() {
        let mut other = changed_at(random, bytes, at);
        step_both(&mut other, &mut block.to_vec(), length, call, seen)?;
    }
    Ok(())
}

/// What the second implementation gives: record, number, value, task to run. It changes the block.
fn expected(kept: &Kept, sound: bool, call: &Call, block: &mut [u32]) -> (Kept, u8, u32, u8) {
    let Some(s) = call.step() else {
        // As a line that is no step: the running task as it stands, none where the record isn't sound.
        return (kept.clone(), 14, 0, if sound { kept.record.running } else { NONE });
    };
    let (next, answer) = record::step(kept, s, block);
    (next, answer.number as u8, answer.value, answer.run.map_or(NONE, |i| i as u8))
}

/// The same step on both, with so many words of the block, all of what comes back compared, and what stands behind them.
fn step_both(
    bytes: &mut Bytes,
    block: &mut [u32],
    length: usize,
    call: &Call,
    seen: &mut Seen,
) -> Result<(), String> {
    let before = *bytes;
    let kept = before.kept();
    let sound = is_sound(&kept, length);
    let differs = |what: String| Err(format!("{call:?}, {length} words, on {kept:?}: {what}"));
    if before.is_sound(length) != sound {
        return differs(format!("sound {} and {sound}", before.is_sound(length)));
    }
    let mut expected_block = block.to_vec();
    let (record, number, value, run) = expected(&kept, sound, call, &mut expected_block[..length]);
    let answer = bytes.step(call, &mut block[..length]);
    if parts(answer) != (number, value, run) {
        return differs(format!("{:?} and {:?}", parts(answer), (number, value, run)));
    }
    if answer != u64::from(value) << 32 | u64::from(run) << 8 | u64::from(number) {
        return differs(format!("the answer packed is {answer:#x}"));
    }
    if bytes.kept() != record {
        return differs(format!("{:?} and {record:?}", bytes.kept()));
    }
    if let Some(at) = (0..block.len()).find(|&at| block[at] != expected_block[at]) {
        return differs(format!("word {at}: {} and {}", block[at], expected_block[at]));
    }
    if number > 1 && *bytes != before {
        return differs("a refusal changed bytes that no field has".to_string());
    }
    seen.note(call, number, value, sound);
    Ok(())
}

/// Each field's name, place and size, as the C test of the header prints them.
fn layout() -> ExitCode {
    fn size<T, F>(_: fn(&T) -> &F) -> usize {
        size_of::<F>()
    }
    macro_rules! fields {
        ($($($part:ident).+),*) => {
            $(println!("{} {} {}", stringify!($($part).+).replace(' ', ""),
                offset_of!(Record, $($part).+), size(|r: &Record| &r.$($part).+));)*
        };
    }
    fields!(
        tasks.due,
        tasks.priority,
        tasks.level,
        tasks.outcome,
        tasks.wait,
        tasks.object,
        tasks.timed,
        tasks.n
    );
    fields!(
        semaphores.count,
        semaphores.maximum,
        semaphores.n,
        clock,
        mutexes.kind,
        mutexes.owner,
        mutexes.n
    );
    fields!(queues.width, queues.depth, queues.owner, queues.oldest, queues.used, queues.n);
    fields!(ready.ids, ready.n, waiting.ids, waiting.n, started, hold, running);
    println!("words {} {}", offset_of!(Kept, words), size(|kept: &Kept| &kept.words));
    ExitCode::SUCCESS
}
