//! Random steps, lines and scripts, the same for the same seed.

use crate::kernel::{Message, Object, State, Step, Task, Wait, FOREVER, LONGEST, WORDS};
use crate::script::{line_on_state, parse, text, LONGEST_LINE};

/// The generator known as splitmix64.
pub struct Random(pub u64);

impl Random {
    pub fn next(&mut self) -> u64 {
        self.0 = self.0.wrapping_add(0x9e37_79b9_7f4a_7c15);
        let mut z = self.0;
        z = (z ^ (z >> 30)).wrapping_mul(0xbf58_476d_1ce4_e5b9);
        z = (z ^ (z >> 27)).wrapping_mul(0x94d0_49bb_1331_11eb);
        z ^ (z >> 31)
    }

    pub fn below(&mut self, n: usize) -> usize {
        (self.next() % n as u64) as usize
    }

    pub fn one_in(&mut self, n: usize) -> bool {
        self.below(n) == 0
    }

    fn of(&mut self, numbers: &[u32]) -> u32 {
        numbers[self.below(numbers.len())]
    }

    /// Any number, edges often.
    fn odd(&mut self) -> u32 {
        let any = self.next() as u32;
        self.of(&[any, any % 40, 0, 2, 8, 16, 32, 255, 256, LONGEST, LONGEST + 1, FOREVER])
    }

    /// A number below n, now and then any number.
    fn id(&mut self, n: usize) -> u32 {
        match n {
            0 => self.odd(),
            _ if self.one_in(30) => self.odd(),
            _ => self.below(n) as u32,
        }
    }

    fn time(&mut self) -> u32 {
        let few = 1 + self.below(12) as u32;
        match self.below(20) {
            0..=1 => 0,
            2..=13 => few,
            14..=17 => FOREVER,
            18 => self.of(&[LONGEST - 1, LONGEST]),
            _ => self.of(&[LONGEST + 1, FOREVER - 1, self.0 as u32]),
        }
    }
}

/// A step that mostly makes sense in the state.
pub fn step(random: &mut Random, state: &State) -> Step {
    match random.below(10) {
        0..=2 => queue_step(random, state),
        _ => plain_step(random, state),
    }
}

/// The same, of those that have nothing to do with queues.
pub fn plain_step(random: &mut Random, state: &State) -> Step {
    if is_for_set_up(random, state) {
        let most = random.odd().max(1);
        return match random.below(40) {
            0..=15 if random.one_in(2) => Step::Task(random.below(4) as u32),
            0..=15 => Step::Task(random.id(32)),
            16..=26 => Step::Mutex(if random.one_in(4) { random.id(2) } else { 1 }),
            27..=32 if random.one_in(3) => Step::Sem(random.odd(), most),
            27..=32 => Step::Sem(random.below(2) as u32, 1 + random.below(3) as u32),
            33..=36 => Step::Level(random.id(state.tasks.len())),
            37 => Step::Outcome(random.id(state.tasks.len())),
            _ if state.tasks.len() < 3 && !random.one_in(20) => Step::Task(random.id(32)),
            _ => Step::Start,
        };
    }
    let mutex = random.id(state.mutexes.len());
    let semaphore = random.id(state.semaphores.len());
    let owned = owned_by_running(state);
    let idle = state.running.is_none() && !random.one_in(10);
    match if idle { 60 + random.below(40) } else { random.below(100) } {
        0..=24 => Step::Lock(mutex, random.time()),
        25..=36 if random.one_in(2) => Step::Unlock(owned.map_or(mutex, |m| m as u32)),
        25..=36 => Step::Unlock(mutex),
        37..=43 => Step::Pend(semaphore, random.time()),
        44..=48 => Step::Sleep(sleep_time(random, state)),
        49..=53 => Step::Yield,
        54..=55 if state.hold > 0 && !random.one_in(3) => Step::Free,
        54..=55 => Step::Hold,
        56..=59 => Step::Free,
        60..=67 => Step::Post(semaphore),
        68..=69 => Step::Flush(semaphore),
        70..=84 => Step::Tick,
        85..=92 => Step::Level(random.id(state.tasks.len())),
        _ => Step::Outcome(random.id(state.tasks.len())),
    }
}

/// Shall the next step be one of set-up? Mostly where set-up isn't over.
fn is_for_set_up(random: &mut Random, state: &State) -> bool {
    if random.one_in(50) {
        state.started
    } else {
        !state.started
    }
}

fn owned_by_running(state: &State) -> Option<usize> {
    state.mutexes.iter().position(|m| m.owner.is_some() && m.owner == state.running)
}

/// A queue made or used; a word looked at where nobody runs.
fn queue_step(random: &mut Random, state: &State) -> Step {
    if is_for_set_up(random, state) {
        return new_queue(random, state);
    }
    if random.one_in(10) || state.running.is_none() && !random.one_in(10) {
        return Step::Word(random.id(state.tasks.len()), random.id(WORDS));
    }
    on_queue(random, state)
}

/// A queue, mostly of few messages, so that it is often empty or full.
fn new_queue(random: &mut Random, state: &State) -> Step {
    let width = if random.one_in(20) { random.odd() } else { 1 << random.below(4) };
    let depth = match random.below(20) {
        0 => random.odd(),
        1..=3 => 1 + random.below(64) as u32,
        _ => 1 + random.below(3) as u32,
    };
    let owner = if random.one_in(2) { Some(random.id(state.tasks.len())) } else { None };
    Step::Queue(width, depth, owner)
}

/// A send or a receive, mostly one that the running task may make.
fn on_queue(random: &mut Random, state: &State) -> Step {
    let (any, time) = (random.id(state.queues.len()), queue_time(random, state));
    if random.one_in(2) {
        let right = state.queues.get(any as usize).filter(|_| !random.one_in(20));
        let width = right.map_or(1 + random.below(WORDS), |queue| queue.width);
        return Step::Send(any, time, message(random, width));
    }
    let is_open = |&q: &u32| [None, state.running].contains(&state.queues[q as usize].owner);
    let open: Vec<u32> = (0..state.queues.len() as u32).filter(is_open).collect();
    Step::Receive(if open.is_empty() || random.one_in(10) { any } else { random.of(&open) }, time)
}

/// A message of so many words.
pub fn message(random: &mut Random, words: usize) -> Message {
    let words: Vec<u32> = (0..words).map(|_| random.odd()).collect();
    Message::new(&words).unwrap()
}

/// So long that it ends after the script does.
fn is_long(time: u32) -> bool {
    (1000..=LONGEST).contains(&time)
}

/// May the running task wait long for what no interrupt brings: a sleep's end, or the
/// other end of a queue? Few tasks, and none that owns a mutex, may, so that long scripts
/// stay alive.
fn may_wait_long(state: &State) -> bool {
    let waits_long = |task: &&Task| match task.wait {
        Some(Wait { object: Object::Time | Object::Room(_) | Object::Message(_), left }) => {
            left.is_none_or(is_long)
        }
        _ => false,
    };
    let long = state.tasks.iter().filter(waits_long).count();
    owned_by_running(state).is_none() && 3 * long + 3 <= state.tasks.len()
}

fn sleep_time(random: &mut Random, state: &State) -> u32 {
    match random.time() {
        t if is_long(t) && !may_wait_long(state) => 5,
        t => t,
    }
}

/// A time to wait at a queue.
fn queue_time(random: &mut Random, state: &State) -> u32 {
    match sleep_time(random, state) {
        FOREVER if !may_wait_long(state) => 5,
        t => t,
    }
}

/// A line with something wrong, or at least changed, in it. It has no LF.
fn damaged(random: &mut Random, good: &[u8]) -> Vec<u8> {
    let mut line = good.to_vec();
    let at = random.below(line.len());
    match random.below(10) {
        0 => line.clear(),
        1 => drop(line.remove(at)),
        2 => line[at] = random.next() as u8,
        3 => line.insert(at, b"\t 0+-9a\r"[random.below(8)]),
        4 => line.push(b"\t 0\r\0"[random.below(5)]),
        5 => line.extend(b"\t1"),
        6 => line.resize(LONGEST_LINE - 1 + random.below(4), b'0'),
        7 => line.resize(LONGEST_LINE + random.below(70_000), b' '),
        8 => line[0] = line[0].to_ascii_uppercase(),
        _ => line = b"sleep\t4294967296".to_vec(),
    }
    line.retain(|&byte| byte != b'\n');
    line
}

/// A script: the header and so many lines.
pub fn script(seed: u64, lines: usize) -> Vec<u8> {
    let mut random = Random(seed);
    let mut state = State::default();
    let mut script = b"kernel\t1".to_vec();
    for _ in 0..lines {
        let good = text(step(&mut random, &state));
        let mut line = good.into_bytes();
        if random.one_in(40) {
            let other = damaged(&mut random, &line);
            // A digit less may have made an over-long time a very long wait.
            let time = match parse(&other) {
                Some(Step::Sleep(t) | Step::Send(_, t, _) | Step::Receive(_, t)) => t,
                _ => 0,
            };
            if !is_long(time) && time != FOREVER {
                line = other;
            }
        }
        state = line_on_state(&state, &line).0;
        script.push(b'\n');
        script.extend(line);
    }
    // A last line without LF counts as well; an empty one would not be there.
    if script.ends_with(b"\n") || !random.one_in(4) {
        script.push(b'\n');
    }
    script
}
