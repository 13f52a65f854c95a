//! Loads: lists of steps that all sides are given.

use outside::kernel::{Message, State, Step, FOREVER};
use outside::random::{self, Random};
use outside::script::BLOCK;

/// The last one alone has queues.
pub const NAMES: [&str; 5] = ["mixed", "tick-heavy", "lock-chain", "idle", "queues"];

/// A queue for any task, and one of task 0's.
const QUEUES: [Step; 2] = [Step::Queue(2, 2, None), Step::Queue(4, 3, Some(0))];

/// The load's steps for so many tasks: set-up, then so many.
pub fn steps(load: &str, tasks: usize, count: usize) -> Vec<Step> {
    let mut random = Random(tasks as u64);
    let mut list: Vec<Step> = (0..tasks).map(|i| Step::Task(31 - (2 * i as u32) % 32)).collect();
    list.extend([Step::Mutex(1); 8]);
    list.extend([Step::Sem(0, 3), Step::Sem(2, 3)]);
    if load == "queues" {
        list.extend(QUEUES);
    }
    list.push(Step::Start);
    let mut state = list.iter().fold(State::default(), |state, &s| state.step(s, BLOCK).0);
    let round = |i: usize| if load == "queues" { queue_round(i) } else { lock_round(i, tasks) };
    let mut rounds: Vec<Vec<Step>> = (0..tasks).map(round).collect();
    for _ in 0..count {
        let s = match load {
            "mixed" => random::plain_step(&mut random, &state),
            "tick-heavy" => tick_heavy(&mut random),
            "lock-chain" | "queues" => next_in_round(&mut rounds, &state),
            _ => idle(&state),
        };
        state = state.step(s, BLOCK).0;
        list.push(s);
    }
    list
}

/// Nine ticks, then a task that sleeps or waits for a semaphore, up to a hundred ticks long.
fn tick_heavy(random: &mut Random) -> Step {
    let time = 1 + random.below(100) as u32;
    match random.below(20) {
        0 => Step::Sleep(time),
        1 => Step::Pend(0, time),
        _ => Step::Tick,
    }
}

/// What a task does again and again: it sleeps, the more urgent the longer, takes a mutex of its own, waits for the one
/// before it, and gives both back. Task 0 keeps the first mutex for so many ticks that all others come to wait: the chain
/// grows to all mutexes, and then unwinds.
fn lock_round(task: usize, tasks: usize) -> Vec<Step> {
    let own = task as u32;
    let mut steps = vec![Step::Sleep(own + 1)];
    match task {
        0 => {
            steps.push(Step::Lock(0, 0));
            steps.extend(vec![Step::Tick; tasks + 2]);
            steps.push(Step::Unlock(0));
        }
        1..8 => {
            steps.extend([Step::Lock(own, 0), Step::Lock(own - 1, FOREVER)]);
            steps.extend([Step::Unlock(own - 1), Step::Unlock(own)]);
        }
        _ => steps.extend([Step::Lock(7, FOREVER), Step::Unlock(7)]),
    }
    steps
}

/// The same with queues. Task 0 takes two messages of its own queue, waiting for them if need be; the odd tasks send to that
/// queue, and wait while it is full, so that task 0 inherits their urgency; the even ones, and task 0, pass messages on through
/// the other queue, and may wait at either end of it. All sleep for a while between rounds.
fn queue_round(task: usize) -> Vec<Step> {
    let send = |queue: u32, time: u32, words: &[u32]| {
        Step::Send(queue, time, Message::new(words).unwrap())
    };
    let own = task as u32;
    let pass_on = [send(0, 3, &[own, 1]), Step::Receive(0, 3)];
    match task {
        0 => [&[Step::Receive(1, 4); 2][..], &pass_on.repeat(4), &[Step::Sleep(2)]].concat(),
        _ if task % 2 == 1 => vec![send(1, FOREVER, &[own, 2, 3, 4]), Step::Sleep(own)],
        _ => [&pass_on[..], &[Step::Receive(0, 2), Step::Sleep(own)]].concat(),
    }
}

/// The next step of the round of the task that runs; a tick where none does.
fn next_in_round(rounds: &mut [Vec<Step>], state: &State) -> Step {
    let Some(running) = state.running else { return Step::Tick };
    let round = &mut rounds[running];
    round.rotate_left(1);
    round[round.len() - 1]
}

/// Everyone sleeps, and ticks come.
fn idle(state: &State) -> Step {
    match state.running {
        Some(_) => Step::Sleep(1_000_000),
        None => Step::Tick,
    }
}
