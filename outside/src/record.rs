//! The record: the same state as plain numbers, columns by id. Beside it stand the
//! words that tasks hold, and the messages are in a lent block of words.

use crate::kernel::{Answer, Mutex, Object, Queue, Semaphore, State, Step, Task, Wait};
use crate::kernel::{LONGEST, TASKS, WORDS};

/// No owner, nothing running, an unused place of a task list.
pub const NONE: u8 = 255;

#[repr(C)]
#[derive(Clone, Debug, Default, PartialEq, Eq)]
pub struct TaskList {
    pub ids: [u8; 16],
    pub n: u8,
}

/// `wait` is 0 none, 1 mutex, 2 semaphore, 3 time, 4 to send, 5 to receive; `object`
/// the number of the mutex, semaphore or queue, else 0; `due` the clock value at which
/// a timed wait ends.
#[repr(C)]
#[derive(Clone, Debug, Default, PartialEq, Eq)]
pub struct Tasks {
    pub due: [u32; 16],
    pub priority: [u8; 16],
    pub level: [u8; 16],
    pub outcome: [u8; 16],
    pub wait: [u8; 16],
    pub object: [u8; 16],
    pub timed: [u8; 16],
    pub n: u8,
}

#[repr(C)]
#[derive(Clone, Debug, Default, PartialEq, Eq)]
pub struct Mutexes {
    pub kind: [u8; 8],
    pub owner: [u8; 8],
    pub n: u8,
}

#[repr(C)]
#[derive(Clone, Debug, Default, PartialEq, Eq)]
pub struct Semaphores {
    pub count: [u32; 8],
    pub maximum: [u32; 8],
    pub n: u8,
}

/// `used` is the number of messages, `oldest` the place in the queue's ring where the
/// oldest of them stands, or where the next one will stand.
#[repr(C)]
#[derive(Clone, Debug, Default, PartialEq, Eq)]
pub struct Queues {
    pub width: [u8; 8],
    pub depth: [u8; 8],
    pub owner: [u8; 8],
    pub oldest: [u8; 8],
    pub used: [u8; 8],
    pub n: u8,
}

#[repr(C)]
#[derive(Clone, Debug, Default, PartialEq, Eq)]
pub struct Record {
    pub tasks: Tasks,
    pub semaphores: Semaphores,
    pub clock: u32,
    pub mutexes: Mutexes,
    pub queues: Queues,
    pub ready: TaskList,
    pub waiting: TaskList,
    pub started: u8,
    pub hold: u8,
    pub running: u8,
}

/// What a caller keeps: the record, and beside it the words that each task holds.
#[repr(C)]
#[derive(Clone, Debug, Default, PartialEq, Eq)]
pub struct Kept {
    pub record: Record,
    pub words: [[u32; WORDS]; 16],
}

/// The record of the fresh state; unused places of every record are as here.
pub fn fresh() -> Kept {
    let mut kept = Kept::default();
    let r = &mut kept.record;
    (r.mutexes.owner, r.queues.owner) = ([NONE; 8], [NONE; 8]);
    (r.ready.ids, r.waiting.ids) = ([NONE; 16], [NONE; 16]);
    r.running = NONE;
    kept
}

/// A step on a record, with the block as the last step left it. 15: "the state handed
/// in isn't sound"; it is left as it is, and the task to run is none.
pub fn step(kept: &Kept, s: Step, block: &mut [u32]) -> (Kept, Answer) {
    if !is_sound(kept, block.len()) {
        return (kept.clone(), Answer { number: 15, value: 0, run: None });
    }
    let (next, answer) = from_record(kept, block).step(s, block.len());
    let queues = &kept.record.queues;
    let mut oldest = queues.oldest;
    if let (Step::Receive(q, _), 0) = (s, answer.number) {
        // One message less at the front of the ring.
        let q = q as usize;
        oldest[q] = (oldest[q] + 1) % queues.depth[q];
    }
    (to_record(&next, oldest, block), answer)
}

/// The block's words of message k of a queue: "Queues fill the block in order of id
/// from word 0, w times d words each", and in a ring the first place follows the last.
fn place(queues: &[Queue], q: usize, oldest: u8, k: usize) -> std::ops::Range<usize> {
    let start: usize = queues[..q].iter().map(Queue::size).sum();
    let at = start + (oldest as usize + k) % queues[q].depth * queues[q].width;
    at..at + queues[q].width
}

/// The record of a state whose queues have their oldest messages at these places of
/// their rings. All messages are put into the block; its other words stay.
pub fn to_record(state: &State, oldest: [u8; 8], block: &mut [u32]) -> Kept {
    let id = |i: Option<usize>| i.map_or(NONE, |i| i as u8);
    let mut kept = fresh();
    let r = &mut kept.record;
    for (i, task) in state.tasks.iter().enumerate() {
        r.tasks.priority[i] = task.priority;
        r.tasks.level[i] = task.level;
        r.tasks.outcome[i] = task.outcome;
        kept.words[i] = task.words;
        if let Some(Wait { object, left }) = task.wait {
            (r.tasks.wait[i], r.tasks.object[i]) = match object {
                Object::Mutex(m) => (1, m as u8),
                Object::Semaphore(s) => (2, s as u8),
                Object::Time => (3, 0),
                Object::Room(q) => (4, q as u8),
                Object::Message(q) => (5, q as u8),
            };
            if let Some(ticks) = left {
                r.tasks.timed[i] = 1;
                r.tasks.due[i] = state.clock.wrapping_add(ticks);
            }
        }
    }
    r.tasks.n = state.tasks.len() as u8;
    for (i, mutex) in state.mutexes.iter().enumerate() {
        r.mutexes.kind[i] = mutex.inheriting as u8;
        r.mutexes.owner[i] = id(mutex.owner);
    }
    r.mutexes.n = state.mutexes.len() as u8;
    for (i, semaphore) in state.semaphores.iter().enumerate() {
        r.semaphores.count[i] = semaphore.count;
        r.semaphores.maximum[i] = semaphore.maximum;
    }
    r.semaphores.n = state.semaphores.len() as u8;
    for (i, queue) in state.queues.iter().enumerate() {
        (r.queues.width[i], r.queues.depth[i]) = (queue.width as u8, queue.depth as u8);
        r.queues.owner[i] = id(queue.owner);
        (r.queues.oldest[i], r.queues.used[i]) = (oldest[i], queue.messages.len() as u8);
        for (k, message) in queue.messages.iter().enumerate() {
            block[place(&state.queues, i, oldest[i], k)].copy_from_slice(message);
        }
    }
    r.queues.n = state.queues.len() as u8;
    for (list, order) in [(&mut r.ready, &state.ready), (&mut r.waiting, &state.waiting)] {
        for (place, &i) in order.iter().enumerate() {
            list.ids[place] = i as u8;
        }
        list.n = order.len() as u8;
    }
    r.clock = state.clock;
    r.started = state.started as u8;
    r.hold = state.hold;
    r.running = id(state.running);
    kept
}

/// The state of a sound record, with the messages that stand in the block.
pub fn from_record(kept: &Kept, block: &[u32]) -> State {
    let r = &kept.record;
    let id = |i: u8| if i == NONE { None } else { Some(i as usize) };
    let order = |q: &TaskList| q.ids[..q.n as usize].iter().map(|&i| i as usize).collect();
    let wait = |i: usize| {
        let object = match (r.tasks.wait[i], r.tasks.object[i] as usize) {
            (0, _) => return None,
            (1, m) => Object::Mutex(m),
            (2, s) => Object::Semaphore(s),
            (4, q) => Object::Room(q),
            (5, q) => Object::Message(q),
            _ => Object::Time,
        };
        // "wrapping subtract gives ticks left for each timed wait"
        let left = r.tasks.due[i].wrapping_sub(r.clock);
        Some(Wait { object, left: if r.tasks.timed[i] == 1 { Some(left) } else { None } })
    };
    let task = |i: usize| Task {
        priority: r.tasks.priority[i],
        level: r.tasks.level[i],
        outcome: r.tasks.outcome[i],
        wait: wait(i),
        words: kept.words[i],
    };
    let mutex =
        |i: usize| Mutex { inheriting: r.mutexes.kind[i] == 1, owner: id(r.mutexes.owner[i]) };
    let semaphore =
        |i: usize| Semaphore { count: r.semaphores.count[i], maximum: r.semaphores.maximum[i] };
    let empty_queue = |i: usize| Queue {
        width: r.queues.width[i] as usize,
        depth: r.queues.depth[i] as usize,
        owner: id(r.queues.owner[i]),
        messages: Vec::new(),
    };
    let mut queues: Vec<Queue> = (0..r.queues.n as usize).map(empty_queue).collect();
    for q in 0..queues.len() {
        let message = |k: usize| block[place(&queues, q, r.queues.oldest[q], k)].to_vec();
        queues[q].messages = (0..r.queues.used[q] as usize).map(message).collect();
    }
    State {
        tasks: (0..r.tasks.n as usize).map(task).collect(),
        mutexes: (0..r.mutexes.n as usize).map(mutex).collect(),
        semaphores: (0..r.semaphores.n as usize).map(semaphore).collect(),
        queues,
        clock: r.clock,
        started: r.started == 1,
        hold: r.hold,
        running: id(r.running),
        ready: order(&r.ready),
        waiting: order(&r.waiting),
    }
}

/// "Sound state", on the numbers as they stand, with a block of so many words. Each
/// part relies on those before.
pub fn is_sound(kept: &Kept, block: usize) -> bool {
    let r = &kept.record;
    (tables_sound(r) && queues_sound(r, block) && tasks_sound(r))
        && (words_sound(kept) && waits_sound(r) && orders_sound(r))
}

/// "Numbers within the ranges above"; "unused table places as in the fresh state";
/// "owners exist"; "counts at most their maximum, maximum at least 1". (Clock and
/// hold can't be out of their ranges.)
fn tables_sound(r: &Record) -> bool {
    let (t, m, s) = (&r.tasks, &r.mutexes, &r.semaphores);
    let is_task = |i: u8| i < t.n;
    let list = |q: &TaskList| {
        (0..16).all(|at| if at < q.n as usize { is_task(q.ids[at]) } else { q.ids[at] == NONE })
    };
    let mutex = |i: usize| match i < m.n as usize {
        true => m.kind[i] <= 1 && (m.owner[i] == NONE || is_task(m.owner[i])),
        false => m.kind[i] == 0 && m.owner[i] == NONE,
    };
    let semaphore = |i: usize| match i < s.n as usize {
        true => s.count[i] <= s.maximum[i] && s.maximum[i] >= 1,
        false => s.count[i] == 0 && s.maximum[i] == 0,
    };
    let task = |i: usize| match i < t.n as usize {
        true => t.priority[i] <= 31,
        false => {
            let bytes = [&t.priority, &t.level, &t.outcome, &t.wait, &t.object, &t.timed];
            t.due[i] == 0 && bytes.iter().all(|column| column[i] == 0)
        }
    };
    (t.n <= 16 && m.n <= 8 && s.n <= 8 && r.ready.n <= 16 && r.waiting.n <= 16)
        && (r.started <= 1 && (r.running == NONE || is_task(r.running)))
        && (list(&r.ready) && list(&r.waiting))
        && ((0..8).all(mutex) && (0..8).all(semaphore) && (0..16).all(task))
}

/// Sizes, owners, counts and places in range, unused places as in the fresh state; "15
/// for a queue not so placed in the block".
fn queues_sound(r: &Record, block: usize) -> bool {
    let q = &r.queues;
    let queue = |i: usize| match i < q.n as usize {
        true => {
            ([1, 2, 4, 8].contains(&q.width[i]) && (1..=64).contains(&q.depth[i]))
                && (q.owner[i] == NONE || q.owner[i] < r.tasks.n)
                && (q.oldest[i] < q.depth[i] && q.used[i] <= q.depth[i])
        }
        false => {
            let numbers = [&q.width, &q.depth, &q.oldest, &q.used];
            q.owner[i] == NONE && numbers.iter().all(|column| column[i] == 0)
        }
    };
    let size = |i: usize| q.width[i] as usize * q.depth[i] as usize;
    q.n <= 8 && (0..8).all(queue) && (0..8).map(size).sum::<usize>() <= block
}

/// What holds of each task by itself.
fn tasks_sound(r: &Record) -> bool {
    let (t, q) = (&r.tasks, &r.queues);
    (0..t.n as usize).all(|i| {
        let times_in = |order: &[u8]| order.iter().filter(|&&j| j as usize == i).count();
        let (ready, waiting) = (times_in(&r.ready.ids), times_in(&r.waiting.ids));
        let running = (r.running as usize == i) as usize;
        // "each task in exactly one of running, ready, waiting": in set-up as well,
        // where all are ready
        let one_place = ready + waiting + running == 1;
        // "outcomes 0, 1, 20 or 21, and 1 exactly for waiting tasks"
        let outcome = if waiting == 1 { &[1][..] } else { &[0, 20, 21] }.contains(&t.outcome[i]);
        // "each waiter waits for an existing object that isn't available to it (mutex
        // owned, semaphore at 0) or for time"; "each sleep is timed"; "only the owner
        // waits to receive from an owned queue"
        let object = t.object[i] as usize;
        let wait = match t.wait[i] {
            0 => waiting == 0 && object == 0 && t.timed[i] == 0,
            1 => waiting == 1 && t.object[i] < r.mutexes.n && r.mutexes.owner[object] != NONE,
            2 => waiting == 1 && t.object[i] < r.semaphores.n && r.semaphores.count[object] == 0,
            3 => waiting == 1 && object == 0 && t.timed[i] == 1,
            4 => waiting == 1 && t.object[i] < q.n && q.used[object] == q.depth[object],
            5 => {
                (waiting == 1 && t.object[i] < q.n && q.used[object] == 0)
                    && [NONE, i as u8].contains(&q.owner[object])
            }
            _ => false,
        };
        // "each timed wait has 1 to 2147483647 ticks left"; other due times are 0
        let due = match t.timed[i] {
            0 => t.due[i] == 0,
            1 => (1..=LONGEST).contains(&t.due[i].wrapping_sub(r.clock)),
            _ => false,
        };
        one_place && outcome && wait && due
    })
}

/// "a waiting sender's words past w are 0; in set-up queues are empty, held words 0";
/// those of tasks that aren't there are as in the fresh state.
fn words_sound(kept: &Kept) -> bool {
    let r = &kept.record;
    let first_free = |i: usize| match (r.started, r.tasks.wait[i]) {
        (1, 4) => r.queues.width[r.tasks.object[i] as usize] as usize,
        (1, _) if i < r.tasks.n as usize => WORDS,
        _ => 0,
    };
    (0..16).all(|i| kept.words[i][first_free(i)..].iter().all(|&word| word == 0))
        && (r.started == 1 || r.queues.used == [0; 8])
}

/// "no ring of waits"; "stored levels as defined".
fn waits_sound(r: &Record) -> bool {
    let tasks = r.tasks.n as usize;
    // Sixteen tasks allow fifteen moves from waiter to owner without coming back.
    let comes_to_an_end = |i: usize| {
        let mut at = Some(i);
        for _ in 0..TASKS {
            at = at.and_then(|i| owner_before(r, i));
        }
        at.is_none()
    };
    (0..tasks).all(comes_to_an_end) && (0..tasks).all(|i| r.tasks.level[i] == defined_level(r, i))
}

/// The owner of the mutex, or of the queue with an owner, for which a task waits, if it
/// waits so: "a sender's wait there as one on an inheriting mutex".
fn owner_before(r: &Record, i: usize) -> Option<usize> {
    let object = r.tasks.object[i] as usize;
    let owner = match r.tasks.wait[i] {
        1 => r.mutexes.owner[object],
        4 => r.queues.owner[object],
        _ => NONE,
    };
    (owner != NONE).then_some(owner as usize)
}

/// The level of a task by the definition, "as far as it goes"; without a ring of
/// waits it comes to an end.
fn defined_level(r: &Record, i: usize) -> u8 {
    let is_plain =
        |j: usize| r.tasks.wait[j] == 1 && r.mutexes.kind[r.tasks.object[j] as usize] == 0;
    let lifts = |&j: &usize| owner_before(r, j) == Some(i) && !is_plain(j);
    let waiters = (0..r.tasks.n as usize).filter(lifts);
    waiters.map(|j| defined_level(r, j)).fold(r.tasks.priority[i], u8::min)
}

/// What holds of the orders, and in each phase.
fn orders_sound(r: &Record) -> bool {
    let level = |i: u8| r.tasks.level[i as usize];
    let ready = &r.ready.ids[..r.ready.n as usize];
    // "ready order ascending by level"
    let ascending = ready.windows(2).all(|w| level(w[0]) <= level(w[1]));
    let phase = match (r.started == 1, r.running == NONE) {
        // "once started, a task runs if any is ready; hold above 0 only with a running
        // task"
        (true, true) => ready.is_empty() && r.hold == 0,
        // "at hold 0 none ready is more urgent than the running one"
        (true, false) => r.hold > 0 || ready.iter().all(|&i| level(i) >= level(r.running)),
        // "In set-up: clock 0, hold 0, nothing running, waiting or owned, outcomes 0,
        // every task ready, equal levels by id"; "only mutexes must be unowned".
        (false, running_none) => {
            (r.clock == 0 && r.hold == 0 && running_none && r.waiting.n == 0)
                && r.mutexes.owner.iter().all(|&owner| owner == NONE)
                && r.tasks.outcome.iter().all(|&outcome| outcome == 0)
                && r.ready.n == r.tasks.n
                && ready.windows(2).all(|w| level(w[0]) < level(w[1]) || w[0] < w[1])
        }
    };
    ascending && phase
}
