//! State, steps and refusals.

/// "4294967295 (forever)"
pub const FOREVER: u32 = 4_294_967_295;
/// "1 to 2147483647 ticks"
pub const LONGEST: u32 = 2_147_483_647;

pub const TASKS: usize = 16;
pub const MUTEXES: usize = 8;
pub const SEMAPHORES: usize = 8;
pub const QUEUES: usize = 8;
/// "A task holds eight words"
pub const WORDS: usize = 8;

/// A step with its numbers, any numbers.
#[derive(Clone, Copy, Debug, PartialEq, Eq)]
pub enum Step {
    Task(u32),
    Mutex(u32),
    Sem(u32, u32),
    Start,
    Lock(u32, u32),
    Unlock(u32),
    Pend(u32, u32),
    Post(u32),
    Flush(u32),
    Sleep(u32),
    Yield,
    Hold,
    Free,
    Tick,
    Level(u32),
    Outcome(u32),
    Queue(u32, u32, Option<u32>),
    Send(u32, u32, Message),
    Receive(u32, u32),
    Word(u32, u32),
}

/// The words of a send, one to eight of them: "14 for a send with no word or
/// over 8", so that such a one is no step at all.
#[derive(Clone, Copy, Debug, PartialEq, Eq)]
pub struct Message {
    words: [u32; WORDS],
    count: usize,
}

impl Message {
    pub fn new(words: &[u32]) -> Option<Message> {
        let mut message = Message { words: [0; WORDS], count: words.len() };
        message.words.get_mut(..words.len())?.copy_from_slice(words);
        (message.count > 0).then_some(message)
    }

    pub fn words(&self) -> &[u32] {
        &self.words[..self.count]
    }
}

/// What comes back: the number of the table, the value, the task to run.
#[derive(Clone, Copy, Debug, PartialEq, Eq)]
pub struct Answer {
    pub number: u32,
    pub value: u32,
    pub run: Option<usize>,
}

#[derive(Clone, Copy, Debug, PartialEq, Eq)]
pub enum Object {
    Mutex(usize),
    Semaphore(usize),
    Time,
    /// Room in a queue, for which a sender waits.
    Room(usize),
    /// A message of a queue, for which a receiver waits.
    Message(usize),
}

/// A wait and, if it is timed, the ticks it has left. (The record keeps the
/// clock value at which it ends; here the ticks are simply counted down.)
#[derive(Clone, Copy, Debug, PartialEq, Eq)]
pub struct Wait {
    pub object: Object,
    pub left: Option<u32>,
}

#[derive(Clone, Debug, PartialEq, Eq)]
pub struct Task {
    pub priority: u8,
    pub level: u8,
    pub outcome: u8,
    pub wait: Option<Wait>,
    /// "A task holds eight words, at first 0: those it waits to send or those it
    /// last received, the rest 0, until the next such wait or receipt"
    pub words: [u32; WORDS],
}

/// "A mutex is plain (kind 0) or inheriting (kind 1)."
#[derive(Clone, Debug, PartialEq, Eq)]
pub struct Mutex {
    pub inheriting: bool,
    pub owner: Option<usize>,
}

#[derive(Clone, Debug, PartialEq, Eq)]
pub struct Semaphore {
    pub count: u32,
    pub maximum: u32,
}

/// A queue of messages of `width` words each. Where its words lie in the lent
/// block is the record's matter.
#[derive(Clone, Debug, PartialEq, Eq)]
pub struct Queue {
    pub width: usize,
    pub depth: usize,
    /// "the only task that may receive, and waiting senders lend it their level"
    pub owner: Option<usize>,
    /// The oldest first.
    pub messages: Vec<Vec<u32>>,
}

impl Queue {
    /// "w times d words each"
    pub fn size(&self) -> usize {
        self.width * self.depth
    }

    fn is_full(&self) -> bool {
        self.messages.len() == self.depth
    }
}

/// The parts of a state. The default is the fresh state: "in set-up, with
/// nothing made, clock and hold 0".
#[derive(Clone, Debug, Default, PartialEq, Eq)]
pub struct State {
    pub tasks: Vec<Task>,
    pub mutexes: Vec<Mutex>,
    pub semaphores: Vec<Semaphore>,
    pub queues: Vec<Queue>,
    pub clock: u32,
    pub started: bool,
    pub hold: u8,
    pub running: Option<usize>,
    /// The ready order.
    pub ready: Vec<usize>,
    /// "the waiting tasks in the order in which their waits began"
    pub waiting: Vec<usize>,
}

impl State {
    /// One step, the queues having a block of so many words: refused, the state is
    /// handed on as it was; accepted, the step is made, and then comes what the
    /// document says "after each accepted step".
    pub fn step(&self, s: Step, block: usize) -> (State, Answer) {
        if let Some((number, value)) = self.refusal(s, block) {
            return (self.clone(), Answer { number, value, run: self.running });
        }
        let mut next = self.clone();
        let mut woken = Vec::new();
        let (number, value) = next.make(s, &mut woken);
        next.settle(woken);
        next.dispatch();
        let run = next.running;
        (next, Answer { number, value, run })
    }

    /// The table of refusals, in its order: "4, 5, 6, 7, 8 (full table), 9, 10, 3,
    /// 11, 12; then 2 and 13"; the first row that applies gives number and value.
    /// (A row may say anything where one above it applies.)
    fn refusal(&self, s: Step, block: usize) -> Option<(u32, u32)> {
        use Step::*;
        let of_set_up = matches!(s, Task(_) | Mutex(_) | Sem(..) | Queue(..) | Start);
        let of_any_phase = matches!(s, Level(_) | Outcome(_) | Word(..));
        let without_caller = of_set_up || of_any_phase || matches!(s, Post(_) | Flush(_) | Tick);
        let missing = match s {
            Lock(m, _) | Unlock(m) => m as usize >= self.mutexes.len(),
            Pend(s, _) | Post(s) | Flush(s) => s as usize >= self.semaphores.len(),
            Level(i) | Outcome(i) | Word(i, _) => i as usize >= self.tasks.len(),
            // "6 for no such queue or owner"
            Queue(_, _, Some(owner)) => owner as usize >= self.tasks.len(),
            Send(q, ..) | Receive(q, _) => q as usize >= self.queues.len(),
            _ => false,
        };
        let queue = match s {
            Send(q, ..) | Receive(q, _) => self.queues.get(q as usize),
            _ => None,
        };
        let no_time = |t: u32| t > LONGEST && t != FOREVER;
        let out_of_range = match s {
            Task(priority) => priority > 31,
            Mutex(kind) => kind > 1,
            Sem(count, maximum) => maximum == 0 || count > maximum,
            Lock(_, t) | Pend(_, t) | Receive(_, t) => no_time(t),
            Sleep(t) => t == 0 || t > LONGEST,
            // "7 for a wrong size, depth, number of words, or n over 7"
            Queue(w, d, _) => ![1, 2, 4, 8].contains(&w) || !(1..=64).contains(&d),
            Send(_, t, message) => {
                no_time(t) || queue.is_some_and(|q| q.width != message.words().len())
            }
            Word(_, n) => n > 7,
            _ => false,
        };
        let full = match s {
            Task(_) => self.tasks.len() == TASKS,
            Mutex(_) => self.mutexes.len() == MUTEXES,
            Sem(..) => self.semaphores.len() == SEMAPHORES,
            // "8 when table or block lacks room at creation"
            Queue(w, d, _) => {
                let used: usize = self.queues.iter().map(self::Queue::size).sum();
                self.queues.len() == QUEUES || block < used + w as usize * d as usize
            }
            _ => false,
        };
        let owner = match s {
            Lock(m, _) | Unlock(m) => self.mutexes.get(m as usize).and_then(|m| m.owner),
            _ => queue.and_then(|q| q.owner),
        };
        let (count, maximum) = match s {
            Pend(s, _) | Post(s) => self.semaphores.get(s as usize).map(|s| (s.count, s.maximum)),
            _ => None,
        }
        .unwrap_or((0, 1));
        // "A free mutex or a credit is taken even while held."
        let would_wait = match s {
            Lock(..) => owner.is_some(),
            Pend(..) => count == 0,
            Sleep(_) => true,
            // nobody waits to receive from a full queue
            Send(..) => queue.is_some_and(self::Queue::is_full),
            Receive(..) => queue.is_some_and(|q| q.messages.is_empty()),
            _ => false,
        };
        let time_0 = matches!(s, Lock(_, 0) | Pend(_, 0) | Send(_, 0, _) | Receive(_, 0));
        let by_owner = owner.is_some() && owner == self.running;
        let (links, ring) = self.chain(owner);
        let no_waiter = |s: u32| self.best_waiter(Object::Semaphore(s as usize)).is_none();
        let table = [
            // "creation or start after start; any other step but level and outcome
            // before it"; "`word i n`, allowed as `level` is"
            (4, !of_any_phase && of_set_up == self.started),
            // "a step that needs a caller (all but creation, start, post, flush, tick,
            // level, outcome) with none running"
            (5, !without_caller && self.running.is_none()),
            // "no such task, mutex or semaphore", "no such queue or owner"
            (6, missing),
            // "priority over 31, kind over 1, maximum 0, count over maximum, or a time
            // outside its range"
            (7, out_of_range),
            // "creation with the table full", "when table or block lacks room"
            (8, full),
            // "lock by the owner", "owner sending to its own full queue"
            (9, matches!(s, Lock(..) | Send(..)) && would_wait && by_owner),
            // "unlock of a mutex that the caller doesn't own, a free one included",
            // "receive by another than the owner"
            (10, matches!(s, Unlock(_)) && !by_owner),
            (10, matches!(s, Receive(..)) && owner.is_some() && !by_owner),
            // "would wait, and time is 0"
            (3, would_wait && time_0),
            // "would wait, or yield, while hold is above 0"
            (11, self.hold > 0 && (would_wait || s == Yield)),
            // "lock whose wait would close a ring", and send's
            (12, matches!(s, Lock(..) | Send(..)) && would_wait && ring),
            // "post: no waiter and count at maximum"
            (2, matches!(s, Post(s) if no_waiter(s)) && count == maximum),
            // "hold at 255, free at 0"
            (13, s == Hold && self.hold == 255 || s == Free && self.hold == 0),
        ];
        let (number, _) = table.into_iter().find(|&(_, applies)| applies)?;
        Some((number, if number == 12 { links } else { 0 }))
    }

    /// Makes a step that isn't refused, levels and orders still as before it.
    /// Tasks that become ready by it are put into `woken`, oldest wait first. Gives
    /// number and value.
    fn make(&mut self, s: Step, woken: &mut Vec<usize>) -> (u32, u32) {
        use Step::*;
        match s {
            // "value is the new id. A task becomes ready at the tail of its level."
            Task(p) => {
                let id = self.tasks.len();
                let priority = p as u8;
                let (outcome, wait, words) = (0, None, [0; WORDS]);
                self.tasks.push(self::Task { priority, level: priority, outcome, wait, words });
                woken.push(id);
                return (0, id as u32);
            }
            Mutex(kind) => {
                self.mutexes.push(self::Mutex { inheriting: kind == 1, owner: None });
                return (0, self.mutexes.len() as u32 - 1);
            }
            Sem(count, maximum) => {
                self.semaphores.push(Semaphore { count, maximum });
                return (0, self.semaphores.len() as u32 - 1);
            }
            // "ends set-up; the first ready task runs" (by the dispatch)
            Start => self.started = true,
            // "a free mutex becomes the caller's. Else the caller waits."
            Lock(m, t) => {
                let owner = self.mutexes[m as usize].owner;
                if owner.is_some() {
                    let (links, _) = self.chain(owner);
                    self.begin_wait(Object::Mutex(m as usize), t);
                    return (1, links);
                }
                self.mutexes[m as usize].owner = self.running;
            }
            // "ownership passes to the best waiter, which becomes ready with
            // outcome 0, or the mutex becomes free"
            Unlock(m) => {
                let m = m as usize;
                let waiter = self.best_waiter(Object::Mutex(m));
                self.mutexes[m].owner = waiter;
                if let Some(i) = waiter {
                    self.end_wait(i, 0, woken);
                }
            }
            // "takes one credit if the count is above 0, else waits"
            Pend(s, t) => {
                let s = s as usize;
                if self.semaphores[s].count == 0 {
                    self.begin_wait(Object::Semaphore(s), t);
                    return (1, 0);
                }
                self.semaphores[s].count -= 1;
            }
            // "the best waiter gets the credit (outcome 0), else the count rises
            // by one"
            Post(s) => match self.best_waiter(Object::Semaphore(s as usize)) {
                Some(i) => self.end_wait(i, 0, woken),
                None => self.semaphores[s as usize].count += 1,
            },
            // "every waiter becomes ready with outcome 21; the count stays"
            Flush(s) => {
                for i in self.waiting.clone() {
                    if self.waits_for(i, Object::Semaphore(s as usize)) {
                        self.end_wait(i, 21, woken);
                    }
                }
            }
            // "waits t ticks"
            Sleep(t) => {
                self.begin_wait(Object::Time, t);
                return (1, 0);
            }
            // "the caller goes to the tail of its level, then the first ready
            // task runs, perhaps the same one"
            Yield => woken.extend(self.running.take()),
            // "depth up or down by one"
            Hold => self.hold += 1,
            Free => self.hold -= 1,
            // "clock plus one. Each wait begun with time t ends at the t-th tick
            // after it: outcome 20, or 0 for a sleep."
            Tick => {
                self.clock = self.clock.wrapping_add(1);
                for i in self.waiting.clone() {
                    let mut wait = self.tasks[i].wait.unwrap();
                    wait.left = wait.left.map(|ticks| ticks - 1);
                    self.tasks[i].wait = Some(wait);
                    if wait.left == Some(0) {
                        let outcome = if wait.object == Object::Time { 0 } else { 20 };
                        self.end_wait(i, outcome, woken);
                    }
                }
            }
            Level(i) => return (0, self.tasks[i as usize].level as u32),
            Outcome(i) => return (0, self.tasks[i as usize].outcome as u32),
            Queue(w, d, owner) => {
                let (width, depth, owner) = (w as usize, d as usize, owner.map(|i| i as usize));
                self.queues.push(self::Queue { width, depth, owner, messages: Vec::new() });
                return (0, self.queues.len() as u32 - 1);
            }
            // "A message goes to the best waiting receiver, else to the tail"; where
            // there is no room the caller waits with it
            Send(q, t, message) => {
                let (q, words) = (q as usize, message.words().to_vec());
                if let Some(i) = self.best_waiter(Object::Message(q)) {
                    self.hold_words(i, &words);
                    self.end_wait(i, 0, woken);
                } else if self.queues[q].is_full() {
                    let (links, _) = self.chain(self.queues[q].owner);
                    self.hold_words(self.running.unwrap(), &words);
                    self.begin_wait(Object::Room(q), t);
                    return (1, links);
                } else {
                    self.queues[q].messages.push(words);
                }
            }
            // "a receive that makes room takes in the best waiting sender's message"
            Receive(q, t) => {
                let q = q as usize;
                if self.queues[q].messages.is_empty() {
                    self.begin_wait(Object::Message(q), t);
                    return (1, 0);
                }
                let oldest = self.queues[q].messages.remove(0);
                if let Some(i) = self.best_waiter(Object::Room(q)) {
                    let sent = self.tasks[i].words[..self.queues[q].width].to_vec();
                    self.queues[q].messages.push(sent);
                    self.end_wait(i, 0, woken);
                }
                self.hold_words(self.running.unwrap(), &oldest);
            }
            Word(i, n) => return (0, self.tasks[i as usize].words[n as usize]),
        }
        (0, 0)
    }

    /// "those it waits to send or those it last received, the rest 0"
    fn hold_words(&mut self, i: usize, words: &[u32]) {
        self.tasks[i].words = [0; WORDS];
        self.tasks[i].words[..words.len()].copy_from_slice(words);
    }

    /// "A task that begins to wait gets outcome 1."
    fn begin_wait(&mut self, object: Object, t: u32) {
        let i = self.running.take().unwrap();
        let left = if t == FOREVER { None } else { Some(t) };
        self.tasks[i].wait = Some(Wait { object, left });
        self.tasks[i].outcome = 1;
        self.waiting.push(i);
    }

    fn end_wait(&mut self, i: usize, outcome: u8, woken: &mut Vec<usize>) {
        self.waiting.retain(|&j| j != i);
        self.tasks[i].wait = None;
        self.tasks[i].outcome = outcome;
        woken.push(i);
    }

    fn waits_for(&self, i: usize, object: Object) -> bool {
        matches!(self.tasks[i].wait, Some(wait) if wait.object == object)
    }

    /// "The best waiter is the first found going through levels 0 to 31 and, in a
    /// level, oldest wait first."
    fn best_waiter(&self, object: Object) -> Option<usize> {
        for level in 0..=31 {
            for &i in &self.waiting {
                if self.tasks[i].level == level && self.waits_for(i, object) {
                    return Some(i);
                }
            }
        }
        None
    }

    /// The chain of a mutex or queue with this owner, seen from the caller: "Its owner,
    /// then the owner of the mutex for which that task waits, and so on, plain mutexes
    /// counted too. It ends at a task that waits for no mutex, or before the caller."
    /// A sender's wait on an owned queue is read "as one on an inheriting mutex". Gives
    /// its length and whether the caller ended it, so that a wait would close a ring.
    fn chain(&self, owner: Option<usize>) -> (u32, bool) {
        let mut links = 0;
        let mut next = owner;
        while let Some(i) = next {
            if self.running == Some(i) {
                return (links, true);
            }
            links += 1;
            next = self.tasks[i].wait.and_then(|wait| self.owner_of(wait.object));
        }
        (links, false)
    }

    /// The task that stands between a waiter and what it waits for, if any.
    pub fn owner_of(&self, object: Object) -> Option<usize> {
        match object {
            Object::Mutex(m) => self.mutexes[m].owner,
            Object::Room(q) => self.queues[q].owner,
            Object::Semaphore(_) | Object::Time | Object::Message(_) => None,
        }
    }

    /// "A task's level is the smallest of its own priority and the levels of all
    /// tasks waiting on inheriting mutexes that it owns", and of those waiting to send
    /// to queues that it owns. Every waiter hands its level to the owner; a level
    /// passes along a chain of at most 15 links, so sixteen rounds are enough.
    fn levels(&self) -> Vec<u8> {
        let mut levels: Vec<u8> = self.tasks.iter().map(|task| task.priority).collect();
        for _ in 0..TASKS {
            for (i, task) in self.tasks.iter().enumerate() {
                let Some(Wait { object, .. }) = task.wait else { continue };
                if matches!(object, Object::Mutex(m) if !self.mutexes[m].inheriting) {
                    continue;
                }
                if let Some(owner) = self.owner_of(object) {
                    levels[owner] = levels[owner].min(levels[i]);
                }
            }
        }
        levels
    }

    /// "levels are as defined; ready tasks whose level changed go, by ascending
    /// id, to the tail of their new level; newly ready tasks go [..] to the tail of
    /// theirs": not by id, but "in the order in which their waits began" (K3).
    fn settle(&mut self, woken: Vec<usize>) {
        let levels = self.levels();
        let is_changed = |&i: &usize| self.tasks[i].level != levels[i];
        let (mut changed, rest): (Vec<usize>, Vec<usize>) =
            self.ready.iter().partition(|i| is_changed(i));
        self.ready = rest;
        for (task, level) in self.tasks.iter_mut().zip(levels) {
            task.level = level;
        }
        changed.sort();
        for i in changed.into_iter().chain(woken) {
            // Before the first that is less urgent: the tail of its level.
            let level = self.tasks[i].level;
            let less_urgent = |&j: &usize| self.tasks[j].level > level;
            let place = self.ready.iter().position(less_urgent).unwrap_or(self.ready.len());
            self.ready.insert(place, i);
        }
    }

    /// "Then, once started, if nobody runs, the first ready task runs. If hold is
    /// 0 and the first ready task is strictly more urgent than the running one,
    /// they change places and the displaced task goes to the head of its level."
    fn dispatch(&mut self) {
        if !self.started || self.ready.is_empty() {
            return;
        }
        let Some(old) = self.running else {
            self.running = Some(self.ready.remove(0));
            return;
        };
        let level = self.tasks[old].level;
        if self.hold == 0 && self.tasks[self.ready[0]].level < level {
            self.running = Some(self.ready.remove(0));
            // Before the first that is no more urgent: the head of its level.
            let no_more_urgent = |&j: &usize| self.tasks[j].level >= level;
            let place = self.ready.iter().position(no_more_urgent).unwrap_or(self.ready.len());
            self.ready.insert(place, old);
        }
    }
}
