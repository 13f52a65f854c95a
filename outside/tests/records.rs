//! Records: their layout, what is sound, and steps on them along random runs.

use outside::kernel::*;
use outside::random::{self, Random};
use outside::record::*;
use outside::script::{self, line_on_record, line_on_state, log_line, BLOCK};
use std::mem::{offset_of, size_of};

fn after(steps: &[Step]) -> State {
    steps.iter().fold(State::default(), |state, &s| {
        let (next, answer) = state.step(s, BLOCK);
        assert!(answer.number <= 1, "{s:?}: {answer:?}");
        next
    })
}

/// Task 1 runs and owns mutex 0, for which task 0 waits, timed; task 2 sleeps; task 3
/// waits for semaphore 0 for ever; 4 and 5 are ready; mutex 1 is free.
fn busy() -> State {
    use Step::*;
    let made = [Task(9), Task(5), Task(2), Task(6), Task(20), Task(20)];
    let rest = [Mutex(1), Mutex(0), Sem(0, 3), Sem(2, 3), Start];
    let waits = [Sleep(50), Lock(0, 0), Sleep(1), Pend(0, FOREVER), Lock(0, 9), Tick];
    let state = after(&[&made[..], &rest, &waits].concat());
    assert_eq!((state.running, &state.ready[..]), (Some(1), &[4, 5][..]));
    assert_eq!(state.waiting, [2, 3, 0]);
    state
}

fn send(queue: u32, time: u32, words: &[u32]) -> Step {
    Step::Send(queue, time, Message::new(words).unwrap())
}

/// Task 1 runs; task 0 owns queue 0, which is full, and waits to send to queue 1, which is
/// full too and has no owner; task 2 waits to send to queue 0; task 3 waits to receive from
/// queue 2, which it owns and which is empty, as queue 3 is.
fn sending() -> State {
    use Step::*;
    let made = [Task(3), Task(9), Task(2), Task(1)];
    let queues = [Queue(2, 2, Some(0)), Queue(1, 1, None), Queue(1, 1, Some(3)), Queue(1, 1, None)];
    let waits =
        [Receive(2, FOREVER), send(0, 0, &[1, 2]), send(0, 0, &[3, 4]), send(0, 50, &[5, 6])];
    let more = [send(1, 0, &[7]), send(1, FOREVER, &[8])];
    let state = after(&[&made[..], &queues, &[Start], &waits, &more].concat());
    assert_eq!((state.running, &state.waiting[..]), (Some(1), &[3, 2, 0][..]));
    assert_eq!(state.tasks[0].level, 2);
    state
}

/// The record of a state whose queues begin at the first place of their rings, and the block.
fn kept(state: &State) -> (Kept, Vec<u32>) {
    let mut block = vec![0; BLOCK];
    (to_record(state, [0; 8], &mut block), block)
}

/// Random runs; half of them have their clock set shortly before its wrap.
fn runs(count: u64, steps: usize, mut check: impl FnMut(&mut Random, &State)) {
    for seed in 0..count {
        let (mut random, mut state, mut set) = (Random(seed), State::default(), seed % 2 == 0);
        for _ in 0..steps {
            check(&mut random, &state);
            state = state.step(random::step(&mut random, &state), BLOCK).0;
            if state.started && !set {
                state.clock = u32::MAX - random.below(20) as u32;
                set = true;
            }
        }
    }
}

#[test]
fn layout() {
    assert_eq!((size_of::<Tasks>(), size_of::<Semaphores>()), (164, 68));
    assert_eq!((size_of::<Mutexes>(), size_of::<Queues>(), size_of::<TaskList>()), (17, 41, 17));
    assert_eq!((size_of::<Record>(), size_of::<Kept>()), (332, 844));
    assert_eq!((offset_of!(Record, semaphores), offset_of!(Record, clock)), (164, 232));
    assert_eq!((offset_of!(Record, mutexes), offset_of!(Record, queues)), (236, 253));
    assert_eq!((offset_of!(Record, ready), offset_of!(Record, waiting)), (294, 311));
    assert_eq!((offset_of!(Record, running), offset_of!(Kept, words)), (330, 332));
}

#[test]
fn sound_records() {
    assert_eq!(kept(&State::default()).0, fresh());
    assert!(is_sound(&fresh(), 0) && is_sound(&kept(&busy()).0, 0));
    // Queues of 4, 1, 1 and 1 words.
    let (sending, _) = kept(&sending());
    assert!(is_sound(&sending, 7) && !is_sound(&sending, 6));
}

#[test]
fn damaged_records_are_not_sound() {
    let in_set_up: [fn(&mut Record); 10] = [
        |r| r.clock = 1,
        |r| r.hold = 1,
        |r| r.running = 0,
        |r| r.started = 2,
        |r| r.ready.ids[..3].copy_from_slice(&[1, 0, 2]), // equal levels not by id
        |r| r.ready.ids[..3].copy_from_slice(&[2, 0, 1]), // not ascending
        |r| r.ready.ids[..3].copy_from_slice(&[0, 1, 1]),
        |r| (r.ready.ids[2], r.ready.n) = (NONE, 2),
        |r| r.mutexes.owner[0] = 0,
        |r| r.tasks.outcome[0] = 20,
    ];
    let made = [Step::Task(3), Step::Task(3), Step::Task(4), Step::Mutex(0), Step::Sem(0, 1)];
    let started: [fn(&mut Record); 49] = [
        |r| r.tasks.n = 17,
        |r| r.tasks.n = 5,
        |r| r.mutexes.n = 9,
        |r| r.mutexes.n = 0,
        |r| r.semaphores.n = 9,
        |r| r.semaphores.n = 0,
        |r| r.ready.n = 17,
        |r| r.ready.n = 3,
        |r| r.waiting.n = 2,
        |r| r.started = 0,
        |r| r.started = 2,
        |r| r.running = 6,
        |r| r.running = 0,
        |r| r.running = NONE,                     // with tasks ready
        |r| (r.running, r.ready.ids[0]) = (4, 1), // ready more urgent than running
        |r| r.ready.ids[5] = 0,
        |r| r.waiting.ids[15] = 0,
        |r| r.ready.ids[1] = 4,
        |r| r.waiting.ids[2] = 2,
        |r| (r.ready.ids[2], r.ready.n) = (0, 3), // both ready and waiting
        |r| r.tasks.priority[0] = 32,
        |r| r.tasks.priority[15] = 1,
        |r| r.tasks.level[15] = 1,
        |r| r.tasks.due[15] = 1,
        |r| r.tasks.level[1] = 6,
        |r| r.tasks.priority[0] = 1, // would lift task 1
        |r| r.tasks.outcome[0] = 0,
        |r| r.tasks.outcome[1] = 1,
        |r| r.tasks.outcome[1] = 2,
        |r| r.tasks.outcome[6] = 20,
        |r| r.tasks.wait[0] = 0,
        |r| r.tasks.wait[0] = 4, // there are no queues
        |r| r.tasks.wait[0] = 6,
        |r| r.tasks.wait[4] = 3,
        |r| r.tasks.object[0] = 1, // a free mutex
        |r| r.tasks.object[0] = 2, // none such
        |r| r.tasks.object[3] = 1, // a semaphore with credits
        |r| r.tasks.object[2] = 1, // a sleep has no object
        |r| r.tasks.timed[0] = 2,
        |r| (r.tasks.timed[2], r.tasks.due[2]) = (0, 0), // a sleep for ever
        |r| r.tasks.due[3] = 5,                          // not timed
        |r| r.tasks.due[2] = r.clock,                    // no tick left
        |r| r.tasks.due[2] = r.clock + LONGEST + 1,
        |r| r.mutexes.owner[1] = 6,
        |r| r.mutexes.owner[0] = 0, // a ring of one
        |r| r.mutexes.kind[1] = 2,
        |r| r.mutexes.owner[7] = 0,
        |r| r.semaphores.count[1] = 4,
        |r| r.semaphores.maximum[0] = 0,
    ];
    let with_queues: [fn(&mut Record); 28] = [
        |r| r.queues.n = 9,
        |r| r.queues.n = 5,
        |r| r.queues.n = 3,
        |r| r.queues.width[3] = 3,
        |r| r.queues.width[3] = 0,
        |r| r.queues.depth[3] = 0,
        |r| r.queues.depth[3] = 65,
        |r| r.queues.owner[3] = 4,
        |r| r.queues.oldest[3] = 1,
        |r| r.queues.used[3] = 2,
        |r| r.queues.width[7] = 1,
        |r| r.queues.depth[7] = 1,
        |r| r.queues.owner[7] = 0,
        |r| r.queues.oldest[7] = 1,
        |r| r.queues.used[7] = 1,
        |r| r.queues.used[0] = 1,  // room for a waiting sender
        |r| r.queues.used[1] = 0,  // the same, without owner
        |r| r.queues.used[2] = 1,  // a message for a waiting receiver
        |r| r.queues.owner[2] = 0, // another than the owner waits to receive
        |r| r.queues.owner[0] = 1, // other levels
        |r| r.queues.owner[0] = 2, // a ring of one
        |r| r.queues.owner[1] = 2, // a ring of two
        |r| r.queues.width[0] = 1, // a waiting sender's second word
        |r| r.tasks.object[0] = 4, // none such
        |r| r.tasks.object[0] = 2, // one with room
        |r| r.tasks.object[3] = 0, // one with messages, and of another owner
        |r| r.tasks.wait[2] = 5,   // one with messages
        |r| r.tasks.wait[3] = 4,   // one with room
    ];
    let states =
        [(after(&made), &in_set_up[..]), (busy(), &started[..]), (sending(), &with_queues)];
    for (state, damages) in states {
        for (at, damage) in damages.iter().enumerate() {
            let (mut kept, mut block) = kept(&state);
            assert!(is_sound(&kept, BLOCK));
            damage(&mut kept.record);
            is_refused(&kept, &mut block, at);
        }
    }
    // A ring of two: task 1 waits for mutex 1 of task 0, which waits for mutex 0.
    let mut waiting = kept(&busy()).0;
    let r = &mut waiting.record;
    (r.tasks.wait[1], r.tasks.object[1], r.tasks.outcome[1]) = (1, 1, 1);
    (r.waiting.ids[3], r.waiting.n) = (1, 4);
    (r.ready.ids[0], r.ready.ids[1], r.ready.n, r.running) = (5, NONE, 1, 4);
    r.mutexes.owner[1] = 2;
    assert!(is_sound(&waiting, 0));
    waiting.record.mutexes.owner[1] = 0;
    assert!(!is_sound(&waiting, 0));
    // Nobody runs: sound, but not with hold above 0.
    let mut idle = kept(&after(&[Step::Start])).0;
    assert!(is_sound(&idle, 0));
    idle.record.hold = 1;
    assert!(!is_sound(&idle, 0));
}

/// 15, whatever the step; record, words and block stay.
fn is_refused(damaged: &Kept, block: &mut [u32], which: usize) {
    assert!(!is_sound(damaged, block.len()), "damage {which}");
    let (answer, before) = (Answer { number: 15, value: 0, run: None }, block.to_vec());
    assert_eq!(step(damaged, Step::Tick, block), (damaged.clone(), answer));
    assert_eq!(block, before);
}

/// Which words a task may hold: in set-up none, a waiting sender those of its message, a task
/// that isn't there none, any other all.
#[test]
fn damaged_words_are_not_sound() {
    let set_up = after(&[Step::Task(3), Step::Queue(1, 2, Some(0))]);
    for (state, at, word, sound) in [
        (&set_up, 0, 0, false),
        (&set_up, 1, 7, false),
        (&sending(), 0, 0, true),
        (&sending(), 0, 1, false),
        (&sending(), 2, 1, true),
        (&sending(), 2, 2, false),
        (&sending(), 2, 7, false),
        (&sending(), 1, 7, true),
        (&sending(), 3, 7, true),
        (&sending(), 4, 0, false),
        (&sending(), 15, 7, false),
    ] {
        let (mut kept, mut block) = kept(state);
        kept.words[at][word] = 9;
        assert_eq!(is_sound(&kept, BLOCK), sound, "word {word} of task {at}");
        if !sound {
            is_refused(&kept, &mut block, at);
        }
    }
    // In set-up a queue has no message, but its ring may begin anywhere.
    let mut kept = kept(&set_up).0;
    kept.record.queues.oldest[0] = 1;
    assert!(is_sound(&kept, 2));
    kept.record.queues.used[0] = 1;
    assert!(!is_sound(&kept, 2));
}

/// Messages go round the ring: each accepted step changes the one place that its message goes
/// to, or none, and all that is behind the queues stays.
#[test]
fn messages_stand_in_their_ring() {
    use Step::*;
    let state = after(&[Task(5), Task(5), Queue(1, 3, None), Queue(2, 2, None), Start]);
    let mut block = vec![99; 9];
    let mut kept = to_record(&state, [0; 8], &mut block);
    for (s, wanted, places) in [
        (send(1, 0, &[1, 2]), [1, 2, 99, 99], (0, 1)),
        (send(1, 0, &[3, 4]), [1, 2, 3, 4], (0, 2)),
        (send(1, 9, &[5, 6]), [1, 2, 3, 4], (0, 2)), // it waits
        (Receive(1, 0), [5, 6, 3, 4], (1, 2)),       // and is taken in
        (Receive(1, 0), [5, 6, 3, 4], (0, 1)),
        (Receive(1, 0), [5, 6, 3, 4], (1, 0)),
        (Receive(1, 9), [5, 6, 3, 4], (1, 0)), // waits, and the next message goes past the ring
        (send(1, 0, &[7, 8]), [5, 6, 3, 4], (1, 0)),
        (send(1, 0, &[9, 0]), [5, 6, 9, 0], (1, 1)),
        (send(1, 0, &[1, 1]), [1, 1, 9, 0], (1, 2)),
    ] {
        let (next, answer) = step(&kept, s, &mut block);
        assert!(answer.number <= 1, "{s:?}: {answer:?}");
        assert_eq!(block[3..7], wanted, "{s:?}");
        assert_eq!((next.record.queues.oldest[1], next.record.queues.used[1]), places, "{s:?}");
        kept = next;
    }
    assert_eq!((&block[..3], &block[7..]), (&[99; 3][..], &[99; 2][..]));
}

/// "8 when table or block lacks room at creation", and 15 where the block has become shorter.
#[test]
fn the_block_has_room_or_has_not() {
    let mut block = vec![0; 7];
    let mut kept = fresh();
    for (width, number) in [(2, 0), (4, 0), (2, 8), (1, 0), (1, 8)] {
        let (next, answer) = step(&kept, Step::Queue(width, 1, None), &mut block);
        assert_eq!(answer.number, number);
        kept = next;
    }
    assert_eq!(step(&kept, Step::Start, &mut block[..7]).1.number, 0);
    assert_eq!(step(&kept, Step::Start, &mut block[..6]).1.number, 15);
}

#[test]
fn records_follow_states() {
    runs(400, 300, |random, state| {
        // The rings begin anywhere, and what is no message is anything.
        let mut block: Vec<u32> = (0..BLOCK).map(|_| random.next() as u32).collect();
        let mut oldest = [0; 8];
        for (oldest, queue) in oldest.iter_mut().zip(&state.queues) {
            *oldest = random.below(queue.depth) as u8;
        }
        let kept = to_record(state, oldest, &mut block);
        assert!(is_sound(&kept, BLOCK), "{kept:?}");
        assert_eq!(&from_record(&kept, &block), state);
        let s = random::step(random, state);
        let (next, answer) = state.step(s, BLOCK);
        assert_eq!(next == *state || answer.number <= 1, true);
        let mut stepped = block.clone();
        let (after, same) = step(&kept, s, &mut stepped);
        assert_eq!((from_record(&after, &stepped), same), (next.clone(), answer));
        assert!(is_sound(&after, BLOCK));
        changes_one_place(&kept.record, s, &block, &stepped);
        // The same through a line and lent memory, with and without room.
        let line = script::text(s);
        assert_eq!(line_on_state(state, line.as_bytes()), (next, answer));
        let log = log_line(answer);
        let mut memory = vec![7; random.below(log.len())];
        let no_room = (kept.clone(), Answer { number: 8, value: 0, run: state.running }, 0);
        let before = block.clone();
        assert_eq!(line_on_record(&kept, line.as_bytes(), &mut block, &mut memory), no_room);
        assert!(block == before && memory.iter().all(|&byte| byte == 7));
        let mut memory = vec![7; log.len() + 3];
        let made = line_on_record(&kept, line.as_bytes(), &mut block, &mut memory);
        assert_eq!((made, block), ((after, answer, log.len()), stepped));
        assert_eq!(memory, [log.as_bytes(), &[7; 3]].concat());
    });
}

/// "In the block, nothing outside the queue's own words changes": and of those one message's
/// words at most.
fn changes_one_place(r: &Record, s: Step, before: &[u32], after: &[u32]) {
    let changed: Vec<usize> = (0..before.len()).filter(|&at| before[at] != after[at]).collect();
    let Some(&first) = changed.first() else { return };
    let (Step::Send(q, ..) | Step::Receive(q, _)) = s else { panic!("{s:?} changed the block") };
    let size = |q: usize| r.queues.width[q] as usize * r.queues.depth[q] as usize;
    let start: usize = (0..q as usize).map(size).sum();
    let width = r.queues.width[q as usize] as usize;
    let place = (first - start) / width;
    assert!(first >= start && place < r.queues.depth[q as usize] as usize, "{s:?}");
    assert!(changed.iter().all(|&at| (at - start) / width == place), "{s:?}");
}

fn bytes(r: &mut Record) -> Vec<&mut u8> {
    let (t, m, q) = (&mut r.tasks, &mut r.mutexes, &mut r.queues);
    let mut all = vec![&mut t.n, &mut m.n, &mut r.semaphores.n, &mut r.ready.n, &mut r.waiting.n];
    all.extend([&mut r.started, &mut r.hold, &mut r.running, &mut q.n]);
    for column in [&mut t.priority, &mut t.level, &mut t.outcome, &mut t.wait, &mut t.object] {
        all.extend(column);
    }
    all.extend(t.timed.iter_mut().chain(&mut r.ready.ids).chain(&mut r.waiting.ids));
    all.extend(m.kind.iter_mut().chain(&mut m.owner));
    for column in [&mut q.width, &mut q.depth, &mut q.owner, &mut q.oldest, &mut q.used] {
        all.extend(column);
    }
    all
}

#[test]
fn changed_records_are_refused_or_step_soundly() {
    let (mut sound, mut unsound) = (0, 0);
    runs(200, 300, |random, state| {
        let (mut changed, mut block) = kept(state);
        for _ in 0..1 + random.below(3) {
            let value = [0, 1, 2, 3, 4, 5, 20, 21, 31, 255, random.next() as u8][random.below(11)];
            let mut places = bytes(&mut changed.record);
            let at = random.below(places.len());
            *places[at] = value;
            let (word, at) = (random.next() as u32 >> random.below(32), random.below(8));
            match random.below(40) {
                0 => changed.record.clock = word,
                1 => changed.record.tasks.due[at] = word,
                2 => changed.record.semaphores.count[at] = word,
                3 => changed.record.semaphores.maximum[at] = word,
                4 => changed.words[random.below(16)][at] = word,
                _ => {}
            }
        }
        let s = random::step(random, state);
        let before = block.clone();
        let (next, answer) = step(&changed, s, &mut block);
        if is_sound(&changed, BLOCK) {
            sound += 1;
            let (state, oldest) = (from_record(&changed, &before), changed.record.queues.oldest);
            assert_eq!(to_record(&state, oldest, &mut before.clone()), changed);
            assert!(is_sound(&next, BLOCK) && answer.number != 15, "{changed:?} {s:?}");
        } else {
            unsound += 1;
            let none = |number| (changed.clone(), Answer { number, value: 0, run: None });
            assert_eq!((next, answer), none(15));
            let (same, answer, _) = line_on_record(&changed, b"tick ", &mut block, &mut [0; 9]);
            assert_eq!((same, answer), none(14));
            let (same, answer, _) = line_on_record(&changed, b"tick", &mut block, &mut [0; 6]);
            assert_eq!((same, answer), none(8));
            assert_eq!(block, before);
        }
    });
    println!("{sound} sound, {unsound} not");
    assert!(sound > 1000 && unsound > 1000);
}

/// P9: "clock 4294967294, sleep 3: ends when the clock is 1".
#[test]
fn a_sleep_across_the_wrap() {
    let mut state = after(&[Step::Task(1), Step::Start]);
    state.clock = 4_294_967_294;
    let mut asleep = step(&kept(&state).0, Step::Sleep(3), &mut []).0;
    for (clock, running) in [(u32::MAX, NONE), (0, NONE), (1, 0)] {
        asleep = step(&asleep, Step::Tick, &mut []).0;
        assert_eq!((asleep.record.clock, asleep.record.running), (clock, running));
    }
}

/// Random scripts come to every answer that a script can come to, and to long chains, by
/// queues too.
#[test]
fn random_scripts_reach_every_answer() {
    let (mut seen, mut by_lock, mut by_send) = ([0; 16], 0, 0);
    for seed in 0..200 {
        let mut state = State::default();
        for line in random::script(seed, 500).split(|&byte| byte == b'\n').skip(1) {
            let (next, answer) = line_on_state(&state, line);
            seen[answer.number as usize] += 1;
            if line.starts_with(b"lock") {
                by_lock = by_lock.max(answer.value);
            } else if line.starts_with(b"send") {
                by_send = by_send.max(answer.value);
            }
            state = next;
        }
    }
    println!("answers 0 to 15: {seen:?}; links up to {by_lock} by lock, {by_send} by send");
    assert!(seen[..15].iter().all(|&times| times > 0) && by_lock >= 4 && by_send >= 3);
}
