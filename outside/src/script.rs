//! The script reader and the log writer.

use crate::kernel::{Answer, Message, State, Step};
use crate::record::{is_sound, step, Kept, NONE};
use std::io::{self, Read, Write};

/// "Lines over 80 bytes without the LF ... are answered 14"; "Script lines may now
/// have 160 bytes."
pub const LONGEST_LINE: usize = 160;

/// "scripts are run with a block of 4096 words"
pub const BLOCK: usize = 4096;

/// Reads lines byte by byte; of an over-long one only 161 bytes are kept, enough
/// to know it by.
pub struct Lines<R: Read> {
    bytes: io::Bytes<R>,
}

impl<R: Read> Lines<R> {
    pub fn new(input: R) -> Self {
        Lines { bytes: input.bytes() }
    }

    /// "Lines end with LF; a last line without LF counts, and nothing follows a
    /// final LF."
    pub fn next_line(&mut self) -> io::Result<Option<Vec<u8>>> {
        let mut line = Vec::new();
        let mut any = false;
        for byte in self.bytes.by_ref() {
            any = true;
            match byte? {
                b'\n' => return Ok(Some(line)),
                _ if line.len() > LONGEST_LINE => {}
                byte => line.push(byte),
            }
        }
        Ok(if any { Some(line) } else { None })
    }
}

/// "decimal, no sign, no needless leading zero, at most 4294967295"
fn number(field: &[u8]) -> Option<u32> {
    let needless_zero = field.len() > 1 && field[0] == b'0';
    if field.is_empty() || needless_zero || !field.iter().all(u8::is_ascii_digit) {
        return None;
    }
    std::str::from_utf8(field).ok()?.parse().ok()
}

/// "Fields are parted by one tab." A line is "a step's name above and its
/// numbers"; none for a line that isn't.
pub fn parse(line: &[u8]) -> Option<Step> {
    if line.len() > LONGEST_LINE {
        return None;
    }
    let mut fields = line.split(|&byte| byte == b'\t');
    let name = fields.next()?;
    let numbers = fields.map(number).collect::<Option<Vec<u32>>>()?;
    Some(match (name, numbers.as_slice()) {
        (b"task", &[p]) => Step::Task(p),
        (b"mutex", &[k]) => Step::Mutex(k),
        (b"sem", &[count, max]) => Step::Sem(count, max),
        (b"start", &[]) => Step::Start,
        (b"lock", &[m, t]) => Step::Lock(m, t),
        (b"unlock", &[m]) => Step::Unlock(m),
        (b"pend", &[s, t]) => Step::Pend(s, t),
        (b"post", &[s]) => Step::Post(s),
        (b"flush", &[s]) => Step::Flush(s),
        (b"sleep", &[t]) => Step::Sleep(t),
        (b"yield", &[]) => Step::Yield,
        (b"hold", &[]) => Step::Hold,
        (b"free", &[]) => Step::Free,
        (b"tick", &[]) => Step::Tick,
        (b"level", &[i]) => Step::Level(i),
        (b"outcome", &[i]) => Step::Outcome(i),
        (b"queue", &[w, d]) => Step::Queue(w, d, None),
        (b"queue", &[w, d, owner]) => Step::Queue(w, d, Some(owner)),
        (b"send", &[q, t, ref words @ ..]) => Step::Send(q, t, Message::new(words)?),
        (b"receive", &[q, t]) => Step::Receive(q, t),
        (b"word", &[i, n]) => Step::Word(i, n),
        _ => return None,
    })
}

/// The line of a step, without LF: what `parse` reads.
pub fn text(s: Step) -> String {
    let (name, numbers) = match s {
        Step::Task(p) => ("task", vec![p]),
        Step::Mutex(k) => ("mutex", vec![k]),
        Step::Sem(count, max) => ("sem", vec![count, max]),
        Step::Start => ("start", vec![]),
        Step::Lock(m, t) => ("lock", vec![m, t]),
        Step::Unlock(m) => ("unlock", vec![m]),
        Step::Pend(s, t) => ("pend", vec![s, t]),
        Step::Post(s) => ("post", vec![s]),
        Step::Flush(s) => ("flush", vec![s]),
        Step::Sleep(t) => ("sleep", vec![t]),
        Step::Yield => ("yield", vec![]),
        Step::Hold => ("hold", vec![]),
        Step::Free => ("free", vec![]),
        Step::Tick => ("tick", vec![]),
        Step::Level(i) => ("level", vec![i]),
        Step::Outcome(i) => ("outcome", vec![i]),
        Step::Queue(w, d, owner) => ("queue", [w, d].into_iter().chain(owner).collect()),
        Step::Send(q, t, message) => ("send", [&[q, t], message.words()].concat()),
        Step::Receive(q, t) => ("receive", vec![q, t]),
        Step::Word(i, n) => ("word", vec![i, n]),
    };
    numbers.into_iter().fold(name.to_string(), |line, number| format!("{line}\t{number}"))
}

/// "one line for each script line: answer, value, running task or `-`"
pub fn log_line(answer: Answer) -> String {
    let run = answer.run.map_or("-".to_string(), |i| i.to_string());
    format!("{}\t{}\t{}\n", answer.number, answer.value, run)
}

/// A script line on a state: the step, or 14 with "the running one as it stands".
pub fn line_on_state(state: &State, line: &[u8]) -> (State, Answer) {
    match parse(line) {
        Some(s) => state.step(s, BLOCK),
        None => (state.clone(), Answer { number: 14, value: 0, run: state.running }),
    }
}

/// A script line on a record and a block, its log line written into lent memory. Gives
/// the bytes written, 0 with the log's 8: "if the line that would report the answer,
/// accepted or not, its LF included, is longer than the lent memory, the answer
/// is 8, value 0, and the step isn't made". "where the state handed in isn't
/// sound, [the task to run] is none, with 14, 15 and 8 alike".
pub fn line_on_record(
    kept: &Kept,
    line: &[u8],
    block: &mut [u32],
    memory: &mut [u8],
) -> (Kept, Answer, usize) {
    let running = Some(kept.record.running).filter(|&i| i != NONE).map(usize::from);
    let run = if is_sound(kept, block.len()) { running } else { None };
    let mut after = block.to_vec();
    let (next, answer) = match parse(line) {
        Some(s) => step(kept, s, &mut after),
        None => (kept.clone(), Answer { number: 14, value: 0, run }),
    };
    let line = log_line(answer);
    if line.len() > memory.len() {
        return (kept.clone(), Answer { number: 8, value: 0, run }, 0);
    }
    block.copy_from_slice(&after);
    memory[..line.len()].copy_from_slice(line.as_bytes());
    (next, answer, line.len())
}

/// Replays a whole script. "The first line is `kernel`, tab, `1`; else the whole
/// log is the line `bad`, tab, `1`."
pub fn replay<R: Read, W: Write>(input: R, output: &mut W) -> io::Result<()> {
    let mut lines = Lines::new(input);
    if lines.next_line()?.as_deref() != Some(b"kernel\t1") {
        return output.write_all(b"bad\t1\n");
    }
    output.write_all(b"log\t1\n")?;
    let mut state = State::default();
    while let Some(line) = lines.next_line()? {
        let (next, answer) = line_on_state(&state, &line);
        output.write_all(log_line(answer).as_bytes())?;
        state = next;
    }
    Ok(())
}
