//! Lines per second of programs that read a script and write a log: the proved one, the plain one and the lean one.

use crate::loads;
use outside::script::text;
use std::fs::{self, File};
use std::io::{self, Error};
use std::path::Path;
use std::process::{Command, Stdio};
use std::time::{Duration, Instant};

/// How many lines a script has after set-up, and how often each program runs on it, in turn with the others.
const LINES: usize = 200_000;
const TURNS: usize = 7;

pub fn table(programs: [&str; 3], folder: &Path) -> io::Result<()> {
    print!("| load | tasks | program / lean | program / plain ");
    println!("| program, lines a second | plain, lines a second | lean, lines a second |");
    println!("|---|---|---|---|---|---|---|");
    for load in loads::NAMES {
        for tasks in [1, 4, 16] {
            let script = folder.join("script.txt");
            let count = write_script(&script, load, tasks)?;
            let times = quickest(programs, &script, folder)
                .map_err(|error| Error::other(format!("{load}, {tasks} tasks: {error}")))?;
            let [program, plain, lean] = times.map(|time| time.as_secs_f64());
            print!("| {load} | {tasks} | {:.1} | {:.1} ", program / lean, program / plain);
            let [program, plain, lean] = [program, plain, lean].map(|time| count as f64 / time);
            println!("| {program:.0} | {plain:.0} | {lean:.0} |");
        }
    }
    Ok(())
}

/// Writes the load as a script, and gives the number of its lines.
fn write_script(file: &Path, load: &str, tasks: usize) -> io::Result<usize> {
    let steps = loads::steps(load, tasks, LINES);
    let mut script = "kernel\t1\n".to_string();
    for &s in &steps {
        script.push_str(&text(s));
        script.push('\n');
    }
    fs::write(file, script)?;
    Ok(steps.len())
}

/// The quickest run of each program. Their logs must be the same.
fn quickest(programs: [&str; 3], script: &Path, folder: &Path) -> io::Result<[Duration; 3]> {
    let mut times = [Duration::MAX; 3];
    let log = |i: usize| folder.join(format!("{}.log", ["program", "plain", "lean"][i]));
    for turn in 0..3 * TURNS {
        let i = turn % 3;
        times[i] = times[i].min(run(programs[i], script, &log(i))?);
    }
    let logs = [fs::read(log(0))?, fs::read(log(1))?, fs::read(log(2))?];
    if logs[0] != logs[1] || logs[0] != logs[2] {
        return Err(Error::other("the logs differ"));
    }
    Ok(times)
}

/// How long one run takes, the start of the process included.
fn run(program: &str, script: &Path, log: &Path) -> io::Result<Duration> {
    let (input, output) = (File::open(script)?, File::create(log)?);
    let start = Instant::now();
    let status =
        Command::new(program).stdin(Stdio::from(input)).stdout(Stdio::from(output)).status()?;
    let time = start.elapsed();
    if !status.success() {
        return Err(Error::other(format!("{program} ended with {status}")));
    }
    Ok(time)
}
