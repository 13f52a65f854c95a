//! Instructions for each step, counted by callgrind, beside the times.

use crate::passes::List;
use crate::{loads, times};
use std::env;
use std::io::{self, Error, ErrorKind};
use std::process::Command;

pub fn table() -> io::Result<()> {
    if let Err(error) = Command::new("valgrind").arg("--version").output() {
        if error.kind() != ErrorKind::NotFound {
            return Err(error);
        }
        println!("valgrind isn't installed: no instructions are counted.");
        return Ok(());
    }
    print!("| load | tasks | in place / lean, instructions | in place / lean, time | in place, instructions | ns ");
    println!("| of that the test, instructions | ns | lean, instructions | ns |");
    println!("|---|---|---|---|---|---|---|---|---|---|");
    for load in loads::NAMES {
        let list = List::new(load, 16);
        let whats = ["in-place", "test", "lean"];
        let [in_place, test, lean] = times::of(&list, whats);
        let [a, b, c] = of_a_step(whats, load, list.calls.len())?;
        print!("| {load} | 16 | {:.1} | {:.1} ", a / c, in_place / lean);
        println!("| {a:.0} | {in_place:.0} | {b:.0} | {test:.0} | {c:.0} | {lean:.1} |");
    }
    Ok(())
}

/// Runs the list so many times: this is what callgrind is given.
pub fn repeat(what: &str, load: &str, times: &str) {
    let list = List::new(load, 16);
    let mut pass = list.pass(what);
    for _ in 0..times.parse().unwrap_or(0) {
        pass();
    }
}

/// A pass of each, less the calls alone, for each step.
fn of_a_step(whats: [&str; 3], load: &str, steps: usize) -> io::Result<[f64; 3]> {
    let calls = of_a_pass("nothing", load)?;
    let mut counts = [0.0; 3];
    for (count, what) in counts.iter_mut().zip(whats) {
        *count = (of_a_pass(what, load)? - calls) / steps as f64;
    }
    Ok(counts)
}

/// What two passes take more than one, so that set-up doesn't count.
fn of_a_pass(what: &str, load: &str) -> io::Result<f64> {
    Ok(count(what, load, "2")? - count(what, load, "1")?)
}

/// All instructions of a process that repeats the list so many times.
fn count(what: &str, load: &str, times: &str) -> io::Result<f64> {
    let output = Command::new("valgrind")
        .args(["--tool=callgrind", "--callgrind-out-file=/dev/null"])
        .arg(env::current_exe()?)
        .args(["--repeat", what, load, times])
        .output()?;
    let said = String::from_utf8_lossy(&output.stderr);
    let collected = said.lines().find_map(|line| line.split_once("Collected :"));
    match collected.map(|(_, number)| number.trim().parse()) {
        Some(Ok(number)) => Ok(number),
        _ => Err(Error::other(format!("callgrind does not say what it counted: {said}"))),
    }
}
