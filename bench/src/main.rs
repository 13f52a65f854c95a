//! What a step costs: the proved library beside the second implementation and beside the lean kernel.
//!
//!     bench --steps
//!     bench --lines PROGRAM PLAIN LEAN FOLDER
//!     bench --instructions
//!     bench --stack
//!     bench --places
//!
//! Each prints one table. All sides are given the same steps from a fresh state. A list of steps is timed as a whole, many times
//! over, and the quickest time counts: what disturbs a run only makes it longer. With `--lines` programs are timed on
//! the same scripts, which are written to a folder. `--instructions` starts itself under callgrind, with `--repeat`.

mod depth;
mod instructions;
mod lines;
mod linked;
mod loads;
mod passes;
mod times;

use std::io::{self, Error};
use std::path::Path;

fn main() -> io::Result<()> {
    let words: Vec<String> = std::env::args().skip(1).collect();
    match words.iter().map(String::as_str).collect::<Vec<&str>>()[..] {
        ["--steps"] => Ok(times::table()),
        ["--lines", program, plain, lean, folder] => {
            lines::table([program, plain, lean], Path::new(folder))
        }
        ["--instructions"] => instructions::table(),
        ["--repeat", what, load, times] => Ok(instructions::repeat(what, load, times)),
        ["--stack"] => Ok(depth::table()),
        ["--places"] => Ok(times::places()),
        _ => Err(Error::other("one of --steps, --lines, --instructions, --stack, --places")),
    }
}
