//! `outside` replays a script from standard input to standard output.
//! `outside --random SEED LINES` writes a random script.

use std::io::{self, BufWriter, Write};
use std::process::ExitCode;

fn main() -> ExitCode {
    let words: Vec<String> = std::env::args().skip(1).collect();
    let words: Vec<&str> = words.iter().map(String::as_str).collect();
    let mut output = BufWriter::new(io::stdout().lock());
    let done = match words.as_slice() {
        [] => outside::script::replay(io::stdin().lock(), &mut output),
        ["--random", seed, lines] => match (seed.parse(), lines.parse()) {
            (Ok(seed), Ok(lines)) => output.write_all(&outside::random::script(seed, lines)),
            _ => return usage(),
        },
        _ => return usage(),
    };
    match done.and_then(|()| output.flush()) {
        Ok(()) => ExitCode::SUCCESS,
        Err(error) => {
            eprintln!("outside: {error}");
            ExitCode::FAILURE
        }
    }
}

fn usage() -> ExitCode {
    eprintln!("usage: outside <SCRIPT >LOG, or outside --random SEED LINES >SCRIPT");
    ExitCode::from(2)
}
