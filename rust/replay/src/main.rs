//! Runs a script of calls on the proved library, and tells each answer and what the guest receives.
mod command;
mod forms;
mod guest;
mod help;
mod names;
mod outcome;
mod script;
mod words;
mod world;

use script::Failure;
use std::ffi::OsString;
use std::fs::File;
use std::io::{self, BufRead, BufReader, ErrorKind, Write};
use std::process::ExitCode;

/// A line of the script is bad.
const BAD_LINE: u8 = 1;
/// The arguments are wrong, the script can't be read or the output not written.
const BAD_USAGE: u8 = 2;

fn fail(why: &str) -> ExitCode {
    eprintln!("thayarqo-replay: {why}");
    ExitCode::from(BAD_USAGE)
}

/// The name of the script is for messages.
fn run(script: impl BufRead, name: &str) -> ExitCode {
    match script::play(script, &mut io::stdout().lock()) {
        Ok(true) => ExitCode::SUCCESS,
        Ok(false) => ExitCode::from(BAD_LINE),
        // Whoever reads the output has seen enough.
        Err(Failure::Write(error)) if error.kind() == ErrorKind::BrokenPipe => ExitCode::SUCCESS,
        Err(Failure::Write(error)) => fail(&format!("standard output: {error}")),
        Err(Failure::Read(error)) => fail(&format!("{name}: {error}")),
    }
}

fn run_file(path: OsString) -> ExitCode {
    let name = path.display().to_string();
    match File::open(&path) {
        Ok(file) => run(BufReader::new(file), &name),
        Err(error) => fail(&format!("{name}: {error}")),
    }
}

fn main() -> ExitCode {
    let mut arguments = std::env::args_os().skip(1);
    match (arguments.next(), arguments.next()) {
        (None, _) => run(io::stdin().lock(), "standard input"),
        (Some(word), None) if word == "--help" => {
            // It doesn't matter whether anyone reads it to its end.
            let _ = writeln!(io::stdout(), "{}", help::text());
            ExitCode::SUCCESS
        }
        (Some(word), None) if !word.as_encoded_bytes().starts_with(b"-") => run_file(word),
        (Some(_), _) => fail(help::USAGE),
    }
}
