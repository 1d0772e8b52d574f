//! Compares the proved library with the model over random lists of calls.

use std::process::ExitCode;
use std::time::{SystemTime, UNIX_EPOCH};
use thayarqo_differential::{delivery, run, Library};
use thayarqo_model::Fault;

const HELP: &str = "\
usage: differential [--delivery] [--calls N] [--seed S]

Makes random lists of calls on the proved library and on the model, and compares answers, states and
every byte of every buffer after each call.

  --delivery  hold the library instead to what it promises of whole lists from a switch-on: what was
              sent is received, whole and in order, with a gap where a packet was refused for room, and
              for a guest of revision 1 without gaps. The lists have to show packets, gaps, groups of
              revision 1, an empty ring and events of the keyboard ring
  --calls N   make at least N calls (default 1000000)
  --seed S    make the lists of this seed again (default: from the clock)

Status: 0 all is as it should be, 1 a difference, a broken promise or lists that show too little, 2 the
arguments are wrong.";

struct Options {
    delivery: bool,
    calls: u64,
    seed: u64,
}

/// None asks for help.
fn options(mut words: impl Iterator<Item = String>) -> Result<Option<Options>, String> {
    let clock = SystemTime::now().duration_since(UNIX_EPOCH);
    let mut options = Options {
        delivery: false,
        calls: 1_000_000,
        seed: clock.map_or(1, |time| time.as_micros() as u64),
    };
    while let Some(word) = words.next() {
        let mut number = || {
            let text = words.next().unwrap_or_default();
            let wrong = |_| format!("{word} needs a number and has {text:?}");
            text.parse::<u64>().map_err(wrong)
        };
        match word.as_str() {
            "--help" => return Ok(None),
            "--delivery" => options.delivery = true,
            "--calls" => options.calls = number()?,
            "--seed" => options.seed = number()?,
            _ => return Err(format!("{word} is no option")),
        }
    }
    Ok(Some(options))
}

/// Prints what was found. True where all is as it should be.
fn found(options: &Options) -> bool {
    if options.delivery {
        let delivery = delivery::run(&Library, options.seed, options.calls);
        println!("{delivery}");
        delivery.is_good()
    } else {
        let report = run(options.seed, options.calls, Fault::None);
        println!("{report}");
        report.difference.is_none()
    }
}

fn main() -> ExitCode {
    match options(std::env::args().skip(1)) {
        Ok(None) => {
            println!("{HELP}");
            ExitCode::SUCCESS
        }
        Ok(Some(options)) if found(&options) => ExitCode::SUCCESS,
        Ok(Some(_)) => ExitCode::from(1),
        Err(why) => {
            eprintln!("differential: {why}\n\n{HELP}");
            ExitCode::from(2)
        }
    }
}
