//! The text of --help, from the forms and names that the language has.
use crate::forms::{FORMS, MOST_TIMES};
use crate::names::REGISTERS;
use thayarqo::codes::{code_name, EV_ABS, EV_DEV, EV_KEY, EV_REL, EV_SYN};

pub const USAGE: &str = "usage: thayarqo-replay [--help | FILE]";

const HEAD: &str = "\
Runs a script of calls of a host and its guest on the proved library, from a file or from standard
input, and tells the answer of each and what the guest receives.

A line of a script is a command; # begins a comment. Empty lines and lines of comment are shown as they
are. A script that names no geometry has 1 8 68.

When the device is switched on, the guest begins afresh with the driver of the revision that the device
serves. For revision 2 it writes 2 to CLIENT_REV before; for revision 1 it leaves CLIENT_REV unset, or
writes 1 where something else was written.
";

const NUMBERS: &str = "\
Any other code is written TYPE:CODE. Numbers are decimal or, after 0x, hexadecimal; a VALUE may be
signed. A COUNT is at most";

const STATUS: &str = "\
Status: 0 every line is good, 1 a line is bad (it is named, and the others are run), 2 the arguments are
wrong, the script can't be read or the output not written. A refusal by the library is an answer like
any other.";

/// Columns of a line of names.
const WIDTH: usize = 100;

/// Names below a heading, in as many lines as they take.
fn listed(heading: &str, names: impl Iterator<Item = &'static str>) -> String {
    let mut text = format!("{heading}:\n ");
    let mut column = 1;
    for name in names {
        if column + 1 + name.len() > WIDTH {
            text.push_str("\n ");
            column = 1;
        }
        text.push(' ');
        text.push_str(name);
        column += 1 + name.len();
    }
    text + "\n"
}

fn code_names() -> impl Iterator<Item = &'static str> {
    let kinds = [EV_REL, EV_ABS, EV_KEY, EV_SYN, EV_DEV].into_iter();
    kinds.flat_map(|kind| (0..=u16::MAX).filter_map(move |code| code_name(kind, code)))
}

pub fn text() -> String {
    let commands: Vec<String> = FORMS
        .iter()
        .map(|form| {
            format!(
                "  {}\n      {}\n",
                [form.name, form.arguments].join(" ").trim_end(),
                form.says
            )
        })
        .collect();
    let registers = listed("Registers", REGISTERS.iter().map(|(name, _)| *name));
    let codes = listed("Codes", code_names());
    let commands = commands.concat();
    format!("{USAGE}\n\n{HEAD}\n{commands}\n{registers}\n{codes}\n{NUMBERS} {MOST_TIMES}.\n\n{STATUS}")
}
