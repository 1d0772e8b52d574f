//! A script from its first line to its last.
use crate::forms;
use crate::world::World;
use std::io::{self, BufRead, Write};
use thayarqo::Geometry;

/// What ends a script before its last line.
#[derive(Debug)]
pub enum Failure {
    Read(io::Error),
    Write(io::Error),
}

/// Runs every line and writes what it came to. True where every line was good.
pub fn play(script: impl BufRead, out: &mut impl Write) -> Result<bool, Failure> {
    let geometry = Geometry::new(1, 8, 68).expect("the smallest sizes");
    let mut world = World::new(geometry);
    let mut all_good = true;
    for (number, line) in (1..).zip(script.split(b'\n')) {
        let line = line.map_err(Failure::Read)?;
        let line = String::from_utf8_lossy(&line).trim_end().to_string();
        let (command, _) = line.split_once('#').unwrap_or((&line, ""));
        let command = command.trim();
        let shown = if command.is_empty() {
            line
        } else {
            match forms::command(command).and_then(|parsed| world.run(&parsed)) {
                Ok(outcome) => format!("{command}: {outcome}"),
                Err(wrong) => {
                    all_good = false;
                    format!("{command}: bad line {number}, {wrong}")
                }
            }
        };
        writeln!(out, "{shown}").map_err(Failure::Write)?;
    }
    Ok(all_good)
}

#[cfg(test)]
mod tests {
    use super::*;

    fn played(script: &[u8]) -> (String, bool) {
        let mut out = Vec::new();
        let all_good = play(script, &mut out).expect("memory is read and written");
        (String::from_utf8(out).expect("text"), all_good)
    }

    #[test]
    fn comments_and_empty_lines_are_kept() {
        let script = b"# A tour.\n\n  on interrupts # with a comment\r\nread ISR";
        let shown = "# A tour.\n\non interrupts: done\nread ISR: done, 0 (0x0)\n";
        assert_eq!(played(script), (shown.into(), true));
    }

    #[test]
    fn a_bad_line_is_named_and_the_rest_goes_on() {
        let script = b"on\n\nof\noff\npoke page 4095 1 2\n\xff\n";
        let shown = "on: done\n\nof: bad line 3, of is no command\noff: done\n\
                     poke page 4095 1 2: bad line 5, this memory ends at 4096\n\
                     \u{fffd}: bad line 6, \u{fffd} is no command\n";
        assert_eq!(played(script), (shown.into(), false));
    }

    #[test]
    fn a_refusal_is_no_bad_line() {
        let (shown, all_good) = played(b"packet 4\n");
        assert_eq!(shown, "packet 4: refused, 5, the device is off\n");
        assert!(all_good);
    }

    #[test]
    fn a_guest_of_revision_1_receives_groups() {
        let (shown, _) = played(
            b"add 4 mouse REL BTN_LEFT\non revision 1\nread REV\npacket 4 BTN_LEFT 1 REL_X 10 REL_Y -3\nrecords\ndrain\n",
        );
        let lines = [
            "add 4 mouse REL BTN_LEFT: done",
            "on revision 1: done",
            "read REV: done, 1 (0x1)",
            "packet 4 BTN_LEFT 1 REL_X 10 REL_Y -3: done",
            "records: done, 3 records",
            "       0  RELATIVE 10 -3",
            "       1  LEFT_BUTTON_DOWN",
            "       2  FENCE",
            "drain: done, 3 records read",
            "    guest: group: RELATIVE 10 -3, LEFT_BUTTON_DOWN, FENCE",
        ];
        assert_eq!(shown.lines().collect::<Vec<_>>(), lines);
    }

    #[test]
    fn the_revision_of_a_guest_is_that_of_its_switch_on() {
        let read = |script: &str, offset| {
            let (shown, _) = played(format!("{script}\nread {offset}").as_bytes());
            shown.lines().last().map(str::to_string)
        };
        let reads = |offset, number| Some(format!("read {offset}: done, {number} (0x{number})"));
        for (script, client_rev) in [
            ("on revision 1", 0),
            ("on", 2),
            ("on\noff\non revision 1", 1),
            ("on revision 1\noff\non revision 2", 2),
            ("on\non revision 1", 2),
        ] {
            assert_eq!(read(script, "CLIENT_REV"), reads("CLIENT_REV", client_rev), "{script}");
        }
    }

    #[test]
    fn any_read_pointer_is_answered() {
        for command in ["records", "copy 5", "step", "drain"] {
            let (shown, _) = played(format!("poke area 0 255 255 255 255\n{command}\n").as_bytes());
            assert!(shown.contains(&format!("\n{command}: refused, 10, ")), "{shown}");
        }
    }

    #[test]
    fn a_refused_geometry_leaves_the_device() {
        let (shown, _) = played(b"add 4 pen\ngeometry 9 8 68\nlookup 4\ngeometry 1 64 256\nlookup 4\n");
        let lines: Vec<&str> = shown.lines().collect();
        assert!(lines[1].starts_with("geometry 9 8 68: refused, 1, "));
        assert_eq!(lines[3], "    guest: entry pen offers nothing");
        assert_eq!(lines[4], "geometry 1 64 256: done, a ring of 63 records, 16 slots");
        assert!(lines[5].starts_with("lookup 4: refused, 6, "));
    }
}
