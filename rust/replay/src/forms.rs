//! The commands of a script: how each is written, what it does, and how it is read.
use crate::command::{Command, Memory};
use crate::names;
use crate::words::{number, value, Parsed, Words};
use thayarqo::{Entry, Event, Revision};

/// A command of the language.
pub struct Form {
    pub name: &'static str,
    pub arguments: &'static str,
    pub says: &'static str,
    read: fn(&mut Words) -> Parsed<Command>,
}

/// The most times that a command is run again.
pub const MOST_TIMES: u32 = 1_000_000;

pub const FORMS: [Form; 15] = [
    Form {
        name: "geometry",
        arguments: "PAGES RECORD_SIZE ENTRY_SIZE",
        says: "begins afresh, with a device of these sizes and its guest's driver",
        read: geometry,
    },
    Form {
        name: "add",
        arguments: "SLOT NAME CODE ...",
        says: "the host takes a slot, with an entry that offers these codes; REL offers all movements",
        read: add,
    },
    Form {
        name: "remove",
        arguments: "SLOT",
        says: "the host frees a slot",
        read: |words| Ok(Command::Remove { slot: slot(words)? }),
    },
    Form {
        name: "on",
        arguments: "[revision 1|2] [interrupts]",
        says: "the guest switches the device on in CONTROL for its revision, else 2, on request with interrupts",
        read: on,
    },
    Form {
        name: "off",
        arguments: "",
        says: "the guest writes 0 to CONTROL",
        read: |_| Ok(Command::Off),
    },
    Form {
        name: "packet",
        arguments: "SLOT CODE VALUE ...",
        says: "the host sends the events of a slot that happened at the same time",
        read: packet,
    },
    Form {
        name: "step",
        arguments: "[COUNT]",
        says: "the guest's driver reads a record, or COUNT of them",
        read: step,
    },
    Form {
        name: "drain",
        arguments: "",
        says: "the guest's driver reads until there is nothing to read",
        read: |_| Ok(Command::Drain),
    },
    Form {
        name: "copy",
        arguments: "LIMIT",
        says: "the guest copies out at most LIMIT records, past its driver",
        read: copy,
    },
    Form {
        name: "records",
        arguments: "",
        says: "shows the unread records, and leaves them there: index, type, code and value, or flag and data",
        read: |_| Ok(Command::Records),
    },
    Form {
        name: "lookup",
        arguments: "SLOT",
        says: "the guest looks up the entry of a slot",
        read: |words| Ok(Command::Lookup { slot: slot(words)? }),
    },
    Form {
        name: "read",
        arguments: "REGISTER|OFFSET [WIDTH]",
        says: "the guest reads WIDTH bytes of the BAR, else 4",
        read,
    },
    Form {
        name: "write",
        arguments: "REGISTER|OFFSET VALUE [WIDTH]",
        says: "the guest writes WIDTH bytes of the BAR, else 4",
        read: write,
    },
    Form {
        name: "poke",
        arguments: "area|page OFFSET BYTE ...",
        says: "the guest overwrites bytes of the event area or of the entry page, and asks nobody",
        read: poke,
    },
    Form {
        name: "repeat",
        arguments: "COUNT COMMAND",
        says: "runs a command COUNT times and counts its answers",
        read: repeat,
    },
];

/// The command of a line without its comment.
pub fn command(text: &str) -> Parsed<Command> {
    let mut words = Words::new(text);
    let command = any(&mut words)?;
    words.end()?;
    Ok(command)
}

fn any(words: &mut Words) -> Parsed<Command> {
    let name = words.word("a command")?;
    let form = FORMS.iter().find(|form| form.name == name);
    (form.ok_or_else(|| format!("{name} is no command"))?.read)(words)
}

fn slot(words: &mut Words) -> Parsed<u32> {
    words.number("SLOT")
}

fn times(text: &str) -> Parsed<u32> {
    number(text, "COUNT", 1..=MOST_TIMES.into()).map(|number| number as u32)
}

fn geometry(words: &mut Words) -> Parsed<Command> {
    Ok(Command::Geometry {
        pages: words.number("PAGES")?,
        record_size: words.number("RECORD_SIZE")?,
        entry_size: words.number("ENTRY_SIZE")?,
    })
}

fn add(words: &mut Words) -> Parsed<Command> {
    let slot = slot(words)?;
    let mut entry = Entry::new(words.word("NAME")?);
    while let Some(word) = words.optional() {
        entry = names::offer(entry, word)?;
    }
    let entry = Box::new(entry);
    Ok(Command::Add { slot, entry })
}

fn on(words: &mut Words) -> Parsed<Command> {
    let mut word = words.optional();
    let mut revision = Revision::Two;
    if word == Some("revision") {
        revision = self::revision(words.word("1 or 2")?)?;
        word = words.optional();
    }
    let interrupts = match word {
        None => false,
        Some("interrupts") => true,
        Some(word) => return Err(format!("{word} isn't the word interrupts")),
    };
    Ok(Command::On { revision, interrupts })
}

fn revision(text: &str) -> Parsed<Revision> {
    match text {
        "1" => Ok(Revision::One),
        "2" => Ok(Revision::Two),
        text => Err(format!("{text} is no revision")),
    }
}

fn packet(words: &mut Words) -> Parsed<Command> {
    let slot = slot(words)?;
    let mut events = Vec::new();
    while let Some(word) = words.optional() {
        let (kind, code) = names::code(word)?;
        let value = value(words.word(&format!("the VALUE of {word}"))?)?;
        events.push(Event { kind, code, value });
    }
    Ok(Command::Packet { slot, events })
}

fn step(words: &mut Words) -> Parsed<Command> {
    let Some(word) = words.optional() else {
        return Ok(Command::Step);
    };
    let command = Box::new(Command::Step);
    Ok(Command::Repeat {
        count: times(word)?,
        command,
    })
}

fn copy(words: &mut Words) -> Parsed<Command> {
    let limit = words.number("LIMIT")?;
    Ok(Command::Copy { limit })
}

fn width(words: &mut Words) -> Parsed<u32> {
    let text = words.optional().unwrap_or("4");
    number(text, "WIDTH", 0..=u32::MAX.into()).map(|number| number as u32)
}

fn read(words: &mut Words) -> Parsed<Command> {
    let offset = names::offset(words.word("REGISTER or OFFSET")?)?;
    let width = width(words)?;
    Ok(Command::Read { offset, width })
}

fn write(words: &mut Words) -> Parsed<Command> {
    let offset = names::offset(words.word("REGISTER or OFFSET")?)?;
    let value = value(words.word("VALUE")?)?;
    let width = width(words)?;
    Ok(Command::Write { offset, value, width })
}

fn poke(words: &mut Words) -> Parsed<Command> {
    let memory = match words.word("area or page")? {
        "area" => Memory::Area,
        "page" => Memory::Page,
        word => return Err(format!("{word} is neither area nor page")),
    };
    let offset = words.number("OFFSET")? as usize;
    let mut bytes = Vec::new();
    while let Some(word) = words.optional() {
        bytes.push(number(word, "BYTE", 0..=255)? as u8);
    }
    if bytes.is_empty() {
        return Err("BYTE is missing".into());
    }
    Ok(Command::Poke { memory, offset, bytes })
}

fn repeat(words: &mut Words) -> Parsed<Command> {
    let count = times(words.word("COUNT")?)?;
    let command = match any(words)? {
        Command::Repeat { .. } => return Err("a command that is repeated already can't be repeated".into()),
        command => Box::new(command),
    };
    Ok(Command::Repeat { count, command })
}

#[cfg(test)]
mod tests;
