//! What a command came to: its answers, and what there is to show below it.
use std::fmt;
use thayarqo::{Answer, Refusal};

/// How many answers there are, 0 to 12.
const ANSWERS: usize = 13;

#[derive(Debug)]
pub struct Outcome {
    /// How often each answer was given.
    counts: [u32; ANSWERS],
    /// What a command that was done hands back, in a few words.
    detail: Option<String>,
    /// What to show below, and how often in a row.
    lines: Vec<(String, u32)>,
}

impl Outcome {
    pub fn of(answer: Answer<()>) -> Outcome {
        let mut outcome = Outcome::none();
        let number = answer.map_or_else(Refusal::number, |()| 0);
        outcome.counts[usize::from(number)] = 1;
        outcome
    }

    /// The outcome of a call that hands something back.
    pub fn with_detail<T>(answer: Answer<T>, detail: impl FnOnce(&T) -> String) -> Outcome {
        let detail = answer.as_ref().ok().map(detail);
        Outcome {
            detail,
            ..Outcome::of(answer.map(|_| ()))
        }
    }

    /// Before any answer.
    pub fn none() -> Outcome {
        Outcome {
            counts: [0; ANSWERS],
            detail: None,
            lines: Vec::new(),
        }
    }

    pub fn show(&mut self, line: String) {
        self.show_times(line, 1);
    }

    fn show_times(&mut self, line: String, times: u32) {
        match self.lines.last_mut() {
            Some((last, count)) if *last == line => *count += times,
            _ => self.lines.push((line, times)),
        }
    }

    /// Counts another outcome in.
    pub fn join(&mut self, other: Outcome) {
        for (count, more) in self.counts.iter_mut().zip(other.counts) {
            *count += more;
        }
        for (line, times) in other.lines {
            self.show_times(line, times);
        }
    }

    /// Each answer that was given, and how often.
    fn given(&self) -> impl Iterator<Item = (Answer<()>, u32)> + '_ {
        let numbered = (0..).zip(self.counts);
        numbered
            .filter(|(_, count)| *count > 0)
            .map(|(number, count)| (Refusal::check(number), count))
    }

    fn write_single(&self, answer: Answer<()>, out: &mut fmt::Formatter) -> fmt::Result {
        match (answer, &self.detail) {
            (Ok(()), None) => out.write_str("done"),
            (Ok(()), Some(detail)) => write!(out, "done, {detail}"),
            (Err(refusal), _) => out.write_str(&refused(refusal)),
        }
    }

    fn write_counted(&self, out: &mut fmt::Formatter) -> fmt::Result {
        for (index, (answer, count)) in self.given().enumerate() {
            if index > 0 {
                out.write_str(", ")?;
            }
            match answer {
                Ok(()) => write!(out, "{count} done")?,
                Err(refusal) => write!(out, "{count} refused ({}, {refusal})", refusal.number())?,
            }
        }
        Ok(())
    }
}

/// A refusal with its number.
pub fn refused(refusal: Refusal) -> String {
    format!("refused, {}, {refusal}", refusal.number())
}

/// A count of things that get an s where they are several.
pub fn counted(count: usize, what: &str) -> String {
    let ending = if count == 1 { "" } else { "s" };
    format!("{count} {what}{ending}")
}

impl fmt::Display for Outcome {
    fn fmt(&self, out: &mut fmt::Formatter) -> fmt::Result {
        let all: u32 = self.counts.iter().sum();
        match self.given().next() {
            Some((answer, 1)) if all == 1 => self.write_single(answer, out)?,
            _ => self.write_counted(out)?,
        }
        for (line, times) in &self.lines {
            write!(out, "\n    {line}")?;
            if *times > 1 {
                write!(out, " ({times} times)")?;
            }
        }
        Ok(())
    }
}

#[cfg(test)]
mod tests {
    use super::*;

    #[test]
    fn an_answer_is_told_in_words() {
        assert_eq!(Outcome::of(Ok(())).to_string(), "done");
        assert_eq!(
            Outcome::with_detail(Ok(3), |count| counted(*count, "record")).to_string(),
            "done, 3 records"
        );
        assert_eq!(
            Outcome::of(Err(Refusal::NoRoom)).to_string(),
            "refused, 7, there is too little room"
        );
    }

    #[test]
    fn many_answers_are_counted() {
        let mut outcome = Outcome::none();
        for answer in [Err(Refusal::NoRoom), Ok(()), Err(Refusal::DeviceOff), Ok(())] {
            let mut single = Outcome::of(answer);
            single.show("guest: gap".into());
            outcome.join(single);
        }
        outcome.show("guest: empty report".into());
        assert_eq!(
            outcome.to_string(),
            "2 done, 1 refused (5, the device is off), 1 refused (7, there is too little room)\n    \
             guest: gap (4 times)\n    guest: empty report"
        );
    }
}
