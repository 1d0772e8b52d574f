//! The words of a line, one after another, and the numbers among them.
use std::ops::RangeInclusive;
use std::str::SplitWhitespace;

/// What was read, or what is wrong.
pub type Parsed<T> = Result<T, String>;

pub struct Words<'a>(SplitWhitespace<'a>);

impl<'a> Words<'a> {
    pub fn new(text: &'a str) -> Words<'a> {
        Words(text.split_whitespace())
    }

    pub fn optional(&mut self) -> Option<&'a str> {
        self.0.next()
    }

    /// The next word, which has to be there.
    pub fn word(&mut self, what: &str) -> Parsed<&'a str> {
        self.optional().ok_or_else(|| format!("{what} is missing"))
    }

    /// The next word as a number of 32 bits, which has to be there.
    pub fn number(&mut self, what: &str) -> Parsed<u32> {
        let text = self.word(what)?;
        number(text, what, 0..=u32::MAX.into()).map(|number| number as u32)
    }

    /// No word may be left.
    pub fn end(&mut self) -> Parsed<()> {
        match self.optional() {
            None => Ok(()),
            Some(word) => Err(format!("{word} is one word too many")),
        }
    }
}

/// Wide enough for every number of a script, signed or not.
type Wide = i128;

fn wide(text: &str) -> Option<Wide> {
    let (sign, digits) = match text.strip_prefix('-') {
        Some(digits) => (-1, digits),
        None => (1, text),
    };
    let (radix, digits) = match digits.strip_prefix("0x") {
        Some(digits) => (16, digits),
        None => (10, digits),
    };
    // Else a second sign would pass.
    if !digits.bytes().all(|byte| byte.is_ascii_hexdigit()) {
        return None;
    }
    let magnitude = u64::from_str_radix(digits, radix).ok()?;
    Some(sign * Wide::from(magnitude))
}

/// A number in a range: decimal, or hexadecimal after 0x.
pub fn number(text: &str, what: &str, range: RangeInclusive<Wide>) -> Parsed<Wide> {
    let (low, high) = (range.start(), range.end());
    let found = wide(text).filter(|number| range.contains(number));
    found.ok_or_else(|| format!("{what} has to be a number from {low} to {high}, not {text}"))
}

/// A value of a record or register: unsigned, or signed and then as the device has it.
pub fn value(text: &str) -> Parsed<u32> {
    number(text, "VALUE", i32::MIN.into()..=u32::MAX.into()).map(|number| number as u32)
}

#[cfg(test)]
mod tests {
    use super::*;

    #[test]
    fn values_are_decimal_signed_or_hexadecimal() {
        let good = [
            ("0", 0),
            ("4294967295", u32::MAX),
            ("-1", u32::MAX),
            ("-2147483648", 1 << 31),
            ("0xfFfF", 65535),
        ];
        for (text, number) in good {
            assert_eq!(value(text), Ok(number), "{text}");
        }
    }

    #[test]
    fn other_texts_are_no_values() {
        for text in [
            "4294967296",
            "-2147483649",
            "0x",
            "",
            "-",
            "+1",
            "-+1",
            "--1",
            "0x-1",
            "1.5",
            "a",
            "ABS_X",
        ] {
            assert!(value(text).is_err(), "{text}");
        }
    }

    #[test]
    fn words_are_asked_for_by_name() {
        let mut words = Words::new("  4\t0x10 rest");
        assert_eq!(words.number("SLOT"), Ok(4));
        assert_eq!(words.number("SLOT"), Ok(16));
        assert_eq!(words.end(), Err("rest is one word too many".into()));
        assert_eq!(words.word("NAME"), Err("NAME is missing".into()));
        assert_eq!(words.end(), Ok(()));
    }
}
