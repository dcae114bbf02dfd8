//! Lines for the library, and what their answers say.
use crate::error::{Cause, Error};
use crate::standard::{Category, ExtendedCode, ResultCode};
use std::fmt::Write;

/// The longest line that the library takes, and the greatest number in one.
const LONGEST: usize = 140_000;
pub(crate) const GREATEST: i64 = 999_999_999_999_999_999;

/// A line that is being written.
pub(crate) struct Line {
    text: String,
    is_sound: bool,
}

impl Line {
    /// Begins a line by its verb.
    pub(crate) fn new(verb: &str) -> Line {
        Line { text: verb.to_string(), is_sound: true }
    }

    /// The verb by which the line begins.
    pub(crate) fn verb(&self) -> &str {
        self.text.split(' ').next().unwrap_or("")
    }

    /// The name behind the verb, if there is one.
    pub(crate) fn first_name(&self) -> Option<&str> {
        self.text.split(' ').nth(1)
    }

    /// Adds a word of the language.
    pub(crate) fn word(mut self, word: &str) -> Line {
        self.text.push(' ');
        self.text.push_str(word);
        self
    }

    /// Adds the name of a control or a device.
    pub(crate) fn name(mut self, name: &str) -> Line {
        self.is_sound &= is_name(name);
        self.word(name)
    }

    /// Adds a number.
    pub(crate) fn number(mut self, number: impl TryInto<i64>) -> Line {
        let number = number.try_into().unwrap_or(i64::MAX);
        self.is_sound &= (-GREATEST..=GREATEST).contains(&number);
        self.text.push(' ');
        let _ = write!(self.text, "{number}");
        self
    }

    /// Adds a truth value.
    pub(crate) fn truth(self, is_true: bool) -> Line {
        self.word(if is_true { "true" } else { "false" })
    }

    /// Adds bytes.
    pub(crate) fn bytes(mut self, bytes: &[u8]) -> Line {
        const DIGITS: &[u8; 16] = b"0123456789abcdef";
        if bytes.is_empty() {
            return self.word("-");
        }
        self.text.reserve(1 + 2 * bytes.len());
        self.text.push(' ');
        for byte in bytes {
            self.text.push(char::from(DIGITS[usize::from(byte >> 4)]));
            self.text.push(char::from(DIGITS[usize::from(byte & 15)]));
        }
        self
    }

    /// Returns the line's text, unless an argument can't be passed on.
    pub(crate) fn text(&self) -> Result<&str, Cause> {
        if self.is_sound && self.text.len() <= LONGEST {
            Ok(&self.text)
        } else {
            Err(Cause::BadArgument)
        }
    }
}

/// Whether a control or a device may have the name.
pub(crate) fn is_name(name: &str) -> bool {
    (1..=16).contains(&name.len()) && name.bytes().all(|byte| byte.is_ascii_alphanumeric() || byte == b'-')
}

/// The answer to a line, behind `ok` or as a whole, and the call that it is to.
pub(crate) struct Answer {
    call: &'static str,
    text: String,
}

impl Answer {
    pub(crate) fn new(call: &'static str, text: String) -> Answer {
        Answer { call, text }
    }

    fn bad(&self) -> Error {
        Error::new(self.call, Cause::BadAnswer(self.text.clone()))
    }

    /// Reads an answer that gives nothing.
    pub(crate) fn nothing(self) -> Result<(), Error> {
        if self.text.is_empty() {
            Ok(())
        } else {
            Err(self.bad())
        }
    }

    /// Returns the answer's text.
    pub(crate) fn text(self) -> String {
        self.text
    }

    /// Reads a number.
    pub(crate) fn number(self) -> Result<u64, Error> {
        self.text.parse().map_err(|_| self.bad())
    }

    /// Reads a number that stands for a constant.
    pub(crate) fn constant<T>(self, of: impl Fn(u64) -> Option<T>) -> Result<T, Error> {
        self.text.parse().ok().and_then(of).ok_or_else(|| self.bad())
    }

    /// Reads a pair of numbers.
    pub(crate) fn pair(self) -> Result<(u64, u64), Error> {
        let read = |(first, second): (&str, &str)| Some((first.parse().ok()?, second.parse().ok()?));
        self.text.split_once(' ').and_then(read).ok_or_else(|| self.bad())
    }

    /// Reads a truth value.
    pub(crate) fn truth(self) -> Result<bool, Error> {
        self.text.parse().map_err(|_| self.bad())
    }

    /// Reads bytes.
    pub(crate) fn bytes(self) -> Result<Vec<u8>, Error> {
        bytes_of(&self.text).ok_or_else(|| self.bad())
    }
}

/// The bytes of a word: two hex digits for each, or `-`.
pub(crate) fn bytes_of(word: &str) -> Option<Vec<u8>> {
    if word == "-" {
        return Some(Vec::new());
    }
    let digit = |byte: u8| char::from(byte).to_digit(16);
    let pairs = word.as_bytes().chunks(2);
    pairs.map(|pair| Some((16 * digit(pair[0])? + digit(*pair.get(1)?)?) as u8)).collect()
}

/// What the answer to a line of a control of this category says, if it is none of the line's own: what is behind `ok`.
pub(crate) fn value_of(text: &str, category: Option<Category>) -> Result<&str, Cause> {
    match text.split_once(' ').unwrap_or((text, "")) {
        ("ok", value) => Ok(value),
        ("err", numbers) => Err(code_of(numbers, category).unwrap_or_else(|| Cause::BadAnswer(text.to_string()))),
        _ => Err(refusal_of(text)),
    }
}

/// A result code, or the extended code behind E_EXTENDED.
pub(crate) fn code_of(numbers: &str, category: Option<Category>) -> Option<Cause> {
    let (code, extended) = numbers.split_once(' ').unwrap_or((numbers, "0"));
    Some(match ResultCode::from_number(code.parse().ok()?)? {
        ResultCode::Extended => Cause::Extended(ExtendedCode::from_number(category?, extended.parse().ok()?)?),
        code => Cause::Code(code),
    })
}

/// The answers that refuse a line. `bad control` comes to `new` alone, since the crate knows its controls.
fn refusal_of(text: &str) -> Cause {
    match text {
        "memory" => Cause::NoMemory,
        "bad line" => Cause::BadArgument,
        "bad control" => Cause::NameInUse,
        "bad device" => Cause::BadDevice,
        "bad input" => Cause::BadInput,
        "bad spare" => Cause::BadSpare,
        "refused Full" => Cause::Full,
        "refused Unknown" => Cause::Unknown,
        "refused InUse" => Cause::InUse,
        "refused Vacant" => Cause::Vacant,
        "refused KindDiffers" => Cause::KindDiffers,
        _ => Cause::BadAnswer(text.to_string()),
    }
}
