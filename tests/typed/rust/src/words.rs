//! The words of a script's lines, and how answers are printed.
use kijolvar::{Cause, Error};
use std::time::Duration;

/// What is printed for what a call returned, behind `ok`.
pub type Shown = Result<String, Error>;

pub fn nothing(returned: Result<(), Error>) -> Shown {
    returned.map(|()| String::new())
}

pub fn shown<T: ToString>(returned: Result<T, Error>) -> Shown {
    returned.map(|value| value.to_string())
}

pub fn pair(returned: Result<(u64, u64), Error>) -> Shown {
    returned.map(|(first, second)| format!("{first} {second}"))
}

pub fn hex(bytes: &[u8]) -> String {
    if bytes.is_empty() {
        return "-".to_string();
    }
    bytes.iter().map(|byte| format!("{byte:02x}")).collect()
}

pub fn bytes_shown(returned: Result<Vec<u8>, Error>) -> Shown {
    returned.map(|bytes| hex(&bytes))
}

/// A number that a typed call can be given: one that isn't negative.
pub fn number(word: &str) -> Option<u64> {
    let digits = word.strip_prefix('-').unwrap_or(word);
    let is_number = (1..=18).contains(&digits.len()) && digits.bytes().all(|byte| byte.is_ascii_digit());
    let value: u64 = digits.parse().ok().filter(|_| is_number)?;
    (value == 0 || digits == word).then_some(value)
}

pub fn truth(word: &str) -> Option<bool> {
    word.parse().ok()
}

pub fn timeout(word: &str) -> Option<Option<Duration>> {
    if word == "-1" {
        return Some(None);
    }
    number(word).map(|time| Some(Duration::from_millis(time)))
}

pub fn bytes(word: &str) -> Option<Vec<u8>> {
    if word == "-" {
        return Some(Vec::new());
    }
    let digit = |byte: u8| char::from(byte).to_digit(16);
    word.as_bytes().chunks(2).map(|pair| Some((16 * digit(pair[0])? + digit(*pair.get(1)?)?) as u8)).collect()
}

pub fn device(word: &str) -> Option<&str> {
    let is_name = word.len() <= 16 && word.bytes().all(|byte| byte.is_ascii_alphanumeric() || byte == b'-');
    is_name.then_some(word)
}

/// The answer that a script has for what a call returned.
pub fn answer(shown: Shown) -> String {
    let error = match shown {
        Ok(value) if value.is_empty() => return "ok".to_string(),
        Ok(value) => return format!("ok {value}"),
        Err(error) => error,
    };
    if let (Some(code), extended) = (error.code(), error.extended()) {
        let extended = extended.map(|code| format!(" {}", code.number())).unwrap_or_default();
        return format!("err {}{extended}", code.number());
    }
    match error.cause() {
        Cause::NoMemory => "memory",
        Cause::BadArgument => "bad line",
        Cause::NameInUse => "bad control",
        Cause::BadDevice => "bad device",
        Cause::BadInput => "bad input",
        Cause::BadSpare => "bad spare",
        Cause::Full => "refused Full",
        Cause::Unknown => "refused Unknown",
        Cause::InUse => "refused InUse",
        Cause::Vacant => "refused Vacant",
        Cause::KindDiffers => "refused KindDiffers",
        _ => panic!("{error}"),
    }
    .to_string()
}
