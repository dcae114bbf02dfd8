//! Why a call failed.
use crate::questions::ProfileMistake;
use crate::reasons::reason_of;
use crate::standard::{Category, ExtendedCode, ResultCode};
use std::fmt;
use std::io;

/// Why a call failed, and which call it was. If a call fails, it changed nothing, unless the [`Cause`] says otherwise.
#[derive(Debug)]
pub struct Error {
    call: &'static str,
    cause: Cause,
    reason: Option<&'static str>,
    port_error: Option<io::Error>,
}

/// Why a call failed.
#[derive(Debug)]
#[non_exhaustive]
pub enum Cause {
    /// The control refused the call, with this result code of the standard.
    Code(ResultCode),
    /// The control refused the call with E_EXTENDED and this extended code.
    Extended(ExtendedCode),
    /// There was no memory, or no thread to read a profile or for an actor, and nothing was done.
    NoMemory,
    /// The call was carried out, but there was no memory for its answer.
    NoAnswer,
    /// The profile is refused, for this mistake.
    BadProfile(ProfileMistake),
    /// The file is shorter than a disk of totals.
    TooSmall,
    /// The file isn't formatted: it has no totals.
    Unformatted,
    /// The bytes of the file break a rule of totals (docs/reference/totals-file.md): the place, in bytes from the
    /// first, and the rule. Only [`files`](crate::files), [`check`](crate::check) and [`backup`](crate::backup) say
    /// which.
    Damaged(Option<(u64, String)>),
    /// The totals in the file have layout 2 already.
    Moved,
    /// The file of the totals couldn't be written. The last call may be in it or not, and the till can only be dropped.
    /// The first call that fails has the reason, if there is one. A process that was forked from the till's never
    /// writes the file.
    DiskFailed(Option<io::Error>),
    /// The system refused the file of the totals: `NotFound` if it is missing, or its folder or /proc to create it;
    /// `AlreadyExists` if it is there already, `WouldBlock` if another till has it.
    System(io::Error),
    /// The library is of another version than this crate.
    WrongVersion,
    /// An argument can't be passed on: a name that isn't 1 to 16 letters, digits or hyphens, a number of more than 18
    /// digits, or bytes that are too many for a line (69,000 always fit).
    BadArgument,
    /// The library answered something that this version doesn't know. The call was carried out.
    BadAnswer(String),
    /// A control of the till has the name already.
    NameInUse,
    /// The till has as many controls as it may have (4,096).
    Full,
    /// The control or the key is of another till.
    OtherTill,
    /// The control was discarded by its key.
    Discarded,
    /// The profile has no device of the name, or no peripheral is attached to it.
    BadDevice,
    /// The device has no such input.
    BadInput,
    /// The device is of another kind than the call is for.
    WrongKind,
    /// There is no spare of the number, or it serves a device.
    BadSpare,
    /// The profile has no device of the name that has orders, or replies.
    NoDevice,
    /// A setting of the hardware is out of its range.
    BadSettings,
    /// No order is out, or it has no bytes.
    NoOrder,
    /// The device has a driver already.
    Driven,
    /// The profile has no device of the name that may have a peripheral.
    Unknown,
    /// The device has its peripheral, or a control has the device open.
    InUse,
    /// The spare, or the driver, is of another kind than the device.
    KindDiffers,
    /// No peripheral is attached to the device.
    Vacant,
    /// The thread of the actor has ended.
    ActorEnded,
    /// Work of the actor gave the actor work, for which it would wait for ever.
    InsideActor,
    /// A driver made a call of its till, of which a call is under way. What it may ask is in
    /// [`DriverTill`](crate::DriverTill).
    InCall,
}

impl Cause {
    /// What it means of a file that no till has.
    pub(crate) fn of_file(self) -> Cause {
        match self {
            Cause::DiskFailed(Some(fault)) => Cause::System(fault),
            other => other,
        }
    }

    /// The name of the code by which a control refused a call.
    fn code_name(&self) -> Option<&'static str> {
        match self {
            Cause::Code(code) => Some(code.name()),
            Cause::Extended(code) => Some(code.name()),
            _ => None,
        }
    }
}

impl Error {
    pub(crate) fn new(call: &'static str, cause: Cause) -> Error {
        Error { call, cause, reason: None, port_error: None }
    }

    /// A control of this category has refused a line of this verb.
    pub(crate) fn refused(call: &'static str, cause: Cause, category: Category, verb: &str) -> Error {
        let reason = cause.code_name().and_then(|code| reason_of(category, verb, call, code));
        Error { call, cause, reason, port_error: None }
    }

    /// The port of the device isn't open, for this reason.
    pub(crate) fn with_port_error(self, number: Option<i32>) -> Error {
        Error { port_error: number.map(io::Error::from_raw_os_error), ..self }
    }

    /// Returns the call that failed, by the standard's name (`"openDrawer"`, `"DeviceEnabled"`) or this crate's
    /// (`"Till::open"`).
    pub fn call(&self) -> &'static str {
        self.call
    }

    pub(crate) fn into_cause(self) -> Cause {
        self.cause
    }

    /// Returns why it failed.
    pub fn cause(&self) -> &Cause {
        &self.cause
    }

    /// Returns why the control refused this call, in English, if the code means more of it than of any other call. It
    /// is in what the error displays then.
    pub fn reason(&self) -> Option<&'static str> {
        self.reason
    }

    /// Returns why the port of the device isn't open, if the control refused the call with E_OFFLINE for that. It is in
    /// what the error displays.
    pub fn port_error(&self) -> Option<&io::Error> {
        self.port_error.as_ref()
    }

    /// Returns the result code of the standard, if the control refused the call.
    pub fn code(&self) -> Option<ResultCode> {
        match self.cause {
            Cause::Code(code) => Some(code),
            Cause::Extended(_) => Some(ResultCode::Extended),
            _ => None,
        }
    }

    /// Returns the extended code of the standard, if the result code is E_EXTENDED.
    pub fn extended(&self) -> Option<ExtendedCode> {
        match self.cause {
            Cause::Extended(code) => Some(code),
            _ => None,
        }
    }
}

impl fmt::Display for Cause {
    fn fmt(&self, out: &mut fmt::Formatter<'_>) -> fmt::Result {
        let text = match self {
            Cause::Code(code) => return write!(out, "{code}"),
            Cause::Extended(code) => return write!(out, "E_EXTENDED, {code}"),
            Cause::System(cause) if cause.kind() == io::ErrorKind::WouldBlock => {
                "the file of the totals is in use: close the other program that has it open"
            }
            Cause::System(cause) if cause.kind() == io::ErrorKind::NotFound => {
                "the file of the totals isn't there; if it was to be created, its folder isn't, or /proc"
            }
            Cause::System(cause) if cause.kind() == io::ErrorKind::AlreadyExists => {
                "the file of the totals is there already"
            }
            Cause::System(cause) if cause.kind() == io::ErrorKind::Unsupported => {
                "the file system can't do that: totals are created there by pos_console format --disk FILE"
            }
            Cause::System(cause) => return write!(out, "{cause}"),
            Cause::BadAnswer(text) => return write!(out, "the library answered something unknown: {text}"),
            Cause::BadProfile(mistake) => return write!(out, "the profile is refused: {mistake}"),
            Cause::Damaged(Some((place, rule))) => {
                return write!(out, "the totals are damaged at byte {place}: {rule}")
            }
            Cause::Damaged(None) => "the totals are damaged",
            Cause::Unformatted => "the file isn't formatted: it has no totals",
            Cause::Moved => "the totals have layout 2 already",
            Cause::NoMemory => "there was no memory",
            Cause::NoAnswer => "there was no memory for the answer",
            Cause::TooSmall => "the file is shorter than a disk of totals",
            Cause::DiskFailed(fault) => {
                let why = fault.as_ref().map_or(String::new(), |fault| format!(" ({fault})"));
                return write!(
                    out,
                    "the totals file failed{why}: close the till; before you open the file again, read \
                     docs/reference/trouble.md, \"After a failed sync\""
                );
            }
            Cause::WrongVersion => "the library is of another version",
            Cause::BadArgument => "an argument can't be passed on",
            Cause::NameInUse => "a control has the name already",
            Cause::Full => "the till has as many controls as it may have",
            Cause::OtherTill => "the control is of another till",
            Cause::Discarded => "the control was discarded",
            Cause::BadDevice => "there is no device of the name, or it has no peripheral",
            Cause::BadInput => "the device has no such input, or its number is out of range",
            Cause::WrongKind => "the device is of another kind",
            Cause::BadSpare => "there is no spare of the number, or it serves a device",
            Cause::NoDevice => "there is no device of the name that has orders, or replies",
            Cause::BadSettings => "a setting of the hardware is out of its range",
            Cause::NoOrder => "no order is out, or it has no bytes",
            Cause::Driven => "the device has a driver already",
            Cause::Unknown => "there is no device of the name that may have a peripheral",
            Cause::InUse => "the device has its peripheral, or a control has it open",
            Cause::KindDiffers => "the spare, or the driver, is of another kind than the device",
            Cause::Vacant => "no peripheral is attached to the device",
            Cause::ActorEnded => "the thread of the actor has ended",
            Cause::InsideActor => "work of an actor can't wait for other work of it",
            Cause::InCall => {
                "a call of the till is under way: a driver can't call its till, so make this one once that has returned"
            }
        };
        out.write_str(text)
    }
}

/// Why the system refused a copy, if that is another reason than of a till's file.
fn said_of_copy(fault: &io::Error) -> Option<&'static str> {
    match fault.kind() {
        io::ErrorKind::AlreadyExists => Some(
            "the copy is there already, or the file beside it with .part at its end: remove that if no other program \
             makes the copy",
        ),
        io::ErrorKind::NotFound => Some("the file of the totals isn't there, or the folder of the copy isn't"),
        io::ErrorKind::WouldBlock => {
            Some("the file changes each time it is read: try again, or end the program that writes to it")
        }
        io::ErrorKind::Unsupported => Some("the file system can't do that: back up elsewhere, and copy the copy there"),
        _ => None,
    }
}

/// What a cause means of one call, if that is something else than of others.
fn said_of_call(call: &str, cause: &Cause) -> Option<&'static str> {
    match (call, cause) {
        ("backup", Cause::System(fault)) => said_of_copy(fault),
        ("drive", Cause::NoDevice) => Some("the device can't be driven: its entry in the profile has `flaky`"),
        ("driver_state", Cause::NoDevice) => Some("the device has no driver"),
        _ => None,
    }
}

/// The system's words for a fault, without its number.
fn words_of(fault: &io::Error) -> String {
    let said = fault.to_string();
    said.split(" (os error").next().unwrap_or("").to_string()
}

impl Error {
    /// Writes what it displays, but for why the port isn't open.
    fn write(&self, out: &mut impl fmt::Write) -> fmt::Result {
        let call = self.call;
        match (&self.cause, self.reason.or_else(|| said_of_call(call, &self.cause))) {
            (Cause::Code(code), Some(reason)) => write!(out, "{call}: {}: {reason}", code.name()),
            (Cause::Extended(code), Some(reason)) => write!(out, "{call}: E_EXTENDED, {}: {reason}", code.name()),
            (_, Some(reason)) => write!(out, "{call}: {reason}"),
            (cause, None) => write!(out, "{call}: {cause}"),
        }
    }
}

impl fmt::Display for Error {
    fn fmt(&self, out: &mut fmt::Formatter<'_>) -> fmt::Result {
        let Some(fault) = &self.port_error else { return self.write(out) };
        let mut said = String::new();
        self.write(&mut said)?;
        write!(out, "{}: {}.", said.trim_end_matches('.'), words_of(fault))
    }
}

impl std::error::Error for Error {
    fn source(&self) -> Option<&(dyn std::error::Error + 'static)> {
        match &self.cause {
            Cause::System(cause) | Cause::DiskFailed(Some(cause)) => Some(cause),
            _ => self.port_error().map(|fault| fault as _),
        }
    }
}

#[cfg(test)]
mod tests {
    use super::*;

    #[test]
    fn a_copy_is_refused_for_reasons_of_its_own() {
        let said = |call, number| Error::new(call, Cause::System(io::Error::from_raw_os_error(number))).to_string();
        let reasons = [
            (2, "the folder of the copy isn't"),
            (11, "changes each time it is read"),
            (17, "remove that if no other program"),
            (95, "back up elsewhere"),
        ];
        for (number, reason) in reasons {
            assert!(said("backup", number).contains(reason), "{}", said("backup", number));
            assert!(!said("files", number).contains(reason), "{}", said("files", number));
        }
        assert_eq!(said("backup", 1), "backup: Operation not permitted (os error 1)");
        assert_eq!(said("backup", 28), "backup: No space left on device (os error 28)");
    }
}
