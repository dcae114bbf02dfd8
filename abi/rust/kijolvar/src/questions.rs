//! What the library says of a profile and of a file of totals, without a till.
use crate::error::{Cause, Error};
use crate::raw::{kijolvar_devices, kijolvar_migrate_file, kijolvar_profile_mistake, kijolvar_survey};
use crate::stack::with_stack;
use crate::standard::{library, Category};
use crate::till::{check_version, library_text, opening_cause, Inner, BUILT_PROFILE};
use crate::totals_file::{open_existing, put_new, read_file, read_steady, read_whole};
use std::fmt;
use std::path::Path;

/// What is wrong with a profile (docs/reference/profile.md).
#[derive(Debug, Clone, PartialEq, Eq)]
#[non_exhaustive]
pub struct ProfileMistake {
    /// What is wrong, in English. The entry is named if it is in one.
    pub reason: String,
    /// The line and the column where the text stops being TOML, counted from 1; none if it is TOML.
    pub place: Option<(usize, usize)>,
}

impl fmt::Display for ProfileMistake {
    fn fmt(&self, out: &mut fmt::Formatter<'_>) -> fmt::Result {
        match self.place {
            Some((line, column)) => write!(out, "line {line}, column {column}: {}", self.reason),
            None => out.write_str(&self.reason),
        }
    }
}

/// A device of a profile. A number that its category doesn't have is 0.
#[derive(Debug, Clone, PartialEq, Eq)]
#[non_exhaustive]
pub struct ProfileDevice {
    /// The name by which controls open it.
    pub name: String,
    /// What it is.
    pub category: Category,
    /// The rows of a line display.
    pub rows: u32,
    /// The columns of a line display.
    pub columns: u32,
    /// The characters of a printer's line.
    pub chars: u32,
    /// How many lines of paper are left where a printer's paper is near its end.
    pub near: u32,
}

/// What a file of totals holds (docs/reference/console.md, "What a totals file holds").
#[derive(Debug, Clone, PartialEq, Eq)]
#[non_exhaustive]
pub struct TotalsContents {
    /// The layout, 1 or 2 (docs/reference/totals-file.md).
    pub layout: u32,
    /// The place of the current image's slot, in bytes from the first of the file.
    pub slot: u64,
    /// The sequence of the current image.
    pub sequence: u64,
    /// How many records are behind it.
    pub records: u64,
    /// The bytes of the longest group of changes that fits behind them, or none if not even an empty one fits.
    pub room: Option<u64>,
    /// The names and the bytes of the files, with the changes of the records, in the order of creation.
    pub files: Vec<(Vec<u8>, Vec<u8>)>,
}

/// Asks the library: a call is given room for a text, and the place for how long it is. The code, and the text.
fn ask(mut call: impl FnMut(*mut u8, usize, &mut usize) -> u32 + Send) -> Result<(u32, String), Cause> {
    with_stack(move || {
        let mut text = vec![0; 4096];
        loop {
            let mut needed = 0;
            match call(text.as_mut_ptr(), text.len(), &mut needed) {
                library::SHORT => text.resize(needed, 0),
                code => return (code, String::from_utf8_lossy(&text[..needed]).into_owned()),
            }
        }
    })
}

/// The line and the column of a place in a text.
fn place_in(text: &str, at: u64) -> (usize, usize) {
    let before = String::from_utf8_lossy(&text.as_bytes()[..text.len().min(at as usize)]);
    let line = before.rsplit('\n').next().unwrap_or("");
    (before.matches('\n').count() + 1, line.chars().count() + 1)
}

/// Why the library has refused a profile.
pub(crate) fn explain(profile: &str) -> Cause {
    let mut at = 0;
    // SAFETY: slices and places, lent for the call.
    let found = ask(|text, room, needed| unsafe {
        kijolvar_profile_mistake(profile.as_ptr(), profile.len(), &mut at, text, room, needed)
    });
    match found {
        Ok((library::BAD_TEXT, reason)) => {
            Cause::BadProfile(ProfileMistake { reason, place: Some(place_in(profile, at)) })
        }
        Ok((library::BAD_PROFILE, reason)) => Cause::BadProfile(ProfileMistake { reason, place: None }),
        Ok(_) => Cause::NoMemory,
        Err(cause) => cause,
    }
}

/// The category of a word.
fn category_of(word: &str) -> Option<Category> {
    use Category::*;
    [CashDrawer, Scanner, LineDisplay, PosPrinter, HardTotals].into_iter().find(|category| category.word() == word)
}

/// A device by its line, `NAME CATEGORY KEY NUMBER ..`, which has the numbers of the category.
fn read_device(line: &str) -> Option<ProfileDevice> {
    let mut words = line.split(' ');
    let (name, category) = (words.next()?.to_string(), category_of(words.next()?)?);
    let mut device = ProfileDevice { name, category, rows: 0, columns: 0, chars: 0, near: 0 };
    match (category, &words.collect::<Vec<_>>()[..]) {
        (Category::LineDisplay, ["rows", rows, "columns", columns]) => {
            (device.rows, device.columns) = (rows.parse().ok()?, columns.parse().ok()?);
        }
        (Category::PosPrinter, ["chars", chars, "near", near]) => {
            (device.chars, device.near) = (chars.parse().ok()?, near.parse().ok()?);
        }
        (Category::CashDrawer | Category::Scanner | Category::HardTotals, []) => {}
        _ => return None,
    }
    Some(device)
}

/// Returns the devices of a profile, in its order.
///
/// # Errors
///
/// [`Cause::BadProfile`], [`Cause::NoMemory`], [`Cause::WrongVersion`].
///
/// ```
/// use kijolvar::{devices, standard::Category, BUILT_PROFILE};
///
/// let found = devices(BUILT_PROFILE)?;
/// let display = found.iter().find(|device| device.category == Category::LineDisplay).unwrap();
/// assert_eq!((display.name.as_str(), display.rows, display.columns), ("p1", 2, 4));
/// # Ok::<(), kijolvar::Error>(())
/// ```
pub fn devices(profile: &str) -> Result<Vec<ProfileDevice>, Error> {
    let failed = |cause| Error::new("devices", cause);
    check_version().map_err(failed)?;
    let given = library_text(profile);
    // SAFETY: slices and a place, lent for the call.
    let found = ask(|text, room, needed| unsafe { kijolvar_devices(given.as_ptr(), given.len(), text, room, needed) });
    let (code, text) = found.map_err(failed)?;
    match code {
        library::OK => {
            let found: Option<Vec<_>> = text.lines().map(read_device).collect();
            found.ok_or_else(|| failed(Cause::BadAnswer(text)))
        }
        code => Err(failed(opening_cause(code, profile))),
    }
}

/// Bytes of their hex digits, or `-`.
fn bytes_of(word: &str) -> Option<Vec<u8>> {
    if word == "-" {
        return Some(Vec::new());
    }
    (0..word.len()).step_by(2).map(|place| u8::from_str_radix(word.get(place..place + 2)?, 16).ok()).collect()
}

/// What the lines of a survey say.
fn read_contents(text: &str) -> Option<TotalsContents> {
    let mut lines = text.lines().map(|line| line.split_once(' ').unwrap_or((line, "")).1);
    let mut number = || lines.next().and_then(|word| word.parse().ok());
    let (layout, slot, sequence, records) = (number()?, number()?, number()?, number()?);
    let room = lines.next()?.parse().ok();
    let count: usize = lines.next()?.parse().ok()?;
    let words: Vec<&str> = lines.collect();
    let files: Option<Vec<_>> =
        words.chunks(5).map(|file| Some((bytes_of(file[0])?, bytes_of(file.get(3)?)?))).collect();
    let files = files.filter(|files| files.len() == count)?;
    Some(TotalsContents { layout: layout as u32, slot, sequence, records, room, files })
}

/// Returns what a file of totals holds. No till may have the file open. It is synced and read, and locked for readers
/// meanwhile: a till that opens it then gets `WouldBlock`.
///
/// # Errors
///
/// [`Cause::Damaged`], with the place and the rule; [`Cause::Unformatted`], [`Cause::TooSmall`], [`Cause::NoMemory`],
/// [`Cause::WrongVersion`]; [`Cause::System`], with `NotFound` if there is no file, `WouldBlock` if a till has it, or
/// why it couldn't be opened, synced or read.
pub fn files(path: impl AsRef<Path>) -> Result<TotalsContents, Error> {
    let failed = |cause| Error::new("files", cause);
    check_version().map_err(failed)?;
    let bytes = read_file(path.as_ref()).map_err(|cause| failed(Cause::System(cause)))?;
    let text = survey(&bytes).map_err(failed)?;
    read_contents(&text).ok_or_else(|| failed(Cause::BadAnswer(text)))
}

/// What the library says of the bytes of a file, if they are sound.
fn survey(bytes: &[u8]) -> Result<String, Cause> {
    let mut at = 0;
    // SAFETY: slices and places, lent for the call.
    let found =
        ask(|text, room, needed| unsafe { kijolvar_survey(bytes.as_ptr(), bytes.len(), &mut at, text, room, needed) });
    match found? {
        (library::OK, text) => Ok(text),
        (library::DAMAGED, rule) => Err(Cause::Damaged(Some((at, rule)))),
        (code, _) => Err(opening_cause(code, "")),
    }
}

/// Checks that a file holds sound totals. It is synced, read and locked as by [`files`].
///
/// # Errors
///
/// Those of [`files`].
pub fn check(path: impl AsRef<Path>) -> Result<(), Error> {
    files(path).map(|_| ())
}

/// Copies a file of totals to a path where nothing is, also while a till has it open. The file is only read, and not
/// locked: again and again, until two readings in a row give the same bytes. They have to be sound. The copy appears
/// whole or not at all: it is written to a file beside it, with `.part` at its end, and synced before it gets its name.
/// It is for its owner alone. Without hard links, as on a FAT stick, an empty file takes the name first, so a power cut
/// may leave it empty.
///
/// # Errors
///
/// [`Cause::Damaged`], with the place and the rule; [`Cause::Unformatted`], [`Cause::TooSmall`], [`Cause::NoMemory`],
/// [`Cause::WrongVersion`]; [`Cause::System`], with `AlreadyExists` if anything has the name of the copy, or that with
/// `.part` at its end, as after a crash; with `WouldBlock` if the file changes from each of 1,000 readings to the next;
/// or with why it couldn't be read, or the copy not be made.
pub fn backup(path: impl AsRef<Path>, to: impl AsRef<Path>) -> Result<(), Error> {
    let failed = |cause| Error::new("backup", cause);
    let of_system = |cause| failed(Cause::System(cause));
    check_version().map_err(failed)?;
    let bytes = read_steady(path.as_ref()).map_err(of_system)?;
    survey(&bytes).map_err(failed)?;
    put_new(to.as_ref(), &bytes).map_err(of_system)
}

/// Moves the totals in a file to layout 2, in place: their files stay, and may be more and longer from then on. A crash
/// at any moment leaves the files by one layout or the other, and you can move the file again. If it failed, restart
/// the machine first (docs/reference/trouble.md).
///
/// # Errors
///
/// [`Cause::Moved`] if they have layout 2 already, [`Cause::Damaged`], [`Cause::Unformatted`], [`Cause::TooSmall`],
/// [`Cause::DiskFailed`], [`Cause::NoMemory`], [`Cause::WrongVersion`]; [`Cause::System`], with `NotFound` if there is
/// no file, `WouldBlock` if a till has it, or why it couldn't be written.
pub fn migrate(path: impl AsRef<Path>) -> Result<(), Error> {
    let failed = |cause| Error::new("migrate", cause);
    check_version().map_err(failed)?;
    let file = open_existing(path.as_ref()).map_err(|cause| failed(Cause::System(cause)))?;
    let bytes = read_whole(&file).map_err(|cause| failed(Cause::System(cause)))?;
    let mut till = Inner::over_file(BUILT_PROFILE, file, bytes, kijolvar_migrate_file).map_err(failed)?;
    till.settle().map_err(|cause| failed(cause.of_file()))
}

#[cfg(test)]
mod tests {
    use super::read_device;

    #[test]
    fn a_device_has_the_numbers_of_its_category() {
        let near = |line: &str| read_device(line).map(|device| device.near);
        assert_eq!((near("r1 POSPrinter chars 8 near 2"), near("d1 CashDrawer")), (Some(2), Some(0)));
        for rest in ["", " chars 8", " chars 8 near x", " chars 8 rows 2", " chars 8 near 2 rows 2", " near 2 chars 8"]
        {
            assert_eq!(near(&format!("r1 POSPrinter{rest}")), None, "{rest}");
        }
        for line in ["", "r1", "r1 Till", "d1 CashDrawer near 2"] {
            assert_eq!(near(line), None, "{line}");
        }
    }
}
