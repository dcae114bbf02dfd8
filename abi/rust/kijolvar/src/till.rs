//! A till: the library's, its totals, and its controls.
use crate::devices::{Order, Work};
use crate::drivers::Driver;
use crate::drives::{DriverState, Drives, Effect};
use crate::error::{Cause, Error};
use crate::event::{Event, Events};
use crate::line::{is_name, value_of, Answer, Line};
use crate::questions::explain;
use crate::raw::*;
use crate::stack::with_stack;
use crate::standard::{library, Category, ResultCode};
use crate::totals_file::{read_whole, LockedFile, Totals};
use crate::views::{self, DisplayView, PrinterView};
use crate::wire::{Asked, PrinterReply, WireSettings};
use std::cell::{RefCell, RefMut};
use std::ffi::c_void;
use std::fmt;
use std::io;
use std::os::unix::fs::FileExt;
use std::sync::atomic::{AtomicU64, Ordering};
use std::time::Duration;

/// The text of the built-in profile: the drawer `d1`, the scanner `s1`, the display `p1` of 2 rows of 4 columns, the
/// printer `r1` of 8 characters a line with 5 lines of paper, the totals `t1`, and a spare drawer.
pub const BUILT_PROFILE: &str = r#"[[device]]
name = "d1"
category = "CashDrawer"

[[device]]
name = "s1"
category = "Scanner"

[[device]]
name = "p1"
category = "LineDisplay"
rows = 2
columns = 4

[[device]]
name = "r1"
category = "POSPrinter"
chars = 8
lines = 5
near = 2

[[device]]
name = "t1"
category = "HardTotals"

[[spare]]
category = "CashDrawer"
"#;

/// The text by which the library gets a profile: to it an empty one is the built-in profile.
pub(crate) fn library_text(profile: &str) -> &str {
    match profile {
        BUILT_PROFILE => "",
        "" => "\n",
        other => other,
    }
}

/// A call of the library that makes a till over a file's bytes.
type Begin = unsafe extern "C" fn(*const u8, usize, *const u8, usize, *mut *mut c_void) -> u32;

/// A control that the library has.
struct Entry {
    name: String,
    /// Whether its name was chosen. Then only who chooses it again gets the control.
    is_chosen: bool,
    category: Category,
    number: usize,
    /// The device on which it was opened last, but for lines.
    device: Option<String>,
    /// Whether it may be handed out again.
    is_free: bool,
}

impl Entry {
    /// Whether the control may be handed out for a category, and a chosen name if there is one.
    fn fits(&self, category: Category, name: Option<&str>) -> bool {
        self.is_free && self.category == category && name.map_or(!self.is_chosen, |name| name == self.name)
    }
}

/// What a till notes of a control, also while a call is under way.
#[derive(Default)]
struct Note {
    /// How often it was given back.
    turn: u64,
    /// The device on which it is open, but for lines.
    device: Option<String>,
    /// Whether a transaction of it is to be rolled back, which couldn't be done yet.
    is_rollback_due: bool,
}

/// What a till has.
pub(crate) struct Inner {
    pub(crate) at: Raw,
    totals: Option<LockedFile>,
    errand: Vec<u8>,
    pub(crate) text: Vec<u8>,
    controls: Vec<Entry>,
    /// The places of controls that were given back, and aren't closed yet.
    unclosed: Vec<usize>,
    names: u64,
    /// Whether lines may have opened a control: on which device it is isn't known then.
    has_opened: bool,
    pub(crate) drives: Drives,
}

/// What the library's code means to who opens a till of a profile.
pub(crate) fn opening_cause(code: u32, profile: &str) -> Cause {
    match code {
        library::NO_MEMORY => Cause::NoMemory,
        library::BAD_PROFILE => explain(profile),
        library::TOO_SMALL => Cause::TooSmall,
        library::UNFORMATTED => Cause::Unformatted,
        library::DAMAGED => Cause::Damaged(None),
        library::MOVED => Cause::Moved,
        _ => Cause::DiskFailed(None),
    }
}

/// Refuses a library of another version, whose answers may mean something else.
pub(crate) fn check_version() -> Result<(), Cause> {
    // SAFETY: it takes nothing.
    if unsafe { kijolvar_version() } == library::VERSION {
        Ok(())
    } else {
        Err(Cause::WrongVersion)
    }
}

/// Refuses what can't be a device's name.
fn checked(call: &'static str, device: &str) -> Result<(), Error> {
    if is_name(device) {
        Ok(())
    } else {
        Err(Error::new(call, Cause::BadArgument))
    }
}

impl Inner {
    fn new(at: Raw, totals: Option<LockedFile>, errand: Vec<u8>) -> Inner {
        let drives = Drives::default();
        let (controls, unclosed) = (Vec::new(), Vec::new());
        Inner { at, totals, errand, text: vec![0; 256], controls, unclosed, names: 0, has_opened: false, drives }
    }

    /// A till with totals in memory.
    fn in_memory(profile: &str) -> Result<Inner, Cause> {
        let text = library_text(profile);
        let (code, at) = with_stack(|| {
            let mut at = std::ptr::null_mut();
            // SAFETY: a slice and a place, lent for the call.
            let code = unsafe { kijolvar_open(text.as_ptr(), text.len(), &mut at) };
            (code, Raw(at))
        })?;
        match code {
            library::OK => Ok(Inner::new(at, None, Vec::new())),
            code => Err(opening_cause(code, profile)),
        }
    }

    /// A till over a file's bytes, which are the room for its errands from then on.
    pub(crate) fn over_file(profile: &str, file: LockedFile, bytes: Vec<u8>, begin: Begin) -> Result<Inner, Cause> {
        let text = library_text(profile);
        let (code, at) = with_stack(|| {
            let mut at = std::ptr::null_mut();
            // SAFETY: slices and a place, lent for the call.
            let code = unsafe { begin(text.as_ptr(), text.len(), bytes.as_ptr(), bytes.len(), &mut at) };
            (code, Raw(at))
        })?;
        match code {
            library::OK => Ok(Inner::new(at, Some(file), bytes)),
            code => Err(opening_cause(code, profile)),
        }
    }

    /// Ends the till, and returns the file of its totals.
    pub(crate) fn into_file(mut self) -> Option<LockedFile> {
        self.totals.take()
    }

    /// Does in the file what the till's disk did, errand by errand. A process that was forked does none: the one that
    /// opened the till writes the file, and would write over what another wrote.
    pub(crate) fn settle(&mut self) -> Result<(), Cause> {
        let Some(file) = &self.totals else { return Ok(()) };
        loop {
            let (mut at, mut count) = (0, 0);
            // SAFETY: the pointer is the one that was written last, and the buffers are apart.
            let code = unsafe {
                let (till, out) = (self.at, &mut self.at.0);
                kijolvar_next_errand(till, out, &mut at, self.errand.as_mut_ptr(), self.errand.len(), &mut count)
            };
            let done = match code {
                library::OK => return Ok(()),
                library::WRITE | library::SYNC if !file.is_own() => {
                    Err(Some(io::Error::other("another process has opened the till")))
                }
                library::WRITE => file.write_all_at(&self.errand[..count], at).map_err(Some),
                library::SYNC => file.sync_all().map_err(Some),
                _ => Err(None),
            };
            if let Err(fault) = done {
                // SAFETY: as above.
                unsafe { kijolvar_errand_failed(self.at, &mut self.at.0) };
                return Err(Cause::DiskFailed(fault));
            }
        }
    }

    /// The answer to the lines that were given last, and its code.
    pub(crate) fn answer(&mut self, needed: &mut usize) -> u32 {
        let (till, out) = (self.at, &mut self.at.0);
        // SAFETY: the pointer is the one that was written last, and the buffers are apart.
        unsafe { kijolvar_answer(till, out, self.text.as_mut_ptr(), self.text.len(), needed) }
    }

    /// Carries out lines: the text of their answers, once what they changed is in the file. What a line does to
    /// drivers is done before the next line.
    pub(crate) fn carry_out(&mut self, lines: &[u8]) -> Result<String, Cause> {
        let (mut answers, mut rest) = (String::new(), lines);
        loop {
            let (count, effect) = self.drives.first_effect(rest);
            self.drives.is_working = matches!(effect, Some(Effect::Works));
            let found = self.carry_out_lines(&rest[..count]);
            if let Some(effect) = effect {
                self.apply_effect(effect, &found);
            }
            let found = match found {
                // Lines before these were carried out.
                Err(Cause::NoMemory) if rest.len() < lines.len() => return Err(Cause::NoAnswer),
                found => found?,
            };
            answers = if answers.is_empty() { found } else { answers + &found };
            rest = &rest[count..];
            if rest.is_empty() {
                return Ok(answers);
            }
        }
    }

    fn carry_out_lines(&mut self, lines: &[u8]) -> Result<String, Cause> {
        let mut needed = 0;
        self.give_up_held()?;
        let (till, out) = (self.at, &mut self.at.0);
        // SAFETY: the pointer is the one that was written last, and the buffers are apart.
        let mut code = unsafe {
            let (text, room) = (self.text.as_mut_ptr(), self.text.len());
            kijolvar_carry_out(till, out, lines.as_ptr(), lines.len(), text, room, &mut needed)
        };
        if code != library::OK && !self.drives.is_empty() {
            let text = self.served(code, needed)?;
            return String::from_utf8(text).map_err(|fault| Cause::BadAnswer(fault.to_string()));
        }
        if code == library::ERRANDS {
            self.settle()?;
            code = self.answer(&mut needed);
        }
        if code == library::SHORT {
            self.text.resize(needed, 0);
            code = self.answer(&mut needed);
        }
        match code {
            library::OK => {
                let text = &self.text[..needed];
                String::from_utf8(text.to_vec()).map_err(|_| Cause::BadAnswer(format!("{text:?}")))
            }
            library::CUT => Err(Cause::NoAnswer),
            _ => Err(Cause::DiskFailed(None)),
        }
    }

    /// Carries out one line: its answer.
    pub(crate) fn ask(&mut self, line: &Line) -> Result<String, Cause> {
        let mut text = self.carry_out(line.text()?.as_bytes())?;
        text.truncate(text.trim_end_matches('\n').len());
        Ok(text)
    }

    /// Makes a control, or takes one that was given back: its place.
    fn control(&mut self, category: Category, name: Option<&str>) -> Result<usize, Cause> {
        self.close_given_back();
        let is_chosen = name.is_some();
        if let Some(place) = self.controls.iter().position(|entry| entry.fits(category, name)) {
            let entry = &mut self.controls[place];
            (entry.is_free, entry.is_chosen) = (false, is_chosen);
            return Ok(place);
        }
        loop {
            self.names += 1;
            let made = name.map_or_else(|| format!("k{}", self.names), str::to_string);
            let answer = self.ask(&Line::new("new").name(&made).word(category.word()))?;
            match value_of(&answer, None) {
                Ok(_) => {}
                Err(Cause::NameInUse) if name.is_none() => continue,
                Err(cause) => return Err(cause),
            }
            let number = self.number_of(&made)?;
            self.controls.push(Entry { name: made, is_chosen, category, number, device: None, is_free: false });
            return Ok(self.controls.len() - 1);
        }
    }

    /// The device on which the control of a name was opened last, if that is known.
    pub(crate) fn device_of(&self, control: &[u8]) -> Option<&str> {
        let entry = self.controls.iter().find(|entry| entry.name.as_bytes() == control)?;
        entry.device.as_deref().filter(|_| !self.has_opened)
    }

    /// Whether a control is closed, which is tried. If there is no memory for the answer, that isn't known.
    fn is_closed(&mut self, place: usize) -> bool {
        let line = Line::new("close").name(&self.controls[place].name);
        let Ok(answer) = self.ask(&line) else { return false };
        matches!(value_of(&answer, None), Ok(_) | Err(Cause::Code(ResultCode::Closed)))
    }

    /// Closes the controls that were given back. One that can't be closed, as without memory, is open still and may be
    /// claimed: it isn't handed out, and this is tried again with the next call.
    fn close_given_back(&mut self) {
        while let Some(&place) = self.unclosed.last() {
            if !self.is_closed(place) {
                return;
            }
            self.controls[place].is_free = true;
            self.unclosed.pop();
        }
    }

    /// The library's number of the control of a name.
    fn number_of(&mut self, name: &str) -> Result<usize, Cause> {
        let mut number = 0;
        let (till, out) = (self.at, &mut self.at.0);
        // SAFETY: the pointer is the one that was written last, and the name and the place are lent for the call.
        match unsafe { kijolvar_control(till, out, name.as_ptr(), name.len(), &mut number) } {
            library::OK => Ok(number),
            _ => Err(Cause::BadAnswer(name.to_string())),
        }
    }

    /// The lowest number, from one on, of a control that has an event to deliver.
    fn next_event(&mut self, from: usize) -> Result<Option<usize>, Cause> {
        let mut number = 0;
        let (till, out) = (self.at, &mut self.at.0);
        // SAFETY: the pointer is the one that was written last, and the place is lent for the call.
        match unsafe { kijolvar_next_event(till, out, from, &mut number) } {
            library::EVENT => Ok(Some(number)),
            library::OK => Ok(None),
            _ => Err(Cause::DiskFailed(None)),
        }
    }

    /// The first control, by its number from one on, that has an event to deliver: its number, name and category. Lines
    /// may have made controls that aren't in the list, and those are passed over.
    fn control_with_event(&mut self, mut from: usize) -> Result<Option<(usize, String, Category)>, Cause> {
        self.close_given_back();
        while let Some(number) = self.next_event(from)? {
            if let Ok(place) = self.controls.binary_search_by_key(&number, |entry| entry.number) {
                let entry = &self.controls[place];
                return Ok(Some((number, entry.name.clone(), entry.category)));
            }
            from = number + 1;
        }
        Ok(None)
    }

    /// Takes out the oldest order of the host's devices: its line.
    fn next_order(&mut self) -> Result<Option<String>, Cause> {
        // The order of a line that is held is its driver's.
        self.give_up_held()?;
        match self.drives.hosted_order() {
            Some(line) => Ok(Some(line)),
            None => self.taken_out(),
        }
    }

    /// Takes out the oldest order that the library has: its line.
    pub(crate) fn taken_out(&mut self) -> Result<Option<String>, Cause> {
        let mut needed = 0;
        loop {
            let (till, out) = (self.at, &mut self.at.0);
            // SAFETY: the pointer is the one that was written last, and the buffers are apart.
            let code = unsafe { kijolvar_next_order(till, out, self.text.as_mut_ptr(), self.text.len(), &mut needed) };
            match code {
                library::SHORT => self.text.resize(needed, 0),
                library::ORDER => return Ok(Some(String::from_utf8_lossy(&self.text[..needed]).into_owned())),
                library::OK => return Ok(None),
                library::NO_MEMORY => return Err(Cause::NoMemory),
                _ => return Err(Cause::DiskFailed(None)),
            }
        }
    }

    /// Reads the first reply of what a printer sent.
    pub(crate) fn reply(
        &mut self,
        device: &[u8],
        settings: &WireSettings,
        asked: Asked,
        bytes: &[u8],
    ) -> Result<PrinterReply, Cause> {
        let (mut used, mut skipped, mut needed) = (0, 0, 0);
        loop {
            let (till, out) = (self.at, &mut self.at.0);
            // SAFETY: the pointer is the one that was written last, what is given is lent, and the buffers are apart.
            let code = unsafe {
                let (text, room) = (self.text.as_mut_ptr(), self.text.len());
                let (name, bytes, count) = (device.as_ptr(), bytes.as_ptr(), bytes.len());
                kijolvar_replies(
                    till,
                    out,
                    name,
                    device.len(),
                    settings,
                    asked as u32,
                    bytes,
                    count,
                    &mut used,
                    &mut skipped,
                    text,
                    room,
                    &mut needed,
                )
            };
            match code {
                library::SHORT => self.text.resize(needed, 0),
                library::OK => {
                    let lines = String::from_utf8_lossy(&self.text[..needed]).lines().map(str::to_string).collect();
                    return Ok(PrinterReply { used, skipped, lines });
                }
                library::NO_DEVICE => return Err(Cause::NoDevice),
                library::BAD_SETTINGS => return Err(Cause::BadSettings),
                _ => return Err(Cause::NoMemory),
            }
        }
    }
}

impl Drop for Inner {
    fn drop(&mut self) {
        // SAFETY: the pointer is the one that was written last, and nobody has it from now on.
        unsafe { kijolvar_close(self.at) }
    }
}

/// A till: the devices of a profile, which its controls use.
///
/// A till may be moved to another thread (it is `Send`), and is used by one thread at a time (it isn't `Sync`). An
/// [`Actor`] has one for several threads. Dropping a till closes its controls and the file of its totals.
///
/// A till over a file is for the process that opened it. In a process that was forked, a call that changes the totals
/// fails with [`Cause::DiskFailed`], and the file stays as it is. If the totals are in memory, each process has its own
/// till from then on.
///
/// [`Actor`]: crate::Actor
///
/// ```
/// use kijolvar::{Till, Totals, BUILT_PROFILE};
///
/// let till = Till::open(BUILT_PROFILE, Totals::Memory)?;
/// let drawer = till.cash_drawer("d1")?.enabled()?;
/// drawer.open_drawer()?;
/// assert!(drawer.drawer_opened()?);
/// let moved = std::thread::spawn({
///     drop(drawer);
///     move || till.cash_drawer("d1").map(|_| ())
/// });
/// moved.join().unwrap()?;
/// # Ok::<(), kijolvar::Error>(())
/// ```
///
/// A till isn't shared by threads:
///
/// ```compile_fail
/// fn is_sync<T: Sync>() {}
/// is_sync::<kijolvar::Till>();
/// ```
pub struct Till {
    pub(crate) inner: RefCell<Inner>,
    /// Of each control by its place, and the places of those that were given back since a call began.
    notes: RefCell<Vec<Note>>,
    given_back: RefCell<Vec<usize>>,
    number: u64,
}

impl Till {
    /// Opens a till over a profile's text (TOML, docs/reference/profile.md; [`BUILT_PROFILE`] is the built-in one),
    /// with its totals in memory or in a file. An empty text is a profile without devices.
    ///
    /// The file is locked until the till is dropped, and a call that changes the totals returns once the change is
    /// synced. A file that isn't formatted opens; enabling its totals is E_NOHARDWARE.
    ///
    /// # Errors
    ///
    /// [`Cause::BadProfile`], [`Cause::System`], [`Cause::TooSmall`], [`Cause::DiskFailed`], [`Cause::NoMemory`],
    /// [`Cause::WrongVersion`].
    ///
    /// ```
    /// use kijolvar::{Cause, Till, Totals};
    ///
    /// let refused = Till::open("name = \"d1\"\n", Totals::Memory).err().unwrap();
    /// assert!(matches!(refused.cause(), Cause::BadProfile(_)));
    /// assert_eq!(refused.to_string(), "Till::open: the profile is refused: unknown key: name");
    /// ```
    pub fn open(profile: &str, totals: Totals) -> Result<Till, Error> {
        static NUMBERS: AtomicU64 = AtomicU64::new(1);
        let inner = Till::begin(profile, &totals).map_err(|cause| Error::new("Till::open", cause))?;
        let (notes, given_back) = (RefCell::default(), RefCell::default());
        Ok(Till { inner: RefCell::new(inner), notes, given_back, number: NUMBERS.fetch_add(1, Ordering::Relaxed) })
    }

    fn begin(profile: &str, totals: &Totals) -> Result<Inner, Cause> {
        check_version()?;
        let Some(file) = totals.open(profile)? else { return Inner::in_memory(profile) };
        let bytes = read_whole(&file).map_err(Cause::System)?;
        let mut inner = Inner::over_file(profile, file, bytes, kijolvar_open_file)?;
        inner.settle()?;
        Ok(inner)
    }

    /// A number that no other till of the process has.
    pub(crate) fn number(&self) -> u64 {
        self.number
    }

    /// Begins a call, unless one is under way: then a driver calls its till.
    pub(crate) fn enter(&self, call: &'static str) -> Result<RefMut<'_, Inner>, Error> {
        let mut inner = self.inner.try_borrow_mut().map_err(|_| Error::new(call, Cause::InCall))?;
        inner.unclosed.append(&mut self.given_back.borrow_mut());
        Ok(inner)
    }

    /// Carries out lines of the text interface (docs/reference/console.md) one after the other, and returns their
    /// answers, a line each. An empty line and a comment (`#`) have none.
    ///
    /// # Errors
    ///
    /// [`Cause::NoMemory`], only if a device has a driver: no line was carried out. [`Cause::NoAnswer`] if memory ran
    /// out within the answers: lines up to one were carried out. [`Cause::DiskFailed`].
    ///
    /// ```
    /// # use kijolvar::{Till, Totals, BUILT_PROFILE};
    /// # let till = Till::open(BUILT_PROFILE, Totals::Memory)?;
    /// assert_eq!(till.carry_out("show d1\nshow s1\nnonsense\n")?, "ok closed\nok\nbad line\n");
    /// # Ok::<(), kijolvar::Error>(())
    /// ```
    pub fn carry_out(&self, lines: impl AsRef<[u8]>) -> Result<String, Error> {
        let (mut inner, lines) = (self.enter("Till::carry_out")?, lines.as_ref());
        inner.has_opened = inner.has_opened || lines.windows(5).any(|words| words == b"open ");
        inner.carry_out(lines).map_err(|cause| Error::new("Till::carry_out", cause))
    }

    /// Carries out one line: its whole answer.
    pub(crate) fn answer(&self, call: &'static str, line: &Line) -> Result<String, Error> {
        let mut inner = self.enter(call)?;
        inner.close_given_back();
        inner.ask(line).map_err(|cause| Error::new(call, cause))
    }

    /// Carries out one line of a control of this category, or of a device: what is behind `ok`.
    pub(crate) fn ask(&self, call: &'static str, category: Option<Category>, line: &Line) -> Result<Answer, Error> {
        let mut text = self.answer(call, line)?;
        let failed = |cause| match category {
            Some(category) => self.refused(call, cause, category, line),
            None => Error::new(call, cause),
        };
        let value = value_of(&text, category).map_err(failed)?.len();
        Ok(Answer::new(call, text.split_off(text.len() - value)))
    }

    /// A control of this category has refused a line.
    fn refused(&self, call: &'static str, cause: Cause, category: Category, line: &Line) -> Error {
        let is_offline = matches!(cause, Cause::Code(ResultCode::Offline));
        let error = Error::refused(call, cause, category, line.verb());
        match (is_offline, line.first_name(), self.inner.try_borrow()) {
            (true, Some(name), Ok(inner)) => error.with_port_error(inner.port_error_of(name)),
            _ => error,
        }
    }

    /// Makes a control: its name, its place, and its turn.
    pub(crate) fn new_control(&self, category: Category, name: Option<&str>) -> Result<(String, usize, u64), Error> {
        let failed = |cause| Error::new("new control", cause);
        if name.is_some_and(|name| !is_name(name)) {
            return Err(failed(Cause::BadArgument));
        }
        let mut inner = self.enter("new control")?;
        let place = inner.control(category, name).map_err(failed)?;
        let mut notes = self.notes.borrow_mut();
        notes.resize_with(inner.controls.len(), Note::default);
        Ok((inner.controls[place].name.clone(), place, notes[place].turn))
    }

    /// A control was opened on a device.
    pub(crate) fn opened_on(&self, place: usize, device: &str) {
        self.inner.borrow_mut().controls[place].device = Some(device.to_string());
        self.notes.borrow_mut()[place].device = Some(device.to_string());
    }

    /// A control was closed.
    pub(crate) fn closed(&self, place: usize) {
        self.notes.borrow_mut()[place].device = None;
    }

    /// The device on which a control is open.
    pub(crate) fn open_device(&self, place: usize) -> Option<String> {
        self.notes.borrow()[place].device.clone()
    }

    /// Whether a control wasn't given back since its turn began.
    pub(crate) fn has_turn(&self, place: usize, turn: u64) -> bool {
        self.notes.borrow()[place].turn == turn
    }

    /// Notes whether a control's transaction is to be rolled back, and returns whether one was.
    pub(crate) fn set_rollback_due(&self, place: usize, is_due: bool) -> bool {
        std::mem::replace(&mut self.notes.borrow_mut()[place].is_rollback_due, is_due)
    }

    /// Closes a control, and hands it out again from then on; once the call that is under way returns, if one is.
    pub(crate) fn give_back(&self, place: usize) {
        let turn = self.notes.borrow()[place].turn + 1;
        // Closing it ends its transaction.
        self.notes.borrow_mut()[place] = Note { turn, ..Note::default() };
        self.given_back.borrow_mut().push(place);
        if let Ok(mut inner) = self.enter("discard") {
            inner.close_given_back();
        }
    }

    /// Delivers the next event of any control: the control's name, and the event. Of several controls with an event it
    /// is the one that was made first. This asks the library once, however many controls there are. Controls that lines
    /// made are passed over.
    ///
    /// # Errors
    ///
    /// [`Cause::DiskFailed`], [`Cause::NoAnswer`], [`Cause::BadAnswer`].
    pub fn next_event(&self) -> Result<Option<(String, Event)>, Error> {
        self.next_event_from(&mut 0)
    }

    /// Delivers the next event of the controls from a number on, which is the one behind its control then.
    fn next_event_from(&self, from: &mut usize) -> Result<Option<(String, Event)>, Error> {
        let found = self.enter("next_event")?.control_with_event(*from);
        let found = found.map_err(|cause| Error::new("next_event", cause))?;
        let Some((number, name, category)) = found else { return Ok(None) };
        *from = number + 1;
        Ok(Event::deliver(self, &name, category, None)?.map(|event| (name, event)))
    }

    /// Returns an iterator that delivers the events of all controls, one of each in turn, until none is left.
    ///
    /// ```
    /// # use kijolvar::{standard::DrawerStatus, Event, StatusUpdate, Till, Totals, BUILT_PROFILE};
    /// # let till = Till::open(BUILT_PROFILE, Totals::Memory)?;
    /// let drawer = till.cash_drawer("d1")?.enabled()?;
    /// drawer.open_drawer()?;
    /// let events = till.events().collect::<Result<Vec<_>, _>>()?;
    /// let opened = Event::StatusUpdate(StatusUpdate::Drawer(DrawerStatus::Open));
    /// assert_eq!(events, [(drawer.name().to_string(), opened)]);
    /// # Ok::<(), kijolvar::Error>(())
    /// ```
    pub fn events(&self) -> Events<'_, (String, Event)> {
        let mut from = 0;
        Events::new(Box::new(move || match self.next_event_from(&mut from)? {
            None if from > 0 => {
                from = 0;
                self.next_event_from(&mut from)
            }
            found => Ok(found),
        }))
    }

    fn ask_device(&self, call: &'static str, line: Line) -> Result<(), Error> {
        self.ask(call, None, &line)?.nothing()
    }

    /// Says that a cash drawer is opened or closed by hand.
    ///
    /// # Errors
    ///
    /// [`Cause::BadDevice`], [`Cause::BadInput`] if the device is no drawer, [`Cause::NoMemory`].
    pub fn input_drawer(&self, device: &str, is_open: bool) -> Result<(), Error> {
        self.ask_device("input_drawer", Line::new("input").name(device).word(if is_open { "open" } else { "closed" }))
    }

    /// Says that a scanner reads a code: its type, all that was read, and its label. The type is 0 to 999;
    /// [`ScanDataType`](crate::standard::ScanDataType) has names of many.
    ///
    /// # Errors
    ///
    /// [`Cause::BadDevice`], [`Cause::BadInput`] if the device is no scanner or takes no such type,
    /// [`Cause::NoMemory`].
    pub fn input_scan(
        &self,
        device: &str,
        kind: u64,
        data: impl AsRef<[u8]>,
        label: impl AsRef<[u8]>,
    ) -> Result<(), Error> {
        let line = Line::new("input").name(device).word("scan").number(kind).bytes(data.as_ref()).bytes(label.as_ref());
        self.ask_device("input_scan", line)
    }

    /// Says that a scanner fails to read.
    ///
    /// # Errors
    ///
    /// [`Cause::BadDevice`], [`Cause::BadInput`] if the device is no scanner, [`Cause::NoMemory`].
    pub fn input_scan_fault(&self, device: &str) -> Result<(), Error> {
        self.ask_device("input_scan_fault", Line::new("input").name(device).word("fault"))
    }

    /// Says that a printer's cover is opened or closed by hand.
    ///
    /// # Errors
    ///
    /// [`Cause::BadDevice`], [`Cause::BadInput`] if the device is no printer, [`Cause::NoMemory`].
    pub fn input_cover(&self, device: &str, is_open: bool) -> Result<(), Error> {
        let word = if is_open { "open" } else { "closed" };
        self.ask_device("input_cover", Line::new("input").name(device).word("cover").word(word))
    }

    /// Says that a printer is loaded with paper: 0 to 100,000 lines are left.
    ///
    /// # Errors
    ///
    /// [`Cause::BadDevice`], [`Cause::BadInput`] if the device is no printer or there are more lines,
    /// [`Cause::NoMemory`].
    pub fn input_paper(&self, device: &str, lines: u64) -> Result<(), Error> {
        self.ask_device("input_paper", Line::new("input").name(device).word("paper").number(lines))
    }

    /// Says that a device is switched on or off.
    ///
    /// # Errors
    ///
    /// [`Cause::BadDevice`], [`Cause::NoMemory`].
    pub fn input_power(&self, device: &str, is_on: bool) -> Result<(), Error> {
        self.ask_device(
            "input_power",
            Line::new("input").name(device).word("power").word(if is_on { "on" } else { "off" }),
        )
    }

    /// Works on the output that waits for a printer (AsyncMode): its first request is done, or fails.
    ///
    /// # Errors
    ///
    /// [`Cause::BadDevice`], [`Cause::NoMemory`].
    pub fn work(&self, device: &str) -> Result<Work, Error> {
        let text = self.answer("work", &Line::new("work").name(device))?;
        Work::read(&text).map_err(|cause| Error::new("work", cause))
    }

    /// Returns what a simulated device is physically, as docs/reference/console.md says under "Answers".
    ///
    /// # Errors
    ///
    /// [`Cause::BadDevice`].
    pub fn show(&self, device: &str) -> Result<String, Error> {
        Ok(self.ask("show", None, &Line::new("show").name(device))?.text())
    }

    /// What a simulated device is, if it is of the right kind.
    fn view<T>(&self, call: &'static str, device: &str, read: impl Fn(&str) -> Option<T>) -> Result<T, Error> {
        let text = self.ask(call, None, &Line::new("show").name(device))?.text();
        read(&text).ok_or_else(|| Error::new(call, Cause::WrongKind))
    }

    /// Returns whether a simulated drawer is open.
    ///
    /// # Errors
    ///
    /// [`Cause::BadDevice`], [`Cause::WrongKind`].
    pub fn show_drawer(&self, device: &str) -> Result<bool, Error> {
        self.view("show_drawer", device, views::is_open)
    }

    /// Returns what a simulated line display shows.
    ///
    /// # Errors
    ///
    /// [`Cause::BadDevice`], [`Cause::WrongKind`].
    pub fn show_display(&self, device: &str) -> Result<DisplayView, Error> {
        self.view("show_display", device, DisplayView::read)
    }

    /// Returns what a simulated receipt printer is, and what it has printed.
    ///
    /// # Errors
    ///
    /// [`Cause::BadDevice`], [`Cause::WrongKind`].
    ///
    /// ```
    /// # use kijolvar::{standard::PrinterStation, Alignment, Printed, Till, Totals, BUILT_PROFILE};
    /// # let till = Till::open(BUILT_PROFILE, Totals::Memory)?;
    /// till.pos_printer("r1")?.enabled()?.print_normal(PrinterStation::Receipt, "\x1b|rAMilk\n")?;
    /// let printer = till.show_printer("r1")?;
    /// assert_eq!(printer.lines, 4);
    /// assert!(matches!(&printer.items[0], Printed::Line(Alignment::Right, text) if text.characters == b"Milk"));
    /// # Ok::<(), kijolvar::Error>(())
    /// ```
    pub fn show_printer(&self, device: &str) -> Result<PrinterView, Error> {
        self.view("show_printer", device, PrinterView::read)
    }

    /// Attaches a spare of the profile, by its number from 1 on: it serves the device from now on. If the device has a
    /// driver, that carries out its orders too. The same is so of an `attach` among lines ([`Till::carry_out`]).
    ///
    /// # Errors
    ///
    /// [`Cause::BadSpare`], [`Cause::Unknown`], [`Cause::InUse`], [`Cause::KindDiffers`], [`Cause::NoMemory`].
    pub fn attach(&self, device: &str, spare: u64) -> Result<(), Error> {
        self.ask_device("attach", Line::new("attach").name(device).number(spare))
    }

    /// Detaches a device's peripheral, which ends. A driver of the device stays, and gets no orders until a spare is
    /// attached.
    ///
    /// # Errors
    ///
    /// [`Cause::Unknown`], [`Cause::Vacant`], [`Cause::InUse`], [`Cause::NoMemory`].
    pub fn detach(&self, device: &str) -> Result<(), Error> {
        self.ask_device("detach", Line::new("detach").name(device))
    }

    /// Says that you have this device as hardware: its orders come by [`Till::next_order`] from now on (abi/README.md).
    ///
    /// # Errors
    ///
    /// [`Cause::BadArgument`] if it can't be a device's name, [`Cause::NoDevice`], [`Cause::NoMemory`].
    pub fn host(&self, device: &str) -> Result<(), Error> {
        checked("host", device)?;
        let mut inner = self.enter("host")?;
        let till = inner.at;
        // SAFETY: the pointer is the one that was written last, and the name is lent for the call.
        match unsafe { kijolvar_host(till, &mut inner.at.0, device.as_ptr(), device.len()) } {
            library::OK => Ok(()),
            library::NO_MEMORY => Err(Error::new("host", Cause::NoMemory)),
            _ => Err(Error::new("host", Cause::NoDevice)),
        }
    }

    /// Takes the printed paper of a device away: a printer shows no line and no cut then, only the line that has
    /// begun. A till keeps all that a printer prints, so do it now and then for a printer of which you have the
    /// hardware. A till does it by itself for a printer that has a driver, after each 500 orders.
    ///
    /// # Errors
    ///
    /// [`Cause::BadArgument`] if it can't be a device's name, [`Cause::NoDevice`], [`Cause::NoMemory`].
    pub fn tear_off(&self, device: &str) -> Result<(), Error> {
        checked("tear_off", device)?;
        let done = self.enter("tear_off")?.tear_off(device);
        done.map_err(|cause| Error::new("tear_off", cause))
    }

    /// Takes out the oldest order of the devices that you have. Take them out after each call.
    ///
    /// # Errors
    ///
    /// [`Cause::NoMemory`], [`Cause::DiskFailed`], [`Cause::BadAnswer`].
    ///
    /// ```
    /// # use kijolvar::{Order, Till, Totals, BUILT_PROFILE};
    /// # let till = Till::open(BUILT_PROFILE, Totals::Memory)?;
    /// till.host("d1")?;
    /// till.cash_drawer("d1")?.enabled()?.open_drawer()?;
    /// assert_eq!(till.next_order()?, Some(Order::OpenDrawer { device: "d1".to_string() }));
    /// assert_eq!(till.next_order()?, None);
    /// # Ok::<(), kijolvar::Error>(())
    /// ```
    pub fn next_order(&self) -> Result<Option<Order>, Error> {
        let failed = |cause| Error::new("next_order", cause);
        let Some(line) = self.enter("next_order")?.next_order().map_err(failed)? else { return Ok(None) };
        Order::read(&line).map(Some).ok_or_else(|| failed(Cause::BadAnswer(line)))
    }

    /// Has a [`Driver`], or a boxed one, carry out the orders of a device from now on. A call that orders something
    /// returns once the device has done it. If it hasn't, the call is refused with E_EXTENDED (the cover is open, the
    /// paper is at its end), E_OFFLINE, or E_FAILURE if the device gives no reason.
    ///
    /// Hardware that isn't there is no error: the device is off until [`Till::run_devices`] finds it. So that the till
    /// knows how a printer is, the call waits for its first status, at most for its timeout. A display's port may take
    /// as long to open, and a scanner's 2 seconds.
    ///
    /// # Errors
    ///
    /// [`Cause::BadArgument`] if it can't be a device's name, [`Cause::BadDevice`], [`Cause::KindDiffers`],
    /// [`Cause::Driven`], [`Cause::BadSettings`]; [`Cause::NoDevice`] if it can't be driven, as one with `flaky`;
    /// [`Cause::NoMemory`].
    pub fn drive(&self, device: &str, driver: impl Into<Box<dyn Driver>>) -> Result<(), Error> {
        let done = self.enter("drive")?.drive(device, driver.into());
        done.map_err(|cause| Error::new("drive", cause))
    }

    /// Does what the driven devices need: tells the till what they say of themselves and what was scanned, opens lost
    /// ports again, and prints output that waits (AsyncMode), at most one request of each printer. Call it regularly,
    /// and then deliver events. It waits as long as this until there is something to do, also if no device has a
    /// driver, and without an end with [`Duration::MAX`]; printing may take longer. Returns whether anything was done.
    ///
    /// Nobody else can use the till meanwhile. If several threads do, give it to an [`Actor`](crate::Actor), and call
    /// [`Actor::run_devices`](crate::Actor::run_devices).
    ///
    /// Output that was refused is tried again 100 ms later at the earliest, each time with an ErrorEvent.
    ///
    /// If a call fails, make it again: it keeps the inputs and the scans that it didn't get to, and those for which
    /// there was no memory. An input without an answer ([`Cause::NoAnswer`]) may be told twice. So may one behind an
    /// input that found no memory.
    ///
    /// # Errors
    ///
    /// [`Cause::BadInput`] and [`Cause::BadArgument`] if a driver says what can't be of its device, or has read what no
    /// code can be; [`Cause::NoMemory`], [`Cause::NoAnswer`], [`Cause::BadAnswer`], [`Cause::DiskFailed`].
    pub fn run_devices(&self, timeout: Duration) -> Result<bool, Error> {
        let done = self.enter("run_devices")?.run_devices(timeout);
        done.map_err(|cause| Error::new("run_devices", cause))
    }

    /// Returns how the hardware of a driven device is. It asks no hardware.
    ///
    /// # Errors
    ///
    /// [`Cause::BadArgument`] if it can't be a device's name, [`Cause::NoDevice`] if the device isn't driven.
    pub fn driver_state(&self, device: &str) -> Result<DriverState, Error> {
        checked("driver_state", device)?;
        let found = self.enter("driver_state")?.driver_state(device);
        found.map_err(|cause| Error::new("driver_state", cause))
    }

    /// Reads bytes that a printer sent, up to the end of its first reply, for its device or the drawer on its
    /// connector. Call it again with the bytes that are left, until the reply has no lines. This changes nothing of
    /// the till.
    ///
    /// # Errors
    ///
    /// [`Cause::NoDevice`], [`Cause::BadSettings`], [`Cause::NoMemory`].
    ///
    /// ```
    /// # use kijolvar::{Asked, Till, Totals, WireSettings, BUILT_PROFILE};
    /// # let till = Till::open(BUILT_PROFILE, Totals::Memory)?;
    /// let reply = till.reply("d1", &WireSettings::default(), Asked::DrawerInOrder, &[1])?;
    /// assert_eq!(reply.lines, ["input d1 open", "status pin high"]);
    /// # Ok::<(), kijolvar::Error>(())
    /// ```
    pub fn reply(
        &self,
        device: &str,
        settings: &WireSettings,
        asked: Asked,
        bytes: &[u8],
    ) -> Result<PrinterReply, Error> {
        let found = self.enter("reply")?.reply(device.as_bytes(), settings, asked, bytes);
        found.map_err(|cause| Error::new("reply", cause))
    }
}

impl fmt::Debug for Till {
    fn fmt(&self, out: &mut fmt::Formatter<'_>) -> fmt::Result {
        out.debug_struct("Till").field("number", &self.number).finish_non_exhaustive()
    }
}
