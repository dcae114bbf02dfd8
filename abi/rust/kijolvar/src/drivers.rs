//! Drivers: they move bytes between a till and the devices on its ports. A driver of your own implements [`Driver`].
use crate::devices::Order;
use crate::error::{Cause, Error};
use crate::links::{is_over, is_timeout, Kind, Link, Told};
use crate::ports::{end_after, uptime, Cable, Port, Ready, ETIMEDOUT, LONGEST_WAIT, MOST_READS, QUICKLY};
use crate::standard::{Category, ScanDataType};
use crate::till::Inner;
use crate::wire::{Asked, PrinterReply, WireSettings};
use std::fmt;
use std::os::fd::RawFd;
use std::sync::{Arc, Mutex, MutexGuard};
use std::time::{Duration, Instant};

/// How long a drawer may take to open. If its sensor still says closed then, it is.
const SETTLE: Duration = Duration::from_secs(1);
/// The most lines that a printer's device counts.
const MOST_LINES: u32 = 100_000;
/// From how many lines before the near end on they are counted again before that.
const LONG: u64 = 100;
/// How long nothing is shown until a display gets all its rows again.
const REST: Duration = Duration::from_secs(10);
/// How long a scanner's port may take to open at first.
const SCANNER_OPENS: Duration = Duration::from_secs(2);
/// After how long without a byte a code that has begun has no end.
const LULL: Duration = Duration::from_secs(1);
/// The longest code of a scanner, and the highest type (ScanDataType) that a till takes.
const LONGEST_CODE: usize = 4096;
const HIGHEST_KIND: u64 = 999;
/// How long is waited between two looks at a file that may be ready all the time, and how often others read ahead.
const MOMENT: Duration = Duration::from_millis(1);
const OFTEN: Duration = Duration::from_millis(100);
/// How many bytes of key events are kept that nobody has asked for: more than a hundred characters.
const MOST_TYPED: usize = 16_384;

/// What a printer is asked behind the bytes of an order.
#[derive(Debug, Clone, Copy, PartialEq, Eq)]
#[non_exhaustive]
pub enum OrderEnd {
    /// Nothing.
    Nothing,
    /// The acknowledgement of a job of this number (GS ( H).
    Job(u16),
    /// Its paper, once the order is printed (GS r 1).
    Paper,
    /// The drawer's pin, once the order is printed (GS r 2).
    Drawer,
}

/// What a driver may ask of its till while it carries out an order or looks at its device. Neither call changes
/// anything.
pub struct DriverTill<'t> {
    pub(crate) inner: &'t mut Inner,
}

impl DriverTill<'_> {
    /// Returns the bytes of the order that is out, for a printer or a display. With `is_new` they begin a connection.
    ///
    /// # Errors
    ///
    /// [`Cause::NoOrder`] if no order is out, or it has no bytes; [`Cause::BadSettings`], [`Cause::NoMemory`].
    pub fn order_bytes(&mut self, settings: &WireSettings, is_new: bool, end: OrderEnd) -> Result<Vec<u8>, Error> {
        let end = match end {
            OrderEnd::Job(number) => u32::from(number),
            OrderEnd::Paper => 65_536,
            OrderEnd::Drawer => 65_537,
            OrderEnd::Nothing => 65_538,
        };
        self.inner.order_bytes(settings, is_new, end).map_err(|cause| Error::new("order_bytes", cause))
    }

    /// Reads bytes that a printer sent, as [`Till::reply`](crate::Till::reply) does.
    ///
    /// # Errors
    ///
    /// [`Cause::NoDevice`], [`Cause::BadSettings`], [`Cause::NoMemory`].
    pub fn reply(
        &mut self,
        device: &str,
        settings: &WireSettings,
        asked: Asked,
        bytes: &[u8],
    ) -> Result<PrinterReply, Error> {
        let found = self.inner.reply(device.as_bytes(), settings, asked, bytes);
        found.map_err(|cause| Error::new("reply", cause))
    }

    /// Waits for a device's port, at most so long. The drivers of other devices read ahead meanwhile.
    pub(crate) fn wait(&mut self, cable: &Cable, is_writing: bool, time: Duration) -> Ready {
        let end = end_after(time);
        loop {
            let files = self.inner.read_ahead();
            let left = end.saturating_duration_since(Instant::now());
            let ready = cable.wait_beside(is_writing, left.min(OFTEN), &files);
            if ready.reading || ready.writing || left.is_zero() || !cable.is_open() {
                return ready;
            }
            // A file that a driver doesn't read would be ready again at once.
            std::thread::sleep(left.min(MOMENT));
        }
    }

    /// Waits so long. The drivers of other devices read ahead meanwhile.
    pub(crate) fn rest(&mut self, time: Duration) {
        let end = end_after(time);
        while Instant::now() < end {
            self.inner.read_ahead();
            std::thread::sleep(time.min(MOMENT));
        }
    }
}

impl fmt::Debug for DriverTill<'_> {
    fn fmt(&self, out: &mut fmt::Formatter<'_>) -> fmt::Result {
        out.debug_struct("DriverTill").finish_non_exhaustive()
    }
}

/// A code that a scanner has read. Later versions may have more fields, so end with `..Scan::default()`.
#[derive(Debug, Clone, PartialEq, Eq, Default)]
pub struct Scan {
    /// Its type, 0 if it isn't known. [`ScanDataType`] has names of many types.
    pub kind: u64,
    /// All that came, without the terminator.
    pub data: Vec<u8>,
    /// The code alone.
    pub label: Vec<u8>,
}

/// What a till asks of a driver ([`Till::drive`](crate::Till::drive)).
///
/// The till is in a call meanwhile. So a driver asks what it needs of its [`DriverTill`]. A call of the till itself is
/// refused with [`Cause::InCall`], in whatever way the driver has come by it.
///
/// ```
/// use kijolvar::standard::{Category, DisplayAttribute};
/// use kijolvar::{Driver, DriverTill, Order, Till, Totals, BUILT_PROFILE};
///
/// struct Screen;
///
/// impl Driver for Screen {
///     fn category(&self) -> Category {
///         Category::LineDisplay
///     }
///
///     fn carry_out(&mut self, _: &mut DriverTill<'_>, order: &Order) -> bool {
///         println!("{order:?}");
///         true
///     }
/// }
///
/// let till = Till::open(BUILT_PROFILE, Totals::Memory)?;
/// till.drive("p1", Screen)?;
/// till.line_display("p1")?.enabled()?.display_text("4.50", DisplayAttribute::Normal)?;
/// # Ok::<(), kijolvar::Error>(())
/// ```
pub trait Driver: Send {
    /// Returns the category of the devices that it is for.
    fn category(&self) -> Category;

    /// Begins, without the hardware: the device may still be refused, as one with `flaky`. `connect` is next.
    ///
    /// # Errors
    ///
    /// Why the device can't have this driver, as the till said it.
    fn start(&mut self, till: &mut DriverTill<'_>, device: &str) -> Result<(), Error> {
        let _ = (till, device);
        Ok(())
    }

    /// Opens the hardware, in a bounded time: the device's orders are this driver's from now on. Hardware that isn't
    /// there is no error: `poll` looks for it.
    fn connect(&mut self, till: &mut DriverTill<'_>) {
        let _ = till;
    }

    /// Returns whether the device is there. If not, the till takes it as switched off.
    fn is_online(&self) -> bool {
        true
    }

    /// Carries out an order, and returns whether the device has done it. It must return in a bounded time. If it
    /// panics, the order counts as not done, and the till may still be used.
    fn carry_out(&mut self, till: &mut DriverTill<'_>, order: &Order) -> bool {
        let _ = (till, order);
        false
    }

    /// Returns what has happened at the device since the last call, as the words of an `input` line after the device's
    /// name: `cover open`, `paper 0`. Each line of a string is an input, unless it is blank. The till asks after an
    /// order that wasn't done, which it then answers accordingly.
    fn happened(&mut self, till: &mut DriverTill<'_>) -> Vec<String> {
        let _ = till;
        Vec::new()
    }

    /// Reads what the device has said, and looks for one that was lost, without waiting.
    fn poll(&mut self, till: &mut DriverTill<'_>) {
        let _ = till;
    }

    /// Returns the codes that were read since the last call. The till takes them even if the device isn't there any
    /// more.
    fn scans(&mut self) -> Vec<Scan> {
        Vec::new()
    }

    /// Returns the file descriptor at which something may come.
    fn file(&self) -> Option<RawFd> {
        None
    }

    /// Reads what has come at `file`, and keeps it for `poll`, while the till waits for a printer or a display. It is
    /// for what would be lost if nobody read it for long: Linux keeps little of what a keyboard types. Returns the file
    /// descriptor if more may be read once it comes.
    ///
    /// It mustn't wait, and it mustn't lock what the driver of another device has locked while that carries out an
    /// order.
    fn read_ahead(&mut self) -> Option<RawFd> {
        None
    }

    /// Returns how many orders were printed after they had failed, and weren't asked for again, or were given up.
    fn late_orders(&self) -> u64 {
        0
    }

    /// An application has given up the output that failed: by clearOutput, or by the reply ER_CLEAR. The next order is
    /// a new one, though it is the same. Once a line has opened a control
    /// ([`Till::carry_out`](crate::Till::carry_out)), it may be another printer's.
    fn given_up(&mut self) {}

    /// Returns why the port couldn't be opened or was lost the last time, as the system's number (errno).
    fn port_error(&self) -> Option<i32> {
        None
    }

    /// Returns whether the port is open. While it isn't, `port_error` is in the error of a call that is refused with
    /// E_OFFLINE. Write it if the device may be away though its port is open.
    fn is_port_open(&self) -> bool {
        self.is_online()
    }

    /// A spare serves the device from now on ([`Till::attach`](crate::Till::attach)), and this driver goes on. The
    /// spare knows nothing of what `happened` said before, or of what a display shows.
    fn attached(&mut self) {}
}

impl<D: Driver + 'static> From<D> for Box<dyn Driver> {
    fn from(driver: D) -> Box<dyn Driver> {
        Box::new(driver)
    }
}

/// What a printer's cutter does.
#[derive(Debug, Clone, Copy, PartialEq, Eq, Default)]
#[non_exhaustive]
pub enum Cutter {
    /// Full cuts and partial ones.
    #[default]
    Both = 0,
    /// Full cuts alone.
    Full = 1,
    /// Partial cuts alone.
    Partial = 2,
    /// There is none: the paper is fed in place of a cut.
    Absent = 3,
}

/// A receipt printer with ESC/POS, and the drawer on its connector. Later versions may have more fields, so end with
/// `..EscPosSettings::default()`.
#[derive(Debug, Clone, PartialEq, Eq)]
pub struct EscPosSettings {
    /// How many characters the printer prints on a line; as many as the device's lines have if it is None.
    pub width: Option<u32>,
    /// What its cutter does.
    pub cutter: Cutter,
    /// How far paper is fed before a cut, in dots; in lines if there is no cutter.
    pub feed: u8,
    /// The pin of the drawer connector, 2 or 5.
    pub pin: u8,
    /// How long the pulse for the drawer lasts, and the pause after it, in 2 ms.
    pub pulse: (u8, u8),
    /// Whether the drawer is open when pin 3 of its connector is high.
    pub is_open_high: bool,
    /// How many lines the till counts with when the sensors see enough paper: more than where its device is near the
    /// end, at most 100,000. The till refuses what is longer than what is left of them (EPTR_REC_EMPTY). So if the
    /// sensors still see enough at the near end, the count begins again; with 100 lines or more before that, once three
    /// quarters of those are counted.
    ///
    /// While the sensors see that the end is near, the till counts with the `near` of its device after each call. So a
    /// request with more lines is refused then, and one with as many tells the end of the paper for a moment: `near`
    /// should be above the lines of the longest one.
    pub lines: u32,
    /// Whether the printer says nothing by itself, and doesn't know GS ( H. Then it is asked for its status (DLE
    /// EOT), and whether an order is printed (GS r).
    pub is_asked: bool,
    /// How long the printer may go on without acknowledging a line of an order; more than zero, and at most 2,147,483
    /// seconds. An order has to end, so [`Duration::MAX`] is refused.
    pub timeout: Duration,
    /// How long to wait before a lost port is tried again, at most 2,147,483 seconds.
    pub pause: Duration,
}

impl Default for EscPosSettings {
    fn default() -> EscPosSettings {
        EscPosSettings {
            width: None,
            cutter: Cutter::Both,
            feed: 3,
            pin: 2,
            pulse: (25, 250),
            is_open_high: true,
            lines: MOST_LINES,
            is_asked: false,
            timeout: Duration::from_secs(5),
            pause: Duration::from_secs(1),
        }
    }
}

impl EscPosSettings {
    fn wire(&self) -> WireSettings {
        WireSettings {
            width: self.width.unwrap_or(u32::MAX),
            cutter: self.cutter as u32,
            feed: self.feed.into(),
            lines: self.lines,
            pin: self.pin.into(),
            on: self.pulse.0.into(),
            off: self.pulse.1.into(),
            open_is_high: self.is_open_high.into(),
            protocol: 0,
        }
    }
}

/// A printer's line, which its drawer has too.
type SharedLink = Arc<Mutex<Link>>;

fn lock(link: &SharedLink) -> MutexGuard<'_, Link> {
    link.lock().unwrap_or_else(|held| held.into_inner())
}

/// What a printer has said last, as the words of inputs of a device, so far as it shows something else.
fn words_of(told: &[Told], till: &mut DriverTill<'_>, device: &str, settings: &WireSettings) -> Vec<String> {
    let mut words: Vec<String> = Vec::new();
    let front = format!("input {device} ");
    for told in told {
        let Ok(reply) = till.reply(device, settings, told.asked, &told.bytes) else { continue };
        for input in reply.lines.iter().filter_map(|line| line.strip_prefix(&front)) {
            let first = |words: &str| words.split(' ').next().map(str::to_string);
            if !words.iter().any(|other| first(other) == first(input)) {
                words.push(input.to_string());
            }
        }
    }
    words
}

/// Checks that the settings fit a printer or a drawer, and its line.
fn check(till: &mut DriverTill<'_>, device: &str, settings: &WireSettings, link: &SharedLink) -> Result<(), Error> {
    if !lock(link).is_sound() || settings.lines > MOST_LINES {
        return Err(Error::new("drive", Cause::BadSettings));
    }
    till.reply(device, settings, Asked::Nothing, &[]).map(|_| ())
}

/// A receipt printer with ESC/POS.
///
/// An order counts as done once the printer has acknowledged it (GS ( H). If an order failed and the next one is the
/// same, as a retry is, it goes on with the first line or cut that the printer hasn't acknowledged.
///
/// That holds, too, if the control was released or closed meanwhile, and for output that waits (AsyncMode) though other
/// orders were printed at once meanwhile. The application gives a failed order up by clearOutput, or by the reply
/// ER_CLEAR. Once it is given up, the same order is a new one, and is printed from its beginning. If the printer prints
/// the old one all the same, that counts in
/// [`DriverState::late_orders`](crate::DriverState::late_orders). Once a line has opened a control
/// ([`Till::carry_out`](crate::Till::carry_out)), the failed orders of all printers of the till are given up together.
/// An order that is printed at once gives up another one of its kind, unless it puts nothing on the paper.
///
/// A serial line with flow control holds back what a printer doesn't take, also while the printer is off. So if such a
/// printer says nothing for 2 seconds, or for the timeout if that is shorter, the lines that it hasn't acknowledged are
/// sent again once it answers. It may print some of them twice. So are lines of an order that failed for no reason
/// (E_FAILURE), if it acknowledges them while the till doesn't look for 2 seconds
/// ([`Till::run_devices`](crate::Till::run_devices)), since it may have been off. An order in which the program stands
/// still for so long, as on a machine that is suspended, fails for that reason. A printer that has said by itself that
/// it is offline, as while its paper feed button is held down, may be silent for longer, since it says that it goes on.
/// If it has answered a question since, it counts as off once it is silent for the timeout.
///
/// With [`is_asked`](EscPosSettings::is_asked) acknowledgements have no number. If that of a line doesn't come, the
/// next order first asks once more. If both answers come, however late, the line is printed. If one comes alone, the
/// other is lost, and the order that failed goes on with that line. To find this out takes a second, and up to 2
/// beside the timeout, however short that is. As long as neither comes, nothing else is sent, and each order fails.
///
/// A printer that can't print, or isn't there, as far as is known, is asked every 2 seconds, however long the timeout
/// is.
///
/// ```no_run
/// use kijolvar::{EscPosPrinter, EscPosSettings, Till, Totals, BUILT_PROFILE};
///
/// let till = Till::open(BUILT_PROFILE, Totals::Memory)?;
/// let printer = EscPosPrinter::open("/dev/usb/lp0", EscPosSettings::default());
/// let drawer = printer.drawer();
/// till.drive("r1", printer)?;
/// till.drive("d1", drawer)?;
/// # Ok::<(), kijolvar::Error>(())
/// ```
#[derive(Debug)]
pub struct EscPosPrinter {
    link: SharedLink,
    device: String,
    settings: WireSettings,
    /// At how many lines the device is near its end, and from which line of the link on the till counts them, once the
    /// printer has said how it is.
    near: u32,
    counted_from: Option<u64>,
}

impl EscPosPrinter {
    /// Returns a driver for the printer at a port, which opens it once it drives a device.
    pub fn open(port: impl Into<Port>, settings: EscPosSettings) -> EscPosPrinter {
        let link = Link::new(port.into(), settings.timeout, settings.pause, settings.is_asked);
        let link = Arc::new(Mutex::new(link));
        EscPosPrinter { link, device: String::new(), settings: settings.wire(), near: 0, counted_from: None }
    }

    /// Returns a driver for the drawer on the printer's connector, whether or not the till drives the printer too.
    pub fn drawer(&self) -> EscPosDrawer {
        let link = Arc::clone(&self.link);
        EscPosDrawer { link, device: String::new(), settings: self.settings, kicked: None }
    }

    /// Whether the till has to be told how many lines there are: where the sensors see enough paper, now and then;
    /// where they see that its end is near, after each order.
    fn is_count_due(&self, link: &Link) -> bool {
        if link.is_near_end() {
            return self.near > 0 && self.counted_from.is_none_or(|from| link.lines > from);
        }
        let all = u64::from(self.settings.lines - self.near);
        let is_long = |from| all >= LONG && link.lines - from >= all - all / 4;
        link.has_paper() && self.counted_from.is_none_or(is_long)
    }
}

/// At how many lines a printer is near its end: the library takes no roll that is as short as that.
fn near_of(till: &mut DriverTill<'_>, device: &str, settings: &WireSettings) -> u32 {
    let (mut refused, mut taken) = (0, settings.lines);
    while taken - refused > 1 {
        let lines = refused + (taken - refused) / 2;
        let is_taken = till.reply(device, &WireSettings { lines, ..*settings }, Asked::Nothing, &[]).is_ok();
        (refused, taken) = if is_taken { (refused, lines) } else { (lines, taken) };
    }
    refused
}

/// Opens a printer's line for one of its devices.
fn connect(link: &SharedLink, till: &mut DriverTill<'_>, device: &str, settings: &WireSettings) {
    let mut link = lock(link);
    link.devices.push((device.to_string(), *settings));
    link.start(till);
}

impl Driver for EscPosPrinter {
    fn category(&self) -> Category {
        Category::PosPrinter
    }

    fn start(&mut self, till: &mut DriverTill<'_>, device: &str) -> Result<(), Error> {
        self.device = device.to_string();
        check(till, device, &self.settings, &self.link)
    }

    fn connect(&mut self, till: &mut DriverTill<'_>) {
        connect(&self.link, till, &self.device, &self.settings);
    }

    fn is_online(&self) -> bool {
        lock(&self.link).is_online()
    }

    fn carry_out(&mut self, till: &mut DriverTill<'_>, _: &Order) -> bool {
        let kind = if till.inner.drives.is_working { Kind::Waiting } else { Kind::Paper };
        lock(&self.link).carry_out(till, &self.settings, kind)
    }

    fn happened(&mut self, till: &mut DriverTill<'_>) -> Vec<String> {
        let link = lock(&self.link);
        let mut words = words_of(&link.told, till, &self.device, &self.settings);
        let is_first = self.counted_from.is_none() && !link.told.is_empty();
        if is_first {
            self.near = near_of(till, &self.device, &self.settings);
        }
        let mut is_told = words.iter().any(|words| words.starts_with("paper "));
        if !is_told && self.is_count_due(&link) {
            let count = if link.is_near_end() { self.near } else { self.settings.lines };
            words.push(format!("paper {count}"));
            is_told = true;
        }
        if is_told || is_first {
            self.counted_from = Some(link.lines);
        }
        words
    }

    fn poll(&mut self, till: &mut DriverTill<'_>) {
        lock(&self.link).poll(till);
    }

    fn file(&self) -> Option<RawFd> {
        lock(&self.link).cable.waits_at()
    }

    fn late_orders(&self) -> u64 {
        lock(&self.link).late
    }

    fn given_up(&mut self) {
        lock(&self.link).forget_failed();
    }

    fn port_error(&self) -> Option<i32> {
        lock(&self.link).cable.fault
    }

    fn is_port_open(&self) -> bool {
        lock(&self.link).cable.is_open()
    }

    fn attached(&mut self) {
        self.counted_from = None;
    }
}

/// The drawer on a receipt printer's connector ([`EscPosPrinter::drawer`]).
#[derive(Debug)]
pub struct EscPosDrawer {
    link: SharedLink,
    device: String,
    settings: WireSettings,
    /// When it got its pulse, and how many statuses had come.
    kicked: Option<(Instant, u64)>,
}

impl Driver for EscPosDrawer {
    fn category(&self) -> Category {
        Category::CashDrawer
    }

    fn start(&mut self, till: &mut DriverTill<'_>, device: &str) -> Result<(), Error> {
        self.device = device.to_string();
        check(till, device, &self.settings, &self.link)
    }

    fn connect(&mut self, till: &mut DriverTill<'_>) {
        connect(&self.link, till, &self.device, &self.settings);
    }

    fn is_online(&self) -> bool {
        lock(&self.link).is_online()
    }

    fn carry_out(&mut self, till: &mut DriverTill<'_>, _: &Order) -> bool {
        let mut link = lock(&self.link);
        let statuses = link.statuses;
        let is_done = link.carry_out(till, &self.settings, Kind::Pulse);
        if is_done {
            self.kicked = Some((Instant::now(), statuses));
        }
        is_done
    }

    fn happened(&mut self, till: &mut DriverTill<'_>) -> Vec<String> {
        let link = lock(&self.link);
        let mut words = words_of(&link.told, till, &self.device, &self.settings);
        if let Some((at, statuses)) = self.kicked {
            // The drawer may be on its way: a status that says closed is from before.
            let is_open = link.statuses > statuses && words.iter().all(|words| words != "closed");
            if is_open || at.elapsed() >= SETTLE {
                self.kicked = None;
            } else {
                words.retain(|words| words != "closed");
            }
        }
        words
    }

    fn poll(&mut self, till: &mut DriverTill<'_>) {
        lock(&self.link).poll(till);
    }

    fn file(&self) -> Option<RawFd> {
        lock(&self.link).cable.waits_at()
    }

    fn port_error(&self) -> Option<i32> {
        lock(&self.link).cable.fault
    }

    fn is_port_open(&self) -> bool {
        lock(&self.link).cable.is_open()
    }
}

/// What a display understands.
#[derive(Debug, Clone, Copy, PartialEq, Eq, Default)]
#[non_exhaustive]
#[allow(missing_docs)]
pub enum Protocol {
    #[default]
    Cd5220 = 0,
    EscPos = 1,
}

/// A customer display. Later versions may have more fields, so end with `..DisplaySettings::default()`.
#[derive(Debug, Clone, PartialEq, Eq)]
pub struct DisplaySettings {
    /// What it understands.
    pub protocol: Protocol,
    /// How long an order may take; more than zero, and at most 2,147,483 seconds. An order has to end, so
    /// [`Duration::MAX`] is refused.
    pub timeout: Duration,
    /// How long to wait before a lost port is tried again, at most 2,147,483 seconds.
    pub pause: Duration,
}

impl Default for DisplaySettings {
    fn default() -> DisplaySettings {
        let (timeout, pause) = (Duration::from_secs(2), Duration::from_secs(1));
        DisplaySettings { protocol: Protocol::Cd5220, timeout, pause }
    }
}

/// A port that is opened again after it was lost, once a pause is over.
#[derive(Debug)]
struct Reopened {
    cable: Cable,
    pause: Duration,
    tried_at: Option<Instant>,
}

impl Reopened {
    fn new(cable: Cable, pause: Duration) -> Reopened {
        Reopened { cable, pause, tried_at: None }
    }

    /// Whether the port may be one, and the pause is in its range.
    fn is_sound(&self) -> bool {
        self.cable.port.is_sound() && self.pause <= LONGEST_WAIT
    }

    /// Opens the port, unless it is open or that was tried just now. Returns whether it was opened.
    fn open(&mut self, time: Duration) -> bool {
        if self.cable.is_open() || !(self.cable.is_opening() || is_over(self.tried_at, self.pause)) {
            return false;
        }
        let is_open = self.cable.open(time);
        self.tried_at = Some(Instant::now());
        is_open
    }

    /// Reads what has come.
    fn read(&mut self) -> Vec<u8> {
        let mut found = Vec::new();
        let mut room = [0; 1024];
        for _ in 0..MOST_READS {
            if !self.cable.wait(false, Duration::ZERO).reading {
                break;
            }
            match self.cable.read(&mut room) {
                Ok(count) if count > 0 => found.extend_from_slice(&room[..count]),
                _ => break,
            }
        }
        found
    }
}

/// A customer display with CD5220 or ESC/POS. It shows characters: blinking and reverse ones as normal ones.
///
/// A display answers nothing. Over a serial line and /dev/usb/lp0 an order counts as done once its bytes have left this
/// machine. Over TCP it is done once the system has taken them: they may still be lost with the port. A display that
/// was lost shows all its rows again with the next order.
///
/// Nobody sees that a display with a power supply of its own was off. So it gets all its rows, too, with an order that
/// changes nothing, and with the first one after 10 seconds without any.
///
/// A serial line that is given by its name has no flow control ([`Port::Line`]).
#[derive(Debug)]
pub struct SerialDisplay {
    port: Reopened,
    settings: WireSettings,
    timeout: Duration,
    is_new: bool,
    /// How long the machine had run at the last order.
    ordered_at: Duration,
}

impl SerialDisplay {
    /// Returns a driver for the display at a port, which opens it once it drives a device.
    pub fn open(port: impl Into<Port>, settings: DisplaySettings) -> SerialDisplay {
        let wire = WireSettings { protocol: settings.protocol as u32, ..WireSettings::default() };
        let port = Reopened::new(Cable::without_flow(port.into()), settings.pause);
        SerialDisplay { port, settings: wire, timeout: settings.timeout, is_new: true, ordered_at: Duration::ZERO }
    }

    /// The bytes of the order that is out. One without any is sent as a new one.
    fn bytes_of_order(&mut self, till: &mut DriverTill<'_>) -> Result<Vec<u8>, Error> {
        let is_new = self.is_new || uptime().saturating_sub(self.ordered_at) >= REST;
        let bytes = till.order_bytes(&self.settings, is_new, OrderEnd::Nothing)?;
        if bytes.is_empty() {
            return till.order_bytes(&self.settings, true, OrderEnd::Nothing);
        }
        Ok(bytes)
    }

    fn shows(&mut self, till: &mut DriverTill<'_>, bytes: &[u8], end: Instant) -> bool {
        let mut sent = 0;
        while sent < bytes.len() {
            let left = end.saturating_duration_since(Instant::now());
            if left.is_zero() {
                return false;
            }
            let ready = till.wait(&self.port.cable, true, left);
            let found = if ready.reading { self.port.read().len() } else { 0 };
            if ready.writing {
                let Ok(count) = self.port.cable.write(&bytes[sent..]) else {
                    self.port.cable.close();
                    return false;
                };
                sent += count;
            } else if ready.reading && found == 0 {
                till.rest(MOMENT);
            }
            if !self.port.cable.is_open() {
                return false;
            }
        }
        self.port.cable.is_drained(end, || till.rest(MOMENT))
    }
}

impl Driver for SerialDisplay {
    fn category(&self) -> Category {
        Category::LineDisplay
    }

    fn start(&mut self, _: &mut DriverTill<'_>, _: &str) -> Result<(), Error> {
        if !self.port.is_sound() || !is_timeout(self.timeout) {
            return Err(Error::new("drive", Cause::BadSettings));
        }
        Ok(())
    }

    fn connect(&mut self, _: &mut DriverTill<'_>) {
        self.port.open(self.timeout);
    }

    fn is_online(&self) -> bool {
        self.port.cable.is_open()
    }

    fn carry_out(&mut self, till: &mut DriverTill<'_>, _: &Order) -> bool {
        let end = end_after(self.timeout);
        self.port.read();
        let Ok(bytes) = self.bytes_of_order(till) else { return false };
        let is_done = self.port.cable.is_open() && self.shows(till, &bytes, end);
        (self.is_new, self.ordered_at) = (!is_done, uptime());
        if !is_done && self.port.cable.is_open() {
            // The display has a part of it.
            self.port.cable.fault = Some(ETIMEDOUT);
            self.port.cable.close();
        }
        is_done
    }

    fn poll(&mut self, _: &mut DriverTill<'_>) {
        self.is_new |= self.port.open(QUICKLY);
        // What a display says is of no use.
        self.port.read();
    }

    fn file(&self) -> Option<RawFd> {
        self.port.cable.waits_at()
    }

    fn port_error(&self) -> Option<i32> {
        self.port.cable.fault
    }

    fn is_port_open(&self) -> bool {
        self.port.cable.is_open()
    }

    fn attached(&mut self) {
        self.is_new = true;
    }
}

/// A scanner that sends each code with a terminator (CR, LF or both), or types it as a keyboard of the layout US.
///
/// An AIM identifier in front of a code, such as `]E0`, says which type it has; ScanDataLabel is the code without it.
///
/// Linux keeps about 16 characters of a keyboard, and drops them if more come before the till reads. The till reads in
/// [`Till::run_devices`](crate::Till::run_devices), and while a call waits for a printer or a display: then it keeps
/// more than a hundred characters.
///
/// A scan of which characters were dropped has failed, as has a code of more than 4,096 bytes, or with a key that has
/// no character, but NumLock: the scanner's control gets an ErrorEvent. So it does of a code with a 0 byte over a
/// serial line, since a byte that was disturbed on its way reads as 0; and of one without a terminator, once the till
/// has looked and nothing has come for a second, or the port is lost.
#[derive(Debug)]
pub struct WedgeScanner {
    port: Reopened,
    kind: u64,
    begun: Vec<u8>,
    /// When the last byte came.
    heard_at: Option<Instant>,
    /// The key events that were read ahead, the last one of which may be in parts; and whether the shift and control
    /// keys are down.
    events: Vec<u8>,
    is_shifted: bool,
    is_control: bool,
    /// Whether the code that has begun lacks a character: its event was dropped, its key has none here, or it was
    /// changed on a serial line.
    has_gap: bool,
    found: Vec<Scan>,
    /// Whether a code had a gap, was too long or has no end, and whether that is said next.
    has_failed: bool,
    is_failing: bool,
}

impl WedgeScanner {
    /// Returns a driver for the scanner at a port, /dev/input/.., or a link to it, for a keyboard wedge. It opens it
    /// once it drives a device, and looks for it each second after it was lost.
    pub fn open(device: impl Into<Port>) -> WedgeScanner {
        let port = Reopened::new(Cable::of_scanner(device.into()), Duration::from_secs(1));
        WedgeScanner {
            port,
            kind: 0,
            begun: Vec::new(),
            heard_at: None,
            events: Vec::new(),
            is_shifted: false,
            is_control: false,
            has_gap: false,
            found: Vec::new(),
            has_failed: false,
            is_failing: false,
        }
    }

    /// Makes this the type of a code without an identifier, 0 to 999 (`ScanDataType::Ean13.into()`). Otherwise it is 0
    /// ([`ScanDataType::Unknown`]).
    #[must_use]
    pub fn with_kind(self, kind: u64) -> WedgeScanner {
        WedgeScanner { kind, ..self }
    }

    /// Makes this how long to wait before a lost port is tried again, at most 2,147,483 seconds; 1 second otherwise.
    #[must_use]
    pub fn with_pause(mut self, pause: Duration) -> WedgeScanner {
        self.port.pause = pause;
        self
    }

    fn end_code(&mut self) {
        let data = std::mem::take(&mut self.begun);
        // What is longer than any code is noise.
        if std::mem::take(&mut self.has_gap) || data.len() > LONGEST_CODE {
            self.has_failed = true;
            return;
        }
        if data.is_empty() {
            return;
        }
        let (kind, front) = match &data[..] {
            [b']', letter, digit, _, ..] => (kind_of(*letter, *digit).into(), 3),
            _ => (self.kind, 0),
        };
        let label = data[front..].to_vec();
        self.found.push(Scan { kind, data, label });
    }

    /// What has begun of a code gets no end any more: the scan has failed, and what comes next is another code.
    fn give_up_code(&mut self) {
        self.has_failed |= self.has_gap || !self.begun.is_empty();
        self.begun.clear();
        (self.is_shifted, self.is_control, self.has_gap) = (false, false, false);
    }

    fn add(&mut self, byte: u8) {
        if self.begun.len() <= LONGEST_CODE {
            self.begun.push(byte);
        }
    }

    /// Takes what has come of a scanner that isn't a keyboard.
    fn take_bytes(&mut self, bytes: &[u8]) {
        let is_line = matches!(self.port.cable.port, Port::Line(_) | Port::Serial(..));
        for byte in bytes {
            match byte {
                b'\r' | b'\n' => self.end_code(),
                0 if is_line => self.has_gap = true,
                _ => self.add(*byte),
            }
        }
    }

    /// Marks that nothing has come for a time behind what was typed, if a code may have begun: what comes then is
    /// another one.
    fn mark_lull(&mut self) {
        let has_begun = !self.events.is_empty() || !self.begun.is_empty() || self.has_gap;
        let is_whole = self.events.len().is_multiple_of(LULL_EVENT.len());
        if has_begun && is_whole && is_over(self.heard_at, LULL) && !self.events.ends_with(&LULL_EVENT) {
            self.events.extend_from_slice(&LULL_EVENT);
        }
    }

    /// Takes key events of Linux: the time, a type, the key and whether it is down.
    fn take_events(&mut self, bytes: &[u8]) {
        const SIZE: usize = LULL_EVENT.len();
        // SYN_DROPPED, of the type EV_SYN, comes in place of events that nobody read in time.
        const DROPPED: usize = 3;
        self.events.extend_from_slice(bytes);
        let whole = self.events.len() / SIZE * SIZE;
        let events: Vec<u8> = self.events.drain(..whole).collect();
        for event in events.chunks(SIZE) {
            if event == LULL_EVENT {
                self.give_up_code();
                continue;
            }
            let kind = u16::from_ne_bytes([event[16], event[17]]);
            let key = usize::from(u16::from_ne_bytes([event[18], event[19]]));
            let value = i32::from_ne_bytes([event[20], event[21], event[22], event[23]]);
            match key {
                DROPPED if kind == 0 => (self.has_gap, self.is_shifted, self.is_control) = (true, false, false),
                _ if kind != 1 => {}
                42 | 54 => self.is_shifted = value != 0,
                29 | 97 => self.is_control = value != 0,
                // The event of Enter going down may be among those that were dropped.
                28 | 96 if value == DOWN || value == 0 && self.has_gap => self.end_code(),
                28 | 96 | NUM_LOCK => {}
                // A key that is held repeats by another value, and types its character once all the same.
                _ if value == DOWN => match self.character_of(key) {
                    Some(byte) => self.add(byte),
                    // A code without one of its characters is another code.
                    None => self.has_gap = true,
                },
                _ => {}
            }
        }
    }

    /// The character of a key of the layout US.
    fn character_of(&self, key: usize) -> Option<u8> {
        let keys = if self.is_shifted { SHIFT_KEYS } else { PLAIN_KEYS };
        let found = match key {
            2..=57 => Some(keys[key - 2]).filter(|byte| *byte != 0),
            71..=83 => Some(PAD_KEYS[key - 71]),
            98 => Some(b'/'),
            _ => None,
        };
        match found {
            Some(b']') if self.is_control => Some(SEPARATOR),
            _ if self.is_control => None,
            found => found,
        }
    }
}

/// The value of the event of a key that goes down.
const DOWN: i32 = 1;

/// An event that no keyboard gives: nothing has come for so long that a code which has begun has no end.
const LULL_EVENT: [u8; 24] = [0xff; 24];

/// A key that types nothing. Some scanners press it in front of keys of the keypad.
const NUM_LOCK: usize = 69;

/// What separates the fields of a code (GS). Scanners type it as the control key and ].
const SEPARATOR: u8 = 0x1d;

/// The characters of the keys of the layout US from number 2 on, without and with shift; 0 is no character.
const PLAIN_KEYS: &[u8; 56] = b"1234567890-=\0\0qwertyuiop[]\0\0asdfghjkl;'`\0\\zxcvbnm,./\0*\0 ";
const SHIFT_KEYS: &[u8; 56] = b"!@#$%^&*()_+\0\0QWERTYUIOP{}\0\0ASDFGHJKL:\"~\0|ZXCVBNM<>?\0*\0 ";

/// Those of the keypad from number 71 on.
const PAD_KEYS: &[u8; 13] = b"789-456+1230.";

/// The type of a code by its AIM identifier.
fn kind_of(letter: u8, digit: u8) -> ScanDataType {
    match (letter, digit) {
        (b'C', b'1') => ScanDataType::Ean128,
        (b'E', b'3') => ScanDataType::Ean13S,
        (b'E', b'4') => ScanDataType::Ean8,
        (b'o', b'1') => ScanDataType::OcrA,
        (b'o', b'2') => ScanDataType::OcrB,
        (b'A', _) => ScanDataType::Code39,
        (b'C', _) => ScanDataType::Code128,
        (b'E', _) => ScanDataType::Ean13,
        (b'F', _) => ScanDataType::Codabar,
        (b'G', _) => ScanDataType::Code93,
        (b'I', _) => ScanDataType::Itf,
        (b'L', _) => ScanDataType::Pdf417,
        (b'Q', _) => ScanDataType::QrCode,
        (b'S', _) => ScanDataType::Tf,
        (b'U', _) => ScanDataType::MaxiCode,
        (b'd', _) => ScanDataType::DataMatrix,
        (b'e', _) => ScanDataType::Gs1DataBar,
        (b'z', _) => ScanDataType::Aztec,
        _ => ScanDataType::Other,
    }
}

impl Driver for WedgeScanner {
    fn category(&self) -> Category {
        Category::Scanner
    }

    fn start(&mut self, _: &mut DriverTill<'_>, _: &str) -> Result<(), Error> {
        if !self.port.is_sound() || self.kind > HIGHEST_KIND {
            return Err(Error::new("drive", Cause::BadSettings));
        }
        Ok(())
    }

    fn connect(&mut self, till: &mut DriverTill<'_>) {
        self.port.open(SCANNER_OPENS);
        self.poll(till);
    }

    fn is_online(&self) -> bool {
        // A scan that failed is said before its scanner is off.
        self.port.cable.is_open() || self.has_failed || self.is_failing
    }

    fn poll(&mut self, _: &mut DriverTill<'_>) {
        if self.port.open(QUICKLY) {
            self.events.clear();
        }
        let bytes = self.port.read();
        if !bytes.is_empty() {
            self.heard_at = Some(Instant::now());
        }
        match self.port.cable.port {
            Port::Keys(_) => self.take_events(&bytes),
            _ => self.take_bytes(&bytes),
        }
        // It sends each code in one go.
        if !self.port.cable.is_open() || is_over(self.heard_at, LULL) {
            self.give_up_code();
        }
    }

    fn happened(&mut self, _: &mut DriverTill<'_>) -> Vec<String> {
        Vec::from_iter(std::mem::take(&mut self.is_failing).then(|| "fault".to_string()))
    }

    fn scans(&mut self) -> Vec<Scan> {
        // A control ignores scans from a failed one on, so whole ones are first.
        self.is_failing |= self.found.is_empty() && std::mem::take(&mut self.has_failed);
        std::mem::take(&mut self.found)
    }

    fn file(&self) -> Option<RawFd> {
        self.port.cable.waits_at()
    }

    fn read_ahead(&mut self) -> Option<RawFd> {
        if !matches!(self.port.cable.port, Port::Keys(_)) {
            return None;
        }
        let file = self.port.cable.waits_at()?;
        let mut room = [0; 1024];
        while self.events.len() < MOST_TYPED {
            let count = self.port.cable.read_ahead(&mut room);
            if count == 0 {
                self.port.cable.waits_at()?;
                self.mark_lull();
                return Some(file);
            }
            self.heard_at = Some(Instant::now());
            self.events.extend_from_slice(&room[..count]);
        }
        None
    }

    fn port_error(&self) -> Option<i32> {
        self.port.cable.fault
    }

    fn is_port_open(&self) -> bool {
        self.port.cable.is_open()
    }
}

#[cfg(test)]
mod tests {
    use super::*;
    use crate::{standard::DisplayAttribute, Till, Totals, BUILT_PROFILE};
    use std::io::{Read, Write};
    use std::net::TcpListener;

    /// The events of keys, each of which is pressed and let go.
    fn events(keys: &[u16]) -> Vec<u8> {
        let event = |key: u16, value: i32| {
            [&[0; 16][..], &1u16.to_ne_bytes(), &key.to_ne_bytes(), &value.to_ne_bytes()].concat()
        };
        keys.iter().flat_map(|key| [event(*key, 1), event(*key, 0)].concat()).collect()
    }

    /// What a display gets of an order that changes one character, so long after the order before it.
    fn sent_after(rest: Duration) -> Vec<u8> {
        let listener = TcpListener::bind("127.0.0.1:0").unwrap();
        let port = format!("tcp:{}", listener.local_addr().unwrap());
        let mut display = SerialDisplay::open(port, DisplaySettings::default());
        (display.is_new, display.ordered_at) = (false, uptime().saturating_sub(rest));
        let till = Till::open(BUILT_PROFILE, Totals::Memory).unwrap();
        till.drive("p1", display).unwrap();
        let (mut stream, _) = listener.accept().unwrap();
        till.line_display("p1").unwrap().enabled().unwrap().display_text("A", DisplayAttribute::Normal).unwrap();
        drop(till);
        let mut got = Vec::new();
        stream.read_to_end(&mut got).unwrap();
        got
    }

    #[test]
    fn a_display_gets_all_its_rows_after_a_rest() {
        let (soon, late) = (sent_after(Duration::from_secs(8)), sent_after(Duration::from_secs(11)));
        // ESC @ begins a connection.
        assert!(!soon.windows(2).any(|pair| pair == b"\x1b@") && soon.contains(&b'A'), "{soon:?}");
        assert!(late.windows(2).any(|pair| pair == b"\x1b@") && late.contains(&b'A'), "{late:?}");
        assert!(late.len() > soon.len());
    }

    #[test]
    fn a_zero_byte_of_a_line_is_a_failed_scan() {
        // A terminal is a line only if its port says so.
        for (is_line, codes) in [(true, vec![b"78".to_vec()]), (false, vec![b"12\x0034".to_vec(), b"78".to_vec()])] {
            let (mut device, path) = crate::ports::terminal();
            let port = if is_line { Port::Line(path) } else { Port::File(path) };
            let till = Till::open(BUILT_PROFILE, Totals::Memory).unwrap();
            let mut scanner = WedgeScanner::open(port);
            scanner.poll(&mut DriverTill { inner: &mut till.inner.borrow_mut() });
            device.write_all(b"12\x0034\r\n78\r\n").unwrap();
            let (mut found, end) = (Vec::new(), end_after(Duration::from_secs(10)));
            while found.last().is_none_or(|data| data != b"78") && Instant::now() < end {
                std::thread::sleep(Duration::from_millis(1));
                scanner.poll(&mut DriverTill { inner: &mut till.inner.borrow_mut() });
                found.extend(scanner.scans().into_iter().map(|scan| scan.data));
            }
            scanner.scans();
            assert_eq!((found, scanner.is_failing), (codes, is_line));
        }
    }

    #[test]
    fn num_lock_types_nothing() {
        let mut scanner = WedgeScanner::open(Port::Keys("/dev/none".into()));
        scanner.take_events(&events(&[69, 79, 80, 69, 28]));
        assert_eq!(scanner.scans(), [Scan { kind: 0, data: b"12".to_vec(), label: b"12".to_vec() }]);
        scanner.take_events(&events(&[79, 58, 80, 28]));
        assert!(scanner.scans().is_empty() && scanner.is_failing);
    }
}
