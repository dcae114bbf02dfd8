//! The ports of devices: a file such as /dev/usb/lp0, a serial line such as /dev/ttyUSB0, a TCP port, or the key
//! events of a keyboard. No call waits longer than it is told.
use std::ffi::{c_int, c_short, c_ulong, c_void, OsStr, OsString};
use std::fs::{File, OpenOptions, TryLockError};
use std::io::{self, ErrorKind, Read, Write};
use std::net::{Ipv6Addr, Shutdown, SocketAddr, TcpStream, ToSocketAddrs};
use std::os::fd::{AsRawFd, RawFd};
use std::os::unix::fs::{FileTypeExt, OpenOptionsExt};
use std::path::{Path, PathBuf};
use std::sync::mpsc::{channel, Receiver, RecvTimeoutError};
use std::thread::Builder;
use std::time::{Duration, Instant};

/// The parity of a serial line.
#[derive(Debug, Clone, Copy, PartialEq, Eq, Default)]
#[non_exhaustive]
#[allow(missing_docs)]
pub enum Parity {
    #[default]
    None,
    Even,
    Odd,
}

/// How a device on a serial line says that it can take no more.
#[derive(Debug, Clone, Copy, PartialEq, Eq, Default)]
#[non_exhaustive]
pub enum Flow {
    /// It says nothing.
    None,
    /// By the lines RTS and CTS.
    #[default]
    RtsCts,
    /// By the characters XON and XOFF.
    XonXoff,
}

/// How a serial line is set up. The default is 9,600 bits per second, 8 bits, 1 stop bit, no parity, RTS/CTS. Later
/// versions may have more fields, so end with `..SerialSettings::default()`.
#[derive(Debug, Clone, Copy, PartialEq, Eq)]
pub struct SerialSettings {
    /// Bits per second, as the device is set up: a speed that Linux knows, 50 to 4,000,000.
    pub speed: u32,
    /// The bits of a byte, 7 or 8.
    pub bits: u8,
    /// The stop bits behind it, 1 or 2.
    pub stops: u8,
    /// Its parity.
    pub parity: Parity,
    /// How the device says that it can take no more.
    pub flow: Flow,
}

impl Default for SerialSettings {
    fn default() -> SerialSettings {
        SerialSettings { speed: 9600, bits: 8, stops: 1, parity: Parity::None, flow: Flow::RtsCts }
    }
}

/// Where a device is. A text or a path is a port too ([`Port::of`]), and so is the address of a socket.
#[derive(Debug, Clone, PartialEq, Eq)]
#[non_exhaustive]
pub enum Port {
    /// A device file that takes bytes as they are, such as /dev/usb/lp0. If it is a link to a serial line or to a
    /// keyboard when it is opened, it is a [`Port::Line`] or [`Port::Keys`] from then on.
    File(PathBuf),
    /// A serial line by the usual settings of its device: those of [`SerialSettings::default`], but [`Flow::None`] for
    /// a display, which answers nothing and whose cable often has no CTS. No other program gets a serial line
    /// meanwhile, and one that another till or program has isn't opened (EBUSY).
    Line(PathBuf),
    /// A serial line by these settings, such as /dev/ttyUSB0.
    Serial(PathBuf, SerialSettings),
    /// A TCP port: the host, and the number.
    ///
    /// A host's name is looked up when the port is opened, until that succeeds, and later if no address that was found
    /// answers. After a look-up that succeeded or took long, the next one is a minute later. An address in numbers,
    /// such as 192.168.1.9, isn't looked up. A thread looks the host up and connects to it, so that one that doesn't
    /// answer keeps no other device waiting.
    Tcp(String, u16),
    /// The key events of a keyboard, which no other program gets meanwhile.
    Keys(PathBuf),
}

impl Port {
    /// Returns the port of a name: `tcp:HOST` or `tcp:HOST:PORT` (9100 if there is none), or the path of a device file.
    /// An address of IPv6 is in brackets: `tcp:[::1]:9100`.
    ///
    /// A path of /dev/tty.. or /dev/serial/.. is a serial line by its device's usual settings ([`Port::Line`]), as is a
    /// link to one. A path of /dev/input/.., or a link to one, is a keyboard. Any other name that begins with `tcp:`,
    /// such as `tcp:192.168.1.9:91OO`, has the number 0, which [`Till::drive`](crate::Till::drive) refuses.
    ///
    /// ```
    /// use kijolvar::Port;
    ///
    /// assert_eq!(Port::of("tcp:192.168.1.9"), Port::Tcp("192.168.1.9".to_string(), 9100));
    /// assert_eq!(Port::of("/dev/usb/lp0"), Port::File("/dev/usb/lp0".into()));
    /// assert_eq!(Port::of("/dev/ttyUSB0"), Port::Line("/dev/ttyUSB0".into()));
    /// ```
    pub fn of(name: &str) -> Port {
        if let Some(address) = name.strip_prefix("tcp:") {
            let address = address.strip_prefix("//").unwrap_or(address);
            // No port has the number 0.
            let (host, port) = read_address(address).unwrap_or((address, 0));
            return Port::Tcp(host.to_string(), port);
        }
        let path = Path::new(name);
        if is_line_name(path) || name.starts_with("/dev/serial/") || is_line_link(path) {
            Port::Line(name.into())
        } else if is_keyboard(path) {
            Port::Keys(name.into())
        } else {
            Port::File(name.into())
        }
    }

    /// Whether the settings of a serial line can be set, and a host may be looked up, at a number that isn't 0. Only an
    /// IPv6 address has colons, and it may have a zone behind it.
    pub(crate) fn is_sound(&self) -> bool {
        match self {
            Port::Serial(_, settings) => {
                speed_of(settings.speed).is_some() && matches!(settings.bits, 7 | 8) && matches!(settings.stops, 1 | 2)
            }
            Port::Tcp(host, port) => {
                let (address, zone) = host.split_once('%').unwrap_or((host, "-"));
                let is_six = !zone.is_empty() && !zone.contains('%') && address.parse::<Ipv6Addr>().is_ok();
                *port != 0 && !host.is_empty() && (!host.contains(':') || is_six)
            }
            _ => true,
        }
    }
}

impl From<&str> for Port {
    fn from(name: &str) -> Port {
        Port::of(name)
    }
}

impl From<String> for Port {
    fn from(name: String) -> Port {
        Port::of(&name)
    }
}

impl From<&String> for Port {
    fn from(name: &String) -> Port {
        Port::of(name)
    }
}

impl From<&Path> for Port {
    fn from(path: &Path) -> Port {
        path.to_str().map_or_else(|| Port::File(path.into()), Port::of)
    }
}

impl From<PathBuf> for Port {
    fn from(path: PathBuf) -> Port {
        Port::from(path.as_path())
    }
}

impl From<&PathBuf> for Port {
    fn from(path: &PathBuf) -> Port {
        Port::from(path.as_path())
    }
}

impl From<&OsStr> for Port {
    fn from(name: &OsStr) -> Port {
        Port::from(Path::new(name))
    }
}

impl From<OsString> for Port {
    fn from(name: OsString) -> Port {
        Port::from(name.as_os_str())
    }
}

/// The TCP port at an address. The zone of an IPv6 address is kept.
impl From<SocketAddr> for Port {
    fn from(address: SocketAddr) -> Port {
        let host = match address {
            SocketAddr::V6(six) if six.scope_id() != 0 => format!("{}%{}", six.ip(), six.scope_id()),
            _ => address.ip().to_string(),
        };
        Port::Tcp(host, address.port())
    }
}

/// Returns the host and the number of `HOST` or `HOST:PORT`, if it is one of them. An address of IPv6 is in brackets:
/// nothing says whether the end of a bare one is a number.
fn read_address(address: &str) -> Option<(&str, u16)> {
    let (host, rest) = match address.strip_prefix('[') {
        Some(inside) => inside.split_once(']').filter(|(host, _)| !host.contains('['))?,
        None => address.split_at(address.find([':', '[', ']']).unwrap_or(address.len())),
    };
    match rest.strip_prefix(':') {
        Some(digits) if digits.bytes().all(|digit| digit.is_ascii_digit()) => Some((host, digits.parse().ok()?)),
        None if rest.is_empty() => Some((host, 9100)),
        _ => None,
    }
}

/// Whether a path is a serial line's by its name.
fn is_line_name(path: &Path) -> bool {
    path.to_string_lossy().starts_with("/dev/tty")
}

/// Whether a path is a link to a serial line that is there.
fn is_line_link(path: &Path) -> bool {
    !is_line_name(path) && std::fs::canonicalize(path).is_ok_and(|path| is_line_name(&path))
}

/// Whether a path is a keyboard's by its name, or a link to one that is there.
fn is_keyboard(path: &Path) -> bool {
    path.starts_with("/dev/input") || std::fs::canonicalize(path).is_ok_and(|path| path.starts_with("/dev/input"))
}

/// How often is read at once what has come, so that it ends though the device sends on and on.
pub(crate) const MOST_READS: usize = 16;

/// How long other devices wait for a lost port to open. A keyboard that nobody reads drops what comes much later.
pub(crate) const QUICKLY: Duration = Duration::from_millis(20);

/// The longest timeout or pause of a driver: the whole seconds that C's milliseconds of 31 bits hold, as in Python.
pub(crate) const LONGEST_WAIT: Duration = Duration::from_secs(2_147_483);

/// How long a host has to answer at least, though nobody waits for it so long.
const ANSWERS: Duration = Duration::from_secs(1);

/// Returns the instant at which a time that begins now is over.
pub(crate) fn end_after(time: Duration) -> Instant {
    let now = Instant::now();
    // Far more than a till runs, where an instant can't be so late.
    now.checked_add(time).unwrap_or_else(|| now + Duration::from_secs(1 << 30))
}

/// A time, as Linux has it.
#[repr(C)]
#[derive(Default)]
struct Time {
    seconds: i64,
    nanoseconds: i64,
}

/// Returns how long the machine has run, with the time in which it was suspended, when an `Instant` stands still.
pub(crate) fn uptime() -> Duration {
    let mut now = Time::default();
    // SAFETY: the time is lent for the call.
    unsafe { clock_gettime(CLOCK_BOOTTIME, &mut now) };
    Duration::new(now.seconds as u64, now.nanoseconds as u32)
}

/// What is waited for at a file, and what has happened there.
#[repr(C)]
struct Waiting {
    file: RawFd,
    events: c_short,
    found: c_short,
}

/// The settings of a terminal line, as Linux has them. Those of the C library differ between its versions: from glibc
/// 2.42 on, a speed is another number there.
#[repr(C)]
#[derive(Default)]
struct Line {
    input: u32,
    output: u32,
    control: u32,
    local: u32,
    discipline: u8,
    characters: [u8; 19],
}

/// Which codes of a type a keyboard's events have, as bits of so many bytes.
#[repr(C)]
struct InputMask {
    kind: u32,
    size: u32,
    codes: u64,
}

extern "C" {
    fn poll(files: *mut Waiting, count: c_ulong, milliseconds: c_int) -> c_int;
    fn ioctl(file: c_int, request: c_ulong, ...) -> c_int;
    fn setsockopt(file: c_int, level: c_int, name: c_int, value: *const c_void, size: u32) -> c_int;
    fn clock_gettime(clock: c_int, now: *mut Time) -> c_int;
}

// Linux's numbers on x86-64.
const CLOCK_BOOTTIME: c_int = 7;
const POLLIN: c_short = 1;
const POLLOUT: c_short = 4;
const POLLERR_HUP_NVAL: c_short = 0x38;
pub(crate) const O_NONBLOCK: c_int = 0o4000;
pub(crate) const O_NOCTTY: c_int = 0o400;
const TCGETS: c_ulong = 0x5401;
const TCSETS: c_ulong = 0x5402;
const TCXONC: c_ulong = 0x540a;
const TCOOFF: c_int = 0;
const TCOON: c_int = 1;
const TCFLSH: c_ulong = 0x540b;
const TCOFLUSH: c_int = 1;
const TCIOFLUSH: c_int = 2;
const TIOCEXCL: c_ulong = 0x540c;
const TIOCNXCL: c_ulong = 0x540d;
const TIOCOUTQ: c_ulong = 0x5411;
const EVIOCGRAB: c_ulong = 0x4004_4590;
const EVIOCSMASK: c_ulong = 0x4010_4593;
const EV_MSC: u32 = 4;
const SOL_SOCKET: c_int = 1;
const SO_KEEPALIVE: c_int = 9;
const IPPROTO_TCP: c_int = 6;
const TCP_KEEPIDLE: c_int = 4;
const TCP_KEEPINTVL: c_int = 5;
const TCP_USER_TIMEOUT: c_int = 18;
const EBUSY: c_int = 16;
const ENODEV: c_int = 19;
pub(crate) const EINVAL: c_int = 22;
const ENOTTY: c_int = 25;
const EPIPE: c_int = 32;
pub(crate) const ETIMEDOUT: c_int = 110;
const ECONNREFUSED: c_int = 111;
const EHOSTUNREACH: c_int = 113;
const IGNBRK: u32 = 0o1;
const IGNPAR: u32 = 0o4;
const INPCK: u32 = 0o20;
const IXON: u32 = 0o2000;
const IXOFF: u32 = 0o10000;
const CBAUD: u32 = 0o10_017;
const CSIZE: u32 = 0o60;
const CS7: u32 = 0o40;
const CS8: u32 = 0o60;
const CSTOPB: u32 = 0o100;
const CREAD: u32 = 0o200;
const PARENB: u32 = 0o400;
const PARODD: u32 = 0o1000;
const CLOCAL: u32 = 0o4000;
const CMSPAR: u32 = 0o10_000_000_000;
const CRTSCTS: u32 = 0o20_000_000_000;
const VTIME: usize = 5;
const VMIN: usize = 6;
const VSTART: usize = 8;
const VSTOP: usize = 9;
const XON: u8 = 0x11;
const XOFF: u8 = 0x13;

/// The number by which a speed is set.
fn speed_of(speed: u32) -> Option<u32> {
    let slow = [50, 75, 110, 134, 150, 200, 300, 600, 1200, 1800, 2400, 4800, 9600, 19_200, 38_400];
    let fast = [
        57_600, 115_200, 230_400, 460_800, 500_000, 576_000, 921_600, 1_000_000, 1_152_000, 1_500_000, 2_000_000,
        2_500_000, 3_000_000, 3_500_000, 4_000_000,
    ];
    let place = |of: &[u32]| of.iter().position(|one| *one == speed).map(|place| place as u32);
    place(&slow).map(|place| 1 + place).or_else(|| place(&fast).map(|place| 0o10_001 + place))
}

/// Returns the settings of a terminal line.
fn settings_of(file: RawFd) -> io::Result<Line> {
    let mut line = Line::default();
    // SAFETY: the file is open, and the line is lent for the call.
    if unsafe { ioctl(file, TCGETS, &mut line as *mut Line) } != 0 {
        return Err(io::Error::last_os_error());
    }
    Ok(line)
}

/// Sets up a terminal line, so that bytes pass as they are. A break is no byte. Nor is one with a wrong parity or
/// without its stop bit, as at another speed, or it is 0 if it is kept: as a printer's answer a 0 would say that a line
/// is printed, or that all is well.
fn set_up(file: RawFd, settings: Option<&SerialSettings>, keeps_faults: bool) -> io::Result<()> {
    let mut line = settings_of(file)?;
    (line.input, line.output, line.local) = (IGNBRK, 0, 0);
    line.control = line.control & !(CSIZE | PARENB) | CS8 | CREAD | CLOCAL;
    (line.characters[VMIN], line.characters[VTIME]) = (1, 0);
    if let Some(settings) = settings {
        // Without bits of its own, in the upper half, the input's speed is the output's.
        line.control &= !(CBAUD | CBAUD << 16 | CSIZE | PARENB | PARODD | CMSPAR | CSTOPB | CRTSCTS);
        line.control |= speed_of(settings.speed).ok_or(ErrorKind::InvalidInput)?;
        line.control |= if settings.bits == 8 { CS8 } else { CS7 };
        line.control |= match settings.parity {
            Parity::None => 0,
            Parity::Even => PARENB,
            Parity::Odd => PARENB | PARODD,
        };
        line.control |= if settings.stops == 2 { CSTOPB } else { 0 };
        line.control |= if settings.flow == Flow::RtsCts { CRTSCTS } else { 0 };
        line.input |= if keeps_faults { INPCK } else { INPCK | IGNPAR };
        if settings.flow == Flow::XonXoff {
            line.input |= IXON | IXOFF;
            // A program that had the line before may have left it others, or none.
            (line.characters[VSTART], line.characters[VSTOP]) = (XON, XOFF);
        }
    }
    // SAFETY: the file is open, and the line is lent for the call.
    let is_set = unsafe { ioctl(file, TCSETS, &line as *const Line) } == 0;
    // SAFETY: the file is open.
    if !is_set || settings.is_some() && unsafe { ioctl(file, TCFLSH, TCIOFLUSH) } != 0 {
        return Err(io::Error::last_os_error());
    }
    Ok(())
}

/// Keeps a terminal line to this till. If another program has it, it is busy. Nothing of the line is changed then,
/// since its bytes and settings are the other's.
fn take_line(file: &File) -> io::Result<()> {
    match file.try_lock() {
        Err(TryLockError::WouldBlock) => return Err(io::Error::from_raw_os_error(EBUSY)),
        locked => locked?,
    }
    // That keeps out programs that lock nothing, unless they are root's.
    // SAFETY: the file is open.
    if unsafe { ioctl(file.as_raw_fd(), TIOCEXCL) } != 0 {
        let fault = io::Error::last_os_error();
        let _ = file.unlock();
        return Err(fault);
    }
    Ok(())
}

/// Lets others have a line again, though a process that was forked meanwhile has it too.
fn give_line_back(file: &File) {
    if is_line(file) {
        // SAFETY: the file is open.
        unsafe { ioctl(file.as_raw_fd(), TIOCNXCL) };
    }
    let _ = file.unlock();
}

/// Sets up a terminal line that no other program has.
fn set_up_own(file: &File, settings: Option<&SerialSettings>, keeps_faults: bool) -> io::Result<()> {
    take_line(file)?;
    set_up(file.as_raw_fd(), settings, keeps_faults).inspect_err(|_| give_line_back(file))
}

/// Returns how many bytes a terminal hasn't sent yet.
fn unsent_of(file: RawFd) -> io::Result<c_int> {
    let mut left: c_int = 0;
    // SAFETY: the file is open, and the number is lent for the call.
    if unsafe { ioctl(file, TIOCOUTQ, &mut left as *mut c_int) } != 0 {
        return Err(io::Error::last_os_error());
    }
    Ok(left)
}

/// Drops what a terminal line hasn't sent. Closing the line would wait for it, up to 30 seconds if the device takes
/// nothing. Drivers of some USB adapters drop nothing, but send it once flow control is off. Of a pseudo terminal,
/// which says that all is sent, it would drop what the program at its other end hasn't read yet.
fn drop_unsent(file: RawFd) {
    let Ok(mut line) = settings_of(file) else { return };
    line.control &= !CRTSCTS;
    line.input &= !IXON;
    // SAFETY: the file is open, and the line is lent for the call.
    unsafe {
        if !matches!(unsent_of(file), Ok(0)) {
            ioctl(file, TCFLSH, TCOFLUSH);
        }
        ioctl(file, TCSETS, &line as *const Line);
    }
}

/// Drops what has come over a connection and nobody has read: with that the system would drop what it hasn't sent yet.
fn drop_unread(stream: &mut TcpStream) {
    let mut room = [0; 1024];
    for _ in 0..MOST_READS {
        if !matches!(stream.read(&mut room), Ok(count) if count > 0) {
            break;
        }
    }
}

/// Whether a file is a terminal line.
fn is_line(file: &File) -> bool {
    use std::io::IsTerminal;
    file.is_terminal()
}

/// Which of reading and writing is possible.
#[derive(Debug, Clone, Copy, PartialEq, Eq)]
pub(crate) struct Ready {
    pub(crate) reading: bool,
    pub(crate) writing: bool,
}

/// Waits until something can be read at one of the files, or written if that is asked, at most so long.
fn wait(waiting: &mut [Waiting], time: Duration) -> bool {
    // A part of a millisecond is a whole one.
    let milliseconds = time.as_micros().div_ceil(1000).min(60_000) as c_int;
    // SAFETY: the files are lent for the call.
    unsafe { poll(waiting.as_mut_ptr(), waiting.len() as c_ulong, milliseconds) > 0 }
}

/// Waits until something can be read at one of the files, at most so long.
pub(crate) fn wait_for_any(files: &[RawFd], time: Duration) {
    let mut waiting: Vec<Waiting> =
        files.iter().map(|file| Waiting { file: *file, events: POLLIN, found: 0 }).collect();
    wait(&mut waiting, time);
}

/// Whether a device takes more, or is lost. /dev/usb/lp0 takes bytes at once, and more once those have left this
/// machine. If it is closed before that, they are lost.
fn takes_more(file: RawFd) -> bool {
    let mut waiting = [Waiting { file, events: POLLOUT, found: 0 }];
    wait(&mut waiting, Duration::ZERO) && waiting[0].found & (POLLOUT | POLLERR_HUP_NVAL) != 0
}

/// What a port is while it is open.
#[derive(Debug)]
enum Stream {
    File(File),
    Tcp(TcpStream),
}

/// A port that is opened when it is needed, and again after it was lost.
#[derive(Debug)]
pub(crate) struct Cable {
    pub(crate) port: Port,
    /// How a serial line is set up for which there is only a name.
    usual: SerialSettings,
    /// Whether what was sent may wait for long, as at a printer whose cover is open.
    is_patient: bool,
    /// Whether a byte of a serial line whose parity is wrong or whose stop bit is missing is 0. Otherwise it is
    /// dropped.
    keeps_faults: bool,
    /// What is open, and the process that opened it.
    stream: Option<Stream>,
    process: u32,
    /// Whether reading no bytes means that it is lost, and whether none came the last time.
    ends_empty: bool,
    was_empty: bool,
    /// Why it couldn't be opened or was lost the last time, as the system's number (errno).
    pub(crate) fault: Option<c_int>,
    /// Those of a TCP port's host, and what a thread of a process will say that opens the port.
    addresses: Addresses,
    opening: Option<(Opening, u32)>,
}

/// The port was lost. It is closed then, unless a write has found that.
#[derive(Debug)]
pub(crate) struct Lost;

impl Cable {
    pub(crate) fn new(port: Port) -> Cable {
        Cable {
            port,
            usual: SerialSettings::default(),
            is_patient: false,
            keeps_faults: false,
            stream: None,
            process: 0,
            ends_empty: true,
            was_empty: false,
            fault: None,
            addresses: Addresses::default(),
            opening: None,
        }
    }

    /// A port at which what was sent may wait for long.
    pub(crate) fn patient(port: Port) -> Cable {
        let mut cable = Cable::new(port);
        cable.is_patient = true;
        cable
    }

    /// A port of a scanner: without one of its bytes a code is another one.
    pub(crate) fn of_scanner(port: Port) -> Cable {
        let mut cable = Cable::new(port);
        cable.keeps_faults = true;
        cable
    }

    /// A port of a device that never says that it can take no more: its line has no flow control, unless that is set.
    pub(crate) fn without_flow(port: Port) -> Cable {
        let mut cable = Cable::new(port);
        cable.usual.flow = Flow::None;
        cable
    }

    /// Whether what was sent may wait in it until the device takes it.
    pub(crate) fn holds_back(&self) -> bool {
        match &self.port {
            Port::Serial(_, settings) => settings.flow != Flow::None,
            Port::Line(_) => self.usual.flow != Flow::None,
            _ => false,
        }
    }

    /// Drops what it holds back, as far as the system can. What an adapter has taken may still be sent.
    pub(crate) fn discard(&self) {
        if let (true, Some(file)) = (self.holds_back(), self.file()) {
            // SAFETY: the file is open.
            unsafe { ioctl(file, TCFLSH, TCOFLUSH) };
        }
    }

    /// Lets it send though its device has said that it can take no more (XOFF). The device may have lost its power
    /// since then, or the line its XON: nothing would ever go out again.
    pub(crate) fn resume(&self) {
        let has_xon = matches!(&self.port, Port::Serial(_, settings) if settings.flow == Flow::XonXoff);
        let (true, Some(file)) = (has_xon, self.file()) else { return };
        // SAFETY: the file is open. Linux goes on only from a stop of the same kind.
        unsafe {
            ioctl(file, TCXONC, TCOOFF);
            ioctl(file, TCXONC, TCOON);
        }
    }

    /// Whether something is in it that the device doesn't take.
    pub(crate) fn is_holding(&self) -> bool {
        let (true, Some(file)) = (self.holds_back(), self.file()) else { return false };
        unsent_of(file).is_ok_and(|left| left > 0)
    }

    pub(crate) fn is_open(&self) -> bool {
        self.stream.is_some()
    }

    /// Whether a thread opens the port, of which `open` will hear. A process that was forked hasn't the thread.
    pub(crate) fn is_opening(&self) -> bool {
        self.opening.as_ref().is_some_and(|(_, process)| *process == std::process::id())
    }

    pub(crate) fn file(&self) -> Option<RawFd> {
        match &self.stream {
            Some(Stream::File(file)) => Some(file.as_raw_fd()),
            Some(Stream::Tcp(stream)) => Some(stream.as_raw_fd()),
            None => None,
        }
    }

    /// The file at which something may come. One that gives nothing may be readable all the time.
    pub(crate) fn waits_at(&self) -> Option<RawFd> {
        self.file().filter(|_| !self.was_empty)
    }

    /// Opens a TCP port by a thread, for which the call that begins it waits at most so long. Later ones hear of it.
    fn open_tcp(&mut self, host: String, port: u16, time: Duration) -> io::Result<TcpStream> {
        let is_own = self.is_opening();
        let (opening, time) = match self.opening.take() {
            Some((opening, _)) if is_own => (opening, Duration::ZERO),
            other => {
                // The thread may have been sending as its process was forked: nobody may wait for that.
                std::mem::forget(other);
                (begin_tcp(host, port, std::mem::take(&mut self.addresses), time.max(ANSWERS))?, time)
            }
        };
        match opening.recv_timeout(time) {
            Ok((addresses, stream)) => {
                self.addresses = addresses;
                set_up_tcp(stream?, self.is_patient)
            }
            Err(RecvTimeoutError::Timeout) => {
                self.opening = Some((opening, std::process::id()));
                Err(ErrorKind::TimedOut.into())
            }
            Err(RecvTimeoutError::Disconnected) => Err(ErrorKind::HostUnreachable.into()),
        }
    }

    /// Opens the port, unless it is open. Returns whether it is.
    pub(crate) fn open(&mut self, time: Duration) -> bool {
        if self.stream.is_some() {
            return true;
        }
        self.take_up_link();
        let opened = match &self.port {
            Port::Tcp(host, port) => {
                let (host, port) = (host.clone(), *port);
                self.open_tcp(host, port, time).map(|stream| (Stream::Tcp(stream), true))
            }
            Port::Keys(path) => open_keys(path).map(|file| (Stream::File(file), true)),
            Port::File(path) => open_file(path, None, false),
            Port::Line(path) => open_file(path, Some(&self.usual), self.keeps_faults),
            Port::Serial(path, settings) => open_file(path, Some(settings), self.keeps_faults),
        };
        match opened {
            Ok((stream, ends_empty)) => {
                (self.stream, self.ends_empty) = (Some(stream), ends_empty);
                (self.process, self.was_empty) = (std::process::id(), false);
            }
            // What a thread will say of it isn't known yet.
            Err(_) if self.is_opening() && self.fault.is_some() => {}
            Err(fault) => self.fault = Some(number_of(&fault)),
        }
        self.stream.is_some()
    }

    /// A link may have been missing when the port was named: whether it is to a serial line or to a keyboard is known
    /// once it is there.
    fn take_up_link(&mut self) {
        let Port::File(path) = &self.port else { return };
        if is_line_link(path) {
            self.port = Port::Line(path.clone());
        } else if is_keyboard(path) {
            self.port = Port::Keys(path.clone());
        }
    }

    /// Closes the port, without waiting for what it hasn't sent. A process that was forked meanwhile has it too, and
    /// would keep the connection, the line, and a keyboard's keys. So these end first. In such a process the port is
    /// still that of the process that opened it, and nothing is dropped or ended.
    pub(crate) fn close(&mut self) {
        let mut stream = self.stream.take();
        if self.process != std::process::id() {
            return;
        }
        match &mut stream {
            Some(Stream::Tcp(stream)) => {
                drop_unread(stream);
                let _ = stream.shutdown(Shutdown::Both);
            }
            Some(Stream::File(file)) => {
                if matches!(self.port, Port::Keys(_)) {
                    // SAFETY: the file is open.
                    unsafe { ioctl(file.as_raw_fd(), EVIOCGRAB, 0 as c_int) };
                }
                drop_unsent(file.as_raw_fd());
                give_line_back(file);
            }
            None => {}
        }
    }

    /// Waits until bytes can be read, or written if that is asked, at most so long.
    pub(crate) fn wait(&self, is_writing: bool, time: Duration) -> Ready {
        self.wait_beside(is_writing, time, &[])
    }

    /// Waits for the port, or until something can be read at one of these files.
    pub(crate) fn wait_beside(&self, is_writing: bool, time: Duration, files: &[RawFd]) -> Ready {
        let Some(file) = self.file() else { return Ready { reading: false, writing: false } };
        let mut waiting = vec![Waiting { file, events: POLLIN | if is_writing { POLLOUT } else { 0 }, found: 0 }];
        waiting.extend(files.iter().map(|file| Waiting { file: *file, events: POLLIN, found: 0 }));
        let found = if wait(&mut waiting, time) { waiting[0].found } else { 0 };
        Ready { reading: found & (POLLIN | POLLERR_HUP_NVAL) != 0, writing: found & POLLOUT != 0 }
    }

    /// What reading or writing came to: how many bytes it was.
    fn kept(&mut self, done: io::Result<usize>, is_reading: bool) -> Result<usize, Lost> {
        self.was_empty = is_reading && matches!(done, Ok(0));
        let fault = match done {
            Ok(0) if is_reading && self.ends_empty => ErrorKind::UnexpectedEof.into(),
            Ok(count) => return Ok(count),
            Err(fault) if matches!(fault.kind(), ErrorKind::WouldBlock | ErrorKind::Interrupted) => return Ok(0),
            Err(fault) => fault,
        };
        self.fault = Some(number_of(&fault));
        if is_reading {
            self.close();
        }
        Err(Lost)
    }

    /// Reads what has come, which may be nothing.
    pub(crate) fn read(&mut self, room: &mut [u8]) -> Result<usize, Lost> {
        let done = match &mut self.stream {
            Some(Stream::File(file)) => file.read(room),
            Some(Stream::Tcp(stream)) => stream.read(room),
            None => return Err(Lost),
        };
        self.kept(done, true)
    }

    /// Reads what has come at a port that isn't looked after now. One that gives nothing may be lost, which is seen
    /// once it is looked after.
    pub(crate) fn read_ahead(&mut self, room: &mut [u8]) -> usize {
        let Some(Stream::File(file)) = &mut self.stream else { return 0 };
        match file.read(room) {
            Ok(count) if count > 0 => return count,
            Err(fault) if matches!(fault.kind(), ErrorKind::WouldBlock | ErrorKind::Interrupted) => {}
            _ => self.was_empty = true,
        }
        0
    }

    /// Writes what there is room for. A port that is found to be lost stays open, so that what had come can be read.
    pub(crate) fn write(&mut self, bytes: &[u8]) -> Result<usize, Lost> {
        let done = match &mut self.stream {
            Some(Stream::File(file)) => file.write(bytes),
            Some(Stream::Tcp(stream)) => stream.write(bytes),
            None => return Err(Lost),
        };
        self.kept(done, false)
    }

    /// Whether something that was written hasn't left this machine. Over TCP only the system knows that.
    fn is_draining(&mut self) -> Result<bool, Lost> {
        let Some(Stream::File(file)) = &self.stream else { return Ok(false) };
        let file = file.as_raw_fd();
        let fault = match unsent_of(file) {
            Ok(left) => return Ok(left > 0),
            Err(fault) => fault,
        };
        // Another device is no line, also if it was to be set up as one. A lost line doesn't say it any more.
        if matches!(fault.raw_os_error(), Some(ENOTTY | EINVAL)) {
            return Ok(!takes_more(file));
        }
        self.fault = Some(number_of(&fault));
        self.close();
        Err(Lost)
    }

    /// Returns whether all that was written has left this machine before a time. It rests between two looks.
    pub(crate) fn is_drained(&mut self, end: Instant, mut rest: impl FnMut()) -> bool {
        loop {
            match self.is_draining() {
                Ok(true) if Instant::now() < end => rest(),
                found => return matches!(found, Ok(false)),
            }
        }
    }
}

impl Drop for Cable {
    fn drop(&mut self) {
        self.close();
    }
}

/// The system's number of a fault. Some of Rust's have none, and those of looking a host up.
fn number_of(fault: &io::Error) -> c_int {
    fault.raw_os_error().unwrap_or(match fault.kind() {
        ErrorKind::UnexpectedEof => EPIPE,
        ErrorKind::TimedOut => ETIMEDOUT,
        ErrorKind::InvalidInput => EINVAL,
        _ => EHOSTUNREACH,
    })
}

/// Refuses what is no port: a file, a folder or a disk. A pipe is one for keys alone: of another one this program would
/// read what it writes.
fn check_device(file: &File, may_be_pipe: bool) -> io::Result<()> {
    let kind = file.metadata()?.file_type();
    if kind.is_char_device() || may_be_pipe && kind.is_fifo() {
        return Ok(());
    }
    Err(io::Error::from_raw_os_error(ENODEV))
}

/// Opens a device file, and says whether reading no bytes means that it is lost.
fn open_file(path: &Path, settings: Option<&SerialSettings>, keeps_faults: bool) -> io::Result<(Stream, bool)> {
    let file = OpenOptions::new().read(true).write(true).custom_flags(O_NONBLOCK | O_NOCTTY).open(path)?;
    check_device(&file, false)?;
    // A printer on USB may send packets with nothing in them.
    let ends_empty = is_line(&file);
    if ends_empty {
        set_up_own(&file, settings, keeps_faults)?;
    }
    Ok((Stream::File(file), ends_empty))
}

/// Opens a keyboard's events, which other programs don't see meanwhile.
fn open_keys(path: &Path) -> io::Result<File> {
    let file = OpenOptions::new().read(true).custom_flags(O_NONBLOCK | O_NOCTTY).open(path)?;
    check_device(&file, true)?;
    if is_line(&file) {
        set_up_own(&file, None, false)?;
    }
    // SAFETY: the file is open.
    if file.metadata()?.file_type().is_char_device() && unsafe { ioctl(file.as_raw_fd(), EVIOCGRAB, 1 as c_int) } != 0 {
        let fault = io::Error::last_os_error();
        // A pipe or a terminal has no keys to keep from other programs.
        if !matches!(fault.raw_os_error(), Some(ENOTTY | EINVAL)) {
            return Err(fault);
        }
    }
    leave_scan_codes_out(file.as_raw_fd());
    Ok(file)
}

/// Leaves the scan code of each key out of a keyboard's events, a third of them: Linux keeps few that nobody reads. It
/// takes the codes in words of the machine.
fn leave_scan_codes_out(file: RawFd) {
    let none = 0u64;
    let codes = &none as *const u64 as u64;
    let mask = InputMask { kind: EV_MSC, size: size_of::<u64>() as u32, codes };
    // SAFETY: the file is open, and the mask and its codes are lent for the call. Other files than keyboards refuse it.
    unsafe { ioctl(file, EVIOCSMASK, &mask as *const InputMask) };
}

/// What a thread says that has opened a TCP port: the addresses of its host, and the connection.
type Opening = Receiver<(Addresses, io::Result<TcpStream>)>;

/// Begins to open a TCP port, for which its host has so long.
fn begin_tcp(host: String, port: u16, mut addresses: Addresses, time: Duration) -> io::Result<Opening> {
    let (give, opening) = channel();
    let opens = move || {
        let look_up = || (&host[..], port).to_socket_addrs().map(Vec::from_iter);
        let stream = addresses.connect(look_up, time);
        // Who has given the port up has no use for it.
        drop(give.send((addresses, stream)));
    };
    Builder::new().spawn(opens).map(|_| opening)
}

/// How long a host isn't looked up again, and from when on a look-up has taken long.
const LOOKED_UP: Duration = Duration::from_secs(60);
const SLOWLY: Duration = Duration::from_millis(250);

/// The addresses of a host. They are kept, since looking it up may take long.
#[derive(Debug, Default)]
struct Addresses {
    known: Vec<SocketAddr>,
    looked_up_at: Option<Instant>,
}

impl Addresses {
    /// Connects to a host. It is looked up first, and again if no known address answers.
    fn connect(
        &mut self,
        look_up: impl FnOnce() -> io::Result<Vec<SocketAddr>>,
        time: Duration,
    ) -> io::Result<TcpStream> {
        let end = end_after(time);
        let fault = match connect_to_any(&self.known, end) {
            Err(fault) if self.looked_up_at.is_none_or(|at| at.elapsed() >= LOOKED_UP) => fault,
            done => return done,
        };
        let began = Instant::now();
        let found = look_up();
        if found.is_ok() || !self.known.is_empty() || began.elapsed() > SLOWLY {
            self.looked_up_at = Some(Instant::now());
        }
        let found = found?;
        if found == self.known {
            return Err(fault);
        }
        self.known = found;
        // The time that the look-up took counts no more.
        connect_to_any(&self.known, end_after(time))
    }
}

/// Whether a connection leads to itself. The system may give it the number of the port, if nobody listens there.
fn is_own(stream: &TcpStream) -> bool {
    matches!((stream.local_addr(), stream.peer_addr()), (Ok(here), Ok(there)) if here == there)
}

/// Connects to the first address that answers. Each has its part of the time, so that one that says nothing leaves some
/// to the others.
fn connect_to_any(addresses: &[SocketAddr], end: Instant) -> io::Result<TcpStream> {
    let mut fault: io::Error = ErrorKind::HostUnreachable.into();
    for (place, address) in addresses.iter().enumerate() {
        let left = end.saturating_duration_since(Instant::now()) / (addresses.len() - place) as u32;
        match TcpStream::connect_timeout(address, left.max(Duration::from_millis(1))) {
            Ok(stream) if is_own(&stream) => fault = io::Error::from_raw_os_error(ECONNREFUSED),
            Ok(stream) => return Ok(stream),
            Err(found) => fault = found,
        }
    }
    Err(fault)
}

/// How often the other end of a connection is asked whether it is there while nothing is sent, in seconds, and how long
/// it may take to acknowledge what was sent, in milliseconds.
const ASKED_EVERY: c_int = 10;
const ACKNOWLEDGED_WITHIN: c_int = 60_000;

/// Sets up a connection, so that no call waits, and the system finds out that the other end lost its power: by default
/// after hours, and after minutes if something was sent to it.
fn set_up_tcp(stream: TcpStream, is_patient: bool) -> io::Result<TcpStream> {
    let options = [
        (SOL_SOCKET, SO_KEEPALIVE, 1),
        (IPPROTO_TCP, TCP_KEEPIDLE, ASKED_EVERY),
        (IPPROTO_TCP, TCP_KEEPINTVL, ASKED_EVERY),
        (IPPROTO_TCP, TCP_USER_TIMEOUT, if is_patient { 0 } else { ACKNOWLEDGED_WITHIN }),
    ];
    for (level, name, value) in options {
        let value = &value as *const c_int as *const c_void;
        // SAFETY: the socket is open, and the number is lent for the call.
        if unsafe { setsockopt(stream.as_raw_fd(), level, name, value, size_of::<c_int>() as u32) } != 0 {
            return Err(io::Error::last_os_error());
        }
    }
    stream.set_nodelay(true)?;
    stream.set_nonblocking(true)?;
    Ok(stream)
}

/// A pseudo terminal of a test: one end, and the path of the other.
#[cfg(test)]
pub(crate) fn terminal() -> (File, PathBuf) {
    const TIOCSPTLCK: c_ulong = 0x4004_5431;
    const TIOCGPTN: c_ulong = 0x8004_5430;
    let mut options = OpenOptions::new();
    let file = options.read(true).write(true).custom_flags(O_NONBLOCK | O_NOCTTY).open("/dev/ptmx").unwrap();
    let (mut number, unlocked): (c_int, c_int) = (0, 0);
    // SAFETY: the file is open, and the numbers are lent for the calls.
    let failed = unsafe {
        ioctl(file.as_raw_fd(), TIOCSPTLCK, &unlocked as *const c_int)
            | ioctl(file.as_raw_fd(), TIOCGPTN, &mut number as *mut c_int)
    };
    assert_eq!(failed, 0);
    (file, format!("/dev/pts/{number}").into())
}

#[cfg(test)]
mod tests {
    use super::*;
    use crate::{DisplaySettings, Driver, EscPosPrinter, EscPosSettings, SerialDisplay, WedgeScanner};
    use crate::{Till, Totals, BUILT_PROFILE};
    use std::net::TcpListener;

    const SOON: Duration = Duration::from_millis(500);

    /// A serial line's port that is open.
    fn line(path: &Path) -> Cable {
        let mut cable = Cable::new(Port::Serial(path.into(), SerialSettings::default()));
        assert!(cable.open(SOON));
        cable
    }

    #[test]
    fn a_line_has_its_speed() {
        let slow = [(50, 1), (134, 4), (300, 7), (1200, 0o11), (1800, 0o12), (9600, 0o15), (38_400, 0o17)];
        let fast = [(57_600, 0o10_001), (230_400, 0o10_003), (921_600, 0o10_007), (4_000_000, 0o10_017)];
        for (speed, number) in slow.into_iter().chain(fast) {
            let (_device, path) = terminal();
            let settings = SerialSettings { speed, stops: 2, ..SerialSettings::default() };
            let mut cable = Cable::new(Port::Serial(path, settings));
            assert!(cable.open(SOON));
            let control = settings_of(cable.file().unwrap()).unwrap().control;
            assert_eq!((control & CBAUD, control & CSTOPB), (number, CSTOPB));
        }
    }

    /// What a line does with breaks and wrong parities once a device is driven over it.
    fn input_of<D: Into<Box<dyn Driver>>>(device: &str, parity: Parity, open: impl FnOnce(Port) -> D) -> u32 {
        let (device_end, path) = terminal();
        let settings = SerialSettings { parity, flow: Flow::None, ..SerialSettings::default() };
        let till = Till::open(BUILT_PROFILE, Totals::Memory).unwrap();
        till.drive(device, open(Port::Serial(path, settings))).unwrap();
        settings_of(device_end.as_raw_fd()).unwrap().input
    }

    #[test]
    fn a_line_ignores_breaks_and_checks_its_parity() {
        for parity in [Parity::None, Parity::Even, Parity::Odd] {
            let (dropped, kept) = (INPCK | IGNPAR, INPCK);
            let printer = EscPosSettings { timeout: Duration::from_millis(1), ..EscPosSettings::default() };
            let found = [
                input_of("r1", parity, |port| EscPosPrinter::open(port, printer)),
                input_of("p1", parity, |port| SerialDisplay::open(port, DisplaySettings::default())),
                input_of("s1", parity, WedgeScanner::open),
            ];
            assert_eq!(found, [dropped, dropped, kept].map(|checks| IGNBRK | checks));
        }
    }

    #[test]
    fn a_line_keeps_nothing_that_another_program_has_left() {
        let (device, path) = terminal();
        let mut left = settings_of(device.as_raw_fd()).unwrap();
        left.control |= CMSPAR;
        (left.characters[VSTART], left.characters[VSTOP]) = (0, 0);
        // SAFETY: the file is open, and the settings are lent for the call.
        assert_eq!(unsafe { ioctl(device.as_raw_fd(), TCSETS, &left as *const Line) }, 0);
        assert_eq!(settings_of(device.as_raw_fd()).unwrap().control & CMSPAR, CMSPAR);
        let settings = SerialSettings { flow: Flow::XonXoff, ..SerialSettings::default() };
        let mut cable = Cable::new(Port::Serial(path, settings));
        assert!(cable.open(SOON));
        let found = settings_of(cable.file().unwrap()).unwrap();
        assert_eq!((found.characters[VSTART], found.characters[VSTOP], found.control & CMSPAR), (XON, XOFF, 0));
    }

    #[test]
    fn a_line_that_is_named_has_the_usual_flow_control() {
        for is_display in [false, true] {
            let (_device, path) = terminal();
            let port = Port::Line(path);
            let mut cable = if is_display { Cable::without_flow(port) } else { Cable::new(port) };
            assert!(cable.open(SOON));
            let control = settings_of(cable.file().unwrap()).unwrap().control;
            assert_eq!((control & CBAUD, control & CRTSCTS == 0), (0o15, is_display));
            assert_eq!(cable.holds_back(), !is_display);
        }
        let settings = SerialSettings::default();
        assert!(Cable::without_flow(Port::Serial("/dev/ttyS0".into(), settings)).holds_back());
        let settings = SerialSettings { flow: Flow::None, ..settings };
        assert!(!Cable::new(Port::Serial("/dev/ttyS0".into(), settings)).holds_back());
        assert!(!Cable::new(Port::of("/dev/usb/lp0")).holds_back());
    }

    #[test]
    fn what_a_line_holds_back_may_be_discarded() {
        let (mut device, path) = terminal();
        let mut cable = line(&path);
        let sent = cable.write(&[b'x'; 16_384]).unwrap();
        cable.discard();
        // The line goes on, and what comes next isn't lost.
        while cable.write(b"y").unwrap() == 0 {
            std::thread::sleep(Duration::from_millis(1));
        }
        let (mut room, mut got, end) = ([0; 1024], Vec::new(), end_after(SOON * 20));
        while !got.contains(&b'y') && Instant::now() < end {
            match device.read(&mut room) {
                Ok(count) => got.extend_from_slice(&room[..count]),
                Err(_) => std::thread::sleep(Duration::from_millis(1)),
            }
        }
        // The system moves up to 4,096 bytes to the other end at once.
        assert!(sent > 4096 && got.ends_with(b"y") && got.len() <= 4097, "{} of {sent}", got.len());
    }

    #[test]
    fn what_a_line_has_sent_is_read_though_it_is_closed() {
        for is_closed in [true, false] {
            let (mut device, path) = terminal();
            let other = OpenOptions::new().read(true).custom_flags(O_NOCTTY).open(&path).unwrap();
            let mut cable = line(&path);
            let sent = cable.write(&[b'x'; 16_384]).unwrap();
            let control = || settings_of(other.as_raw_fd()).unwrap().control;
            assert_eq!(control() & CRTSCTS, CRTSCTS);
            if is_closed {
                cable.close();
            } else {
                drop(cable);
            }
            assert_eq!(control() & CRTSCTS, 0);
            let (mut room, mut got, end) = (vec![0; sent], 0, end_after(SOON * 20));
            while got < sent && Instant::now() < end {
                match device.read(&mut room) {
                    Ok(count) => got += count,
                    Err(_) => std::thread::sleep(Duration::from_millis(1)),
                }
            }
            // The system moves up to 4,096 bytes to the other end at once.
            assert!(sent > 4096 && got == sent, "{got} of {sent}");
        }
    }

    #[test]
    fn a_lost_line_is_not_drained() {
        let (device, path) = terminal();
        let mut cable = line(&path);
        assert!(cable.is_drained(end_after(SOON), || {}));
        cable.write(b"unsent").unwrap();
        drop(device);
        assert!(!cable.is_drained(end_after(SOON), || {}) && !cable.is_open());
    }

    #[test]
    fn what_is_no_line_is_drained() {
        // The first refuses the question as one for terminals, and the second as unknown.
        for path in ["/dev/null", "/dev/urandom"] {
            let mut cable = Cable::new(Port::Serial(path.into(), SerialSettings::default()));
            assert!(cable.open(SOON) && cable.write(b"sent").is_ok());
            assert!(cable.is_drained(end_after(SOON), || {}) && cable.is_open(), "{path}");
        }
    }

    #[test]
    fn a_slow_look_up_that_fails_is_not_repeated_at_once() {
        let fails = |time| {
            std::thread::sleep(time);
            Err(ErrorKind::NotFound.into())
        };
        let (mut quick, mut slow) = (Addresses::default(), Addresses::default());
        for addresses in [&mut quick, &mut slow] {
            assert!(addresses.connect(|| fails(Duration::ZERO), SOON).is_err() && addresses.looked_up_at.is_none());
        }
        assert!(slow.connect(|| fails(SLOWLY + Duration::from_millis(10)), SOON).is_err());
        let fault = slow.connect(|| panic!("it is looked up again"), SOON).unwrap_err();
        assert_eq!(number_of(&fault), EHOSTUNREACH);
    }

    /// A host that says nothing, since its queue is full: its listener and what is in the queue.
    fn silent_host() -> (TcpListener, Vec<TcpStream>) {
        extern "C" {
            fn listen(file: c_int, count: c_int) -> c_int;
        }
        let silent = TcpListener::bind("127.0.0.1:0").unwrap();
        // SAFETY: the socket is open.
        assert_eq!(unsafe { listen(silent.as_raw_fd(), 0) }, 0);
        let mut queue = Vec::new();
        while let Ok(stream) = TcpStream::connect_timeout(&silent.local_addr().unwrap(), SOON) {
            queue.push(stream);
        }
        (silent, queue)
    }

    #[test]
    fn an_address_that_says_nothing_leaves_time_to_the_others() {
        let ((silent, _queue), other) = (silent_host(), TcpListener::bind("127.0.0.1:0").unwrap());
        let addresses = [&silent, &other].map(|listener| listener.local_addr().unwrap());
        let began = Instant::now();
        let found = connect_to_any(&addresses, end_after(SOON * 8)).unwrap();
        assert_eq!(found.peer_addr().unwrap(), addresses[1]);
        assert!(began.elapsed() < SOON * 8);
    }

    #[test]
    fn a_forked_process_opens_a_port_by_a_thread_of_its_own() {
        extern "C" {
            fn fork() -> c_int;
            fn waitpid(process: c_int, status: *mut c_int, options: c_int) -> c_int;
            fn _exit(status: c_int) -> !;
        }
        let ((silent, _queue), other) = (silent_host(), TcpListener::bind("127.0.0.1:0").unwrap());
        let mut cable = Cable::new(silent.local_addr().unwrap().into());
        assert!(!cable.open(Duration::from_millis(1)) && cable.is_opening());
        let mut status = -1;
        // SAFETY: the forked process ends here, and this one waits for it.
        unsafe {
            let child = fork();
            if child == 0 {
                cable.port = other.local_addr().unwrap().into();
                _exit(c_int::from(cable.is_opening() || !cable.open(SOON * 20)));
            }
            assert_eq!(waitpid(child, &mut status, 0), child);
        }
        assert!(status == 0 && cable.is_opening());
    }

    #[test]
    fn the_system_finds_out_that_a_device_lost_its_power() {
        extern "C" {
            fn getsockopt(file: c_int, level: c_int, name: c_int, value: *mut c_int, size: *mut u32) -> c_int;
        }
        let listener = TcpListener::bind("127.0.0.1:0").unwrap();
        let port = Port::Tcp("127.0.0.1".to_string(), listener.local_addr().unwrap().port());
        for (mut cable, wanted) in [(Cable::new(port.clone()), 60_000), (Cable::patient(port), 0)] {
            assert!(cable.open(SOON * 20));
            let option = |name| {
                let (mut value, mut size) = (-1, size_of::<c_int>() as u32);
                // SAFETY: the socket is open, and the numbers are lent for the call.
                unsafe { getsockopt(cable.file().unwrap(), IPPROTO_TCP, name, &mut value, &mut size) };
                value
            };
            assert_eq!([TCP_KEEPIDLE, TCP_KEEPINTVL, TCP_USER_TIMEOUT].map(option), [10, 10, wanted]);
        }
    }

    #[test]
    fn a_misspelt_host_is_refused() {
        let is_sound = |name: &str| Port::of(name).is_sound();
        for name in ["tcp:192.168.1.9", "tcp://printer:9101", "tcp:[::1]:9100", "tcp:[fe80::1%eth0]:9100"] {
            assert!(is_sound(name), "{name}");
        }
        assert_eq!(Port::of("tcp:[::1]:9101"), Port::Tcp("::1".to_string(), 9101));
        assert_eq!(Port::of("tcp://[::1]"), Port::Tcp("::1".to_string(), 9100));
        let numbers = ["tcp:192.168.1.9:91OO", "tcp:192.168.1.9:", "tcp:printer:99999", "tcp:h:0", "tcp:h:+9100"];
        let hosts = ["tcp:", "tcp:[]", "tcp:[::1:9100", "tcp:[::1]9100", "tcp:[h", "tcp:h]", "tcp:[fe80::1%]"];
        // Nothing says where such an address ends.
        let bare = ["tcp:::1", "tcp:::1:9100", "tcp:2001:db8::7", "tcp:2001:db8::7:9100", "tcp:::1:abcd"];
        for name in numbers.iter().chain(&hosts).chain(&bare) {
            assert!(!is_sound(name), "{name}");
        }
    }

    #[test]
    fn a_path_may_be_any() {
        use std::os::unix::ffi::OsStrExt;
        let path = Path::new(std::ffi::OsStr::from_bytes(b"/dev/usb/dr\xfccker"));
        assert_eq!(Port::from(path), Port::File(path.into()));
        assert_eq!(Port::from(PathBuf::from(path)), Port::File(path.into()));
        assert_eq!(Port::from(Path::new("tcp:printer")), Port::Tcp("printer".to_string(), 9100));
    }

    #[test]
    fn a_port_is_made_of_what_names_it() {
        let (name, path) = ("tcp:printer".to_string(), PathBuf::from("tcp:printer"));
        let made: [Port; 8] = [
            name.as_str().into(),
            (&name).into(),
            name.clone().into(),
            path.as_path().into(),
            (&path).into(),
            path.as_os_str().into(),
            path.clone().into(),
            path.into_os_string().into(),
        ];
        assert_eq!(made, [const { 9100 }; 8].map(|number| Port::Tcp("printer".to_string(), number)));
        for (address, host) in [("192.0.2.7:9101", "192.0.2.7"), ("[fe80::1%3]:9101", "fe80::1%3")] {
            let port = Port::from(address.parse::<SocketAddr>().unwrap());
            assert!(port.is_sound());
            assert_eq!(port, Port::Tcp(host.to_string(), 9101));
        }
    }

    #[test]
    fn a_fault_has_a_number() {
        let mut cable = Cable::new(Port::File("/dev/none".into()));
        assert!(!cable.open(SOON));
        assert_eq!(cable.fault, Some(2));
        let (device, path) = terminal();
        let mut cable = line(&path);
        drop(device);
        let mut room = [0; 16];
        while cable.read(&mut room).is_ok() {}
        // A terminal that hangs up ends, or fails to be read.
        assert!(matches!(cable.fault, Some(5 | EPIPE)), "{:?}", cable.fault);
    }

    #[test]
    fn what_the_system_has_taken_is_sent_though_something_is_unread() {
        let listener = TcpListener::bind("127.0.0.1:0").unwrap();
        let mut cable = Cable::new(listener.local_addr().unwrap().into());
        assert!(cable.open(SOON * 20));
        let (mut device, _) = listener.accept().unwrap();
        device.write_all(b"Hello").unwrap();
        assert!(cable.wait(false, SOON * 20).reading);
        let mut sent = 0;
        while cable.wait(true, SOON / 5).writing {
            sent += cable.write(&[b'x'; 16_384]).unwrap();
        }
        cable.close();
        let mut got = Vec::new();
        assert_eq!((device.read_to_end(&mut got).ok(), got.len()), (Some(sent), sent));
    }

    #[test]
    fn a_host_is_looked_up_once() {
        let listener = TcpListener::bind("127.0.0.1:0").unwrap();
        let number = listener.local_addr().unwrap().port();
        let mut cable = Cable::new(Port::Tcp("localhost".to_string(), number));
        assert!(cable.open(SOON * 20));
        cable.close();
        cable.port = Port::Tcp("nowhere.invalid".to_string(), number);
        assert!(cable.open(SOON * 20));
    }
}
