//! A host in Rust for tests/native.py: a till whose devices have drivers. tests/native/host.c says which commands it
//! reads, and how it answers them.
use kijolvar::standard::{Category, ErrorReply, PrinterStation};
use kijolvar::{
    backup, check, devices, files, migrate, Cause, DisplaySettings, Driver, DriverTill, Error, EscPosPrinter,
    EscPosSettings, Event, Flow, Order, Port, PosPrinter, Protocol, Scan, SerialDisplay, SerialSettings, Till, Totals,
    WedgeScanner, BUILT_PROFILE,
};
use std::cell::RefCell;
use std::io::{BufRead, Write};
use std::rc::Rc;
use std::sync::{Mutex, MutexGuard};
use std::time::Duration;

/// The words behind a command's verb, of which some are keys with a value.
struct Words<'l>(Vec<&'l str>);

/// A time, of which -1 has no end.
fn milliseconds(word: &str) -> Duration {
    if word == "-1" {
        return Duration::MAX;
    }
    Duration::from_millis(word.parse().unwrap())
}

impl Words<'_> {
    fn has(&self, key: &str) -> bool {
        self.0.contains(&key)
    }

    fn value(&self, key: &str) -> Option<&str> {
        let place = self.0.iter().position(|word| *word == key)?;
        self.0.get(place + 1).copied()
    }

    fn number(&self, key: &str) -> Option<u32> {
        self.value(key)?.parse().ok()
    }

    fn time(&self, key: &str, usual: Duration) -> Duration {
        self.value(key).map_or(usual, milliseconds)
    }

    /// The port of a device, which may be a serial line whatever its name is.
    fn port(&self) -> Port {
        let Some(speed) = self.number("serial") else { return Port::of(self.0[1]) };
        let flow = match self.value("flow") {
            Some("rts-cts") => Flow::RtsCts,
            Some("xon-xoff") => Flow::XonXoff,
            _ => Flow::None,
        };
        Port::Serial(self.0[1].into(), SerialSettings { speed, flow, ..SerialSettings::default() })
    }
}

fn open_printer(till: &Till, words: &Words) -> Result<String, Error> {
    let usual = EscPosSettings::default();
    let settings = EscPosSettings {
        width: words.number("width"),
        lines: words.number("lines").unwrap_or(usual.lines),
        is_asked: words.has("asked"),
        timeout: words.time("timeout", usual.timeout),
        pause: words.time("pause", usual.pause),
        ..usual
    };
    let printer = EscPosPrinter::open(words.port(), settings);
    if let Some(name) = words.value("drawer") {
        till.drive(name, printer.drawer())?;
    }
    till.drive(words.0[0], printer)?;
    Ok("ok".to_string())
}

fn open_display(till: &Till, words: &Words) -> Result<String, Error> {
    let usual = DisplaySettings::default();
    let protocol = if words.has("escpos") { Protocol::EscPos } else { Protocol::Cd5220 };
    let (timeout, pause) = (words.time("timeout", usual.timeout), words.time("pause", usual.pause));
    till.drive(words.0[0], SerialDisplay::open(words.port(), DisplaySettings { protocol, timeout, pause }))?;
    Ok("ok".to_string())
}

fn open_scanner(till: &Till, words: &Words) -> Result<String, Error> {
    let port = if words.has("keys") { Port::Keys(words.0[1].into()) } else { words.port() };
    let pause = words.time("pause", Duration::from_secs(1));
    till.drive(words.0[0], WedgeScanner::open(port).with_pause(pause))?;
    Ok("ok".to_string())
}

/// What becomes of the device of a driver of the host's own.
struct Fate {
    /// How many orders it takes, and the last one. Whether it calls its till with each, and what that came to.
    left: u32,
    did: String,
    calls: bool,
    says: Vec<String>,
    is_away: bool,
    codes: Vec<Scan>,
    given_up: u32,
}

static FATE: Mutex<Fate> = Mutex::new(Fate {
    left: 0,
    did: String::new(),
    calls: false,
    says: Vec::new(),
    is_away: false,
    codes: Vec::new(),
    given_up: 0,
});

thread_local! {
    /// The host's till, as its driver may have it.
    static TILL: RefCell<Option<Rc<Till>>> = const { RefCell::new(None) };
}

fn fate() -> MutexGuard<'static, Fate> {
    FATE.lock().unwrap()
}

/// A driver of the host's own.
struct Own(Category);

impl Driver for Own {
    fn category(&self) -> Category {
        self.0
    }

    fn carry_out(&mut self, _: &mut DriverTill<'_>, order: &Order) -> bool {
        let mut fate = fate();
        fate.did = words_of(order);
        if fate.calls {
            let till = TILL.with_borrow(|till| till.clone().unwrap());
            fate.did = till.run_devices(Duration::ZERO).map_or_else(|error| refusal(&error), |_| "ok".to_string());
        }
        let is_done = fate.left > 0;
        fate.left = fate.left.saturating_sub(1);
        is_done
    }

    fn happened(&mut self, _: &mut DriverTill<'_>) -> Vec<String> {
        std::mem::take(&mut fate().says)
    }

    fn is_online(&self) -> bool {
        !fate().is_away
    }

    fn scans(&mut self) -> Vec<Scan> {
        if self.0 == Category::Scanner {
            std::mem::take(&mut fate().codes)
        } else {
            Vec::new()
        }
    }

    fn attached(&mut self) {
        fate().says = vec!["paper 700".to_string()];
    }

    fn given_up(&mut self) {
        fate().given_up += 1;
    }
}

/// An order in words.
fn words_of(order: &Order) -> String {
    match order {
        Order::OpenDrawer { device } => format!("{device} openDrawer"),
        Order::DisplayTextAt { device, row, column, text, attribute } => {
            format!("{device} displayTextAt {} {row} {column} {attribute}", hex(text))
        }
        Order::ClearText { device } => format!("{device} clearText"),
        Order::ScrollText { device, direction, units } => format!("{device} scrollText {direction} {units}"),
        Order::Print { device, data } => format!("{device} print {}", hex(data)),
        Order::CutPaper { device, percentage } => format!("{device} cutPaper {percentage}"),
        other => format!("{other:?}"),
    }
}

fn hex(bytes: &[u8]) -> String {
    bytes.iter().map(|byte| format!("{byte:02x}")).collect()
}

fn bytes_of(digits: &str) -> Vec<u8> {
    let digit = |place: usize| u8::from_str_radix(&digits[place..place + 2], 16).unwrap();
    (0..digits.len()).step_by(2).map(digit).collect()
}

fn open_own(till: &Till, words: &Words) -> Result<String, Error> {
    let category = match words.0.get(2) {
        Some(&"printer") => Category::PosPrinter,
        Some(&"display") => Category::LineDisplay,
        Some(&"scanner") => Category::Scanner,
        _ => Category::CashDrawer,
    };
    fate().left = words.0[1].parse().unwrap();
    till.drive(words.0[0], Own(category))?;
    Ok("ok".to_string())
}

/// What the device of the host's own driver reads next.
fn read_code(words: &Words) -> String {
    match words.0[0].parse() {
        Ok(kind) => {
            let data = bytes_of(words.0[1]);
            fate().codes.push(Scan { kind, label: data.clone(), data });
        }
        Err(_) => fate().says = vec!["fault".to_string()],
    }
    "ok".to_string()
}

/// Refuses memory to the library, if tests/native/scarce_heap.c is its heap.
#[cfg(feature = "heap")]
fn refuse_memory(words: &Words) -> String {
    extern "C" {
        fn heap_refuses_some(number: std::ffi::c_long, count: std::ffi::c_long);
    }
    let number = |place: usize| words.0.get(place).map_or(-1, |word| word.parse().unwrap());
    // SAFETY: it takes two numbers.
    unsafe { heap_refuses_some(number(0), number(1)) };
    "ok".to_string()
}

#[cfg(not(feature = "heap"))]
fn refuse_memory(_: &Words) -> String {
    "not understood".to_string()
}

/// The controls of typed calls, and whether those are of r2 and not of r1.
#[derive(Default)]
struct Typed<'till> {
    controls: [Option<PosPrinter<'till>>; 2],
    is_second: bool,
}

impl<'till> Typed<'till> {
    fn place(&mut self) -> &mut Option<PosPrinter<'till>> {
        &mut self.controls[usize::from(self.is_second)]
    }

    /// The control of the printer, which the first typed call makes.
    fn control(&mut self, till: &'till Till) -> Result<&PosPrinter<'till>, Error> {
        let name = if self.is_second { "r2" } else { "r1" };
        let place = self.place();
        if place.is_none() {
            *place = Some(till.pos_printer(name)?.enabled()?);
        }
        Ok(place.as_ref().unwrap())
    }
}

/// Prints bytes by a typed call, or has them printed later.
fn print(printer: &PosPrinter<'_>, digits: &str, is_later: bool) -> Result<String, Error> {
    if is_later {
        printer.set_async_mode(true)?;
    }
    printer.print_normal(PrinterStation::Receipt, bytes_of(digits))?;
    Ok("ok".to_string())
}

/// Why printing bytes is refused; nothing if it isn't.
fn reason(printer: &PosPrinter<'_>, digits: &str) -> String {
    let Err(error) = print(printer, digits, false) else { return String::new() };
    let said = error.to_string();
    let behind = error.reason().and_then(|reason| said.find(reason.trim_end_matches('.')));
    said[behind.unwrap_or(0)..].to_string()
}

/// Delivers all events of a control, each with the reply ER_CLEAR: how many were ErrorEvents.
fn reply(printer: &PosPrinter<'_>) -> Result<String, Error> {
    let mut count = 0;
    while let Some(event) = printer.next_event_replied(ErrorReply::Clear)? {
        count += u32::from(matches!(event, Event::Error(_)));
    }
    Ok(count.to_string())
}

/// Delivers them to a listener that releases the control at an ErrorEvent, and then gives the output up: how many there
/// were.
fn release_at_error(printer: &PosPrinter<'_>) -> Result<String, Error> {
    let mut count = 0;
    printer.pump(|event| {
        let is_error = matches!(event, Event::Error(_));
        if is_error {
            count += 1;
            printer.release().expect("a control that is claimed");
        }
        is_error.then_some(ErrorReply::Clear)
    })?;
    Ok(count.to_string())
}

fn obey<'till>(till: &'till Till, typed: &mut Typed<'till>, line: &str) -> Result<String, Error> {
    let (verb, rest) = line.split_once(' ').unwrap_or((line, ""));
    let words = Words(rest.split(' ').filter(|word| !word.is_empty()).collect());
    match verb {
        "printer" => open_printer(till, &words),
        "display" => open_display(till, &words),
        "scanner" => open_scanner(till, &words),
        "own" => open_own(till, &words),
        "did" => Ok(fate().did.clone()),
        "calls" => {
            fate().calls = true;
            Ok("ok".to_string())
        }
        "says" => {
            fate().says = rest.split(';').map(str::to_string).collect();
            Ok("ok".to_string())
        }
        "there" => {
            fate().is_away = rest == "no";
            Ok("ok".to_string())
        }
        "reads" => Ok(read_code(&words)),
        "run" => till.run_devices(milliseconds(words.0[0])).map(|is_any| is_any.to_string()),
        "state" => till
            .driver_state(words.0[0])
            .map(|state| format!("{} {}", if state.is_online { "online" } else { "offline" }, state.late_orders)),
        "why" => till.driver_state(words.0[0]).map(|state| state.port_error.unwrap_or(0).to_string()),
        "lines" => till.carry_out(rest.replace(';', "\n")).map(|answers| answers.replace('\n', ";")),
        "print" | "later" => print(typed.control(till)?, rest, verb == "later"),
        "reason" => Ok(reason(typed.control(till)?, rest)),
        "clear" => typed.control(till)?.clear_output().map(|()| "ok".to_string()),
        "release" => typed.control(till)?.release().map(|()| "ok".to_string()),
        "close" => {
            *typed.place() = None;
            Ok("ok".to_string())
        }
        "swap" => {
            typed.is_second = !typed.is_second;
            Ok("ok".to_string())
        }
        "given" => Ok(fate().given_up.to_string()),
        "reply" => reply(typed.control(till)?),
        "drop" => release_at_error(typed.control(till)?),
        "host" => till.host(rest).map(|()| "ok".to_string()),
        "tear" => till.tear_off(rest).map(|()| "ok".to_string()),
        "memory" => Ok(refuse_memory(&words)),
        "order" => till.next_order().map(|order| match order {
            Some(Order::OpenDrawer { device }) => device,
            _ => "none".to_string(),
        }),
        _ => Ok("not understood".to_string()),
    }
}

/// A refusal, by the names of C.
fn refusal(error: &Error) -> String {
    match error.cause() {
        Cause::Extended(extended) => format!("E_EXTENDED {}", extended.number()),
        Cause::Code(code) => format!("{code:?}"),
        Cause::BadArgument => "KIJ_BAD_ARGUMENT".to_string(),
        Cause::BadDevice => "KIJ_BAD_DEVICE".to_string(),
        Cause::BadInput => "KIJ_BAD_INPUT".to_string(),
        Cause::KindDiffers => "KIJ_KIND_DIFFERS".to_string(),
        Cause::BadSettings => "KIJ_BAD_SETTINGS".to_string(),
        Cause::NoDevice => "KIJ_NO_DEVICE".to_string(),
        Cause::Driven => "KIJ_DRIVEN".to_string(),
        Cause::NoMemory => "KIJ_NO_MEMORY".to_string(),
        Cause::NoAnswer => "KIJ_NO_ANSWER".to_string(),
        Cause::WrongVersion => "KIJ_WRONG_VERSION".to_string(),
        Cause::InCall => "KIJ_IN_CALL".to_string(),
        _ => error.to_string(),
    }
}

/// What the calls answer by which a program begins: of a profile, of a file that isn't there, and of tills.
fn begin(path: &str) {
    let answers = [
        devices(BUILT_PROFILE).map(drop),
        files(path).map(drop),
        check(path),
        backup(path, path),
        migrate(path),
        Till::open(BUILT_PROFILE, Totals::Memory).map(drop),
        Till::open(BUILT_PROFILE, Totals::create(path)).map(drop),
    ];
    for answer in answers {
        println!("{}", answer.map_or_else(|error| refusal(&error), |()| "ok".to_string()));
    }
}

fn main() {
    let words: Vec<String> = std::env::args().collect();
    if words[1] == "begin" {
        begin(&words[2]);
        return;
    }
    let profile = std::fs::read_to_string(&words[1]).expect("a profile");
    let totals = words.get(2).map_or(Totals::Memory, Totals::create);
    let till = Rc::new(Till::open(&profile, totals).expect("a till"));
    TILL.set(Some(Rc::clone(&till)));
    let mut typed = Typed::default();
    let mut out = std::io::stdout().lock();
    for line in std::io::stdin().lock().lines() {
        let answer = obey(&till, &mut typed, &line.expect("a line")).unwrap_or_else(|error| refusal(&error));
        writeln!(out, "{answer}").and_then(|()| out.flush()).expect("somebody who listens");
    }
    TILL.take();
}
