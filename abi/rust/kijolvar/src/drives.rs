//! The devices that a till drives: orders are answered once their drivers have carried them out.
use crate::devices::{Order, Work};
use crate::drivers::{Driver, DriverTill, Scan};
use crate::error::Cause;
use crate::line::{is_name, value_of, Line};
use crate::links::is_over;
use crate::ports::{end_after, wait_for_any};
use crate::raw::*;
use crate::standard::{library, Category};
use crate::till::Inner;
use std::collections::VecDeque;
use std::ops::Range;
use std::os::fd::RawFd;
use std::time::{Duration, Instant};

/// How the hardware of a driven device is ([`Till::driver_state`](crate::Till::driver_state)).
#[derive(Debug, Clone, Copy, PartialEq, Eq)]
#[non_exhaustive]
pub struct DriverState {
    /// Whether its port is open, and a printer answers.
    pub is_online: bool,
    /// Why the port couldn't be opened or was lost the last time, as the system's number (errno), which
    /// [`std::io::Error::from_raw_os_error`] explains. There is none if neither ever happened. EBUSY (16) is a serial
    /// line that another till or program has open. EHOSTUNREACH (113) may be a host whose name isn't found, and ENODEV
    /// (19) a path that leads to a file and to no device.
    pub port_error: Option<i32>,
    /// How many orders a printer has printed after they had failed, and weren't asked for again, or were given up
    /// ([`EscPosPrinter`](crate::EscPosPrinter)). It had got them before it stopped, and there is no command that takes
    /// them back.
    pub late_orders: u64,
}

/// A device and its driver.
struct Drive {
    name: String,
    category: Category,
    /// Whether the till takes the device as switched on, if that is known.
    is_on: Option<bool>,
    /// How many orders it has done since its paper was taken away.
    orders: u32,
    /// When output that waits was refused.
    refused_at: Option<Instant>,
    driver: Box<dyn Driver>,
}

impl Drive {
    /// What has happened at the device, as lines of inputs. One that is back is on first. One that was lost is off once
    /// its scans are handed in, since the till takes none of a device that is off.
    fn inputs(&mut self, inner: &mut Inner) -> Vec<String> {
        let line = |words: &str| format!("input {} {words}", self.name);
        let has_scans = inner.drives.scans.iter().any(|(device, _)| *device == self.name);
        if !self.driver.is_online() && !has_scans {
            let was_off = self.is_on.replace(false) == Some(false);
            return if was_off { Vec::new() } else { vec![line("power off")] };
        }
        // From a failed scan on a control ignores codes, so those that have come are told before what happened.
        let happened = if has_scans { Vec::new() } else { self.driver.happened(&mut DriverTill { inner }) };
        // Each line is an input, which the library answers. It answers no blank one.
        let words = happened.iter().flat_map(|words| words.lines()).filter(|words| !words.trim().is_empty());
        let mut lines: Vec<String> = words.map(line).collect();
        let on = line("power on");
        if self.is_on.replace(true) != Some(true) && !lines.contains(&on) {
            lines.insert(0, on);
        }
        lines
    }
}

/// What a till has of its drivers.
#[derive(Default)]
pub(crate) struct Drives {
    list: Vec<Drive>,
    /// Orders of hosted devices that came before one of a driven device.
    hosted: VecDeque<String>,
    /// Whether lines of an earlier call are held, since there was no memory to go on with them.
    pub(crate) is_holding: bool,
    /// What was printed, and couldn't be reported for want of memory.
    unreported: Option<Report>,
    /// What has happened, as lines of inputs, and isn't handed in yet.
    inputs: VecDeque<String>,
    /// What was scanned, with its device, and isn't handed in yet.
    scans: VecDeque<(String, Scan)>,
    /// What went wrong with inputs behind something that was done.
    fault: Option<Cause>,
    has_served: bool,
    is_handing_in: bool,
    /// Whether orders are of output that waits: the line is a `work` line.
    pub(crate) is_working: bool,
}

/// What a line is to drivers.
#[derive(Clone, Copy)]
pub(crate) enum Effect<'line> {
    /// Its orders are of output that waits.
    Works,
    /// The device of the drive at this place has another peripheral.
    Attached(usize),
    /// The printer's control of this name has given its output up.
    GaveUp(&'line [u8]),
}

impl Effect<'_> {
    /// Whether the line is done, by its answer, which is the last one of these.
    fn is_done(&self, answers: &str) -> bool {
        let answer = answers.lines().next_back().unwrap_or("");
        // An ErrorEvent at EL_OUTPUT, which had the reply ER_CLEAR.
        let is_cleared = answer.starts_with("event ErrorEvent ") && answer.ends_with(" 1");
        answer == "ok" || matches!(self, Effect::GaveUp(_)) && is_cleared
    }
}

impl Drives {
    pub(crate) fn is_empty(&self) -> bool {
        self.list.is_empty()
    }

    /// The lines up to the first one that is something to drivers, how many bytes they have, and what that is. A line
    /// that works on output that waits is alone.
    pub(crate) fn first_effect<'line>(&self, lines: &'line [u8]) -> (usize, Option<Effect<'line>>) {
        if self.is_empty() {
            return (lines.len(), None);
        }
        let mut count = 0;
        for line in lines.split_inclusive(|byte| *byte == b'\n') {
            let effect = self.effect_of(line);
            if count > 0 && matches!(effect, Some(Effect::Works)) {
                break;
            }
            count += line.len();
            if effect.is_some() {
                return (count, effect);
            }
        }
        (count, None)
    }

    fn effect_of<'line>(&self, line: &'line [u8]) -> Option<Effect<'line>> {
        let mut words = line.split(|byte| b" \r\n".contains(byte)).filter(|word| !word.is_empty());
        let (verb, name) = (words.next()?, words.next()?);
        match (verb, words.next()) {
            (b"work", _) => Some(Effect::Works),
            (b"attach", _) => self.list.iter().position(|drive| drive.name.as_bytes() == name).map(Effect::Attached),
            (b"call", Some(b"clearOutput")) | (b"deliver", Some(b"clear")) => Some(Effect::GaveUp(name)),
            _ => None,
        }
    }

    pub(crate) fn hosted_order(&mut self) -> Option<String> {
        self.hosted.pop_front()
    }
}

/// Of how many orders of a printer the till keeps the paper.
const KEPT_ORDERS: u32 = 500;

/// How often a call that found no memory is made again.
const TRIES: u32 = 3;

/// How long output that was refused isn't tried again.
const REFUSED: Duration = Duration::from_millis(100);

/// A report of an order: whether it is done, and what happened at the device if it isn't.
struct Report {
    is_done: bool,
    inputs: Vec<String>,
}

impl Report {
    fn not_done() -> Report {
        Report { is_done: false, inputs: Vec::new() }
    }
}

impl Inner {
    /// Does something with the drives at these places, which aren't in the till meanwhile. They come back even if a
    /// driver panics.
    fn with_drives<R>(&mut self, places: Range<usize>, deed: impl FnOnce(&mut Inner, &mut [Drive]) -> R) -> R {
        struct Lent<'i> {
            inner: &'i mut Inner,
            first: usize,
            list: Vec<Drive>,
        }

        impl Drop for Lent<'_> {
            fn drop(&mut self) {
                self.inner.drives.list.splice(self.first..self.first, self.list.drain(..));
            }
        }

        let (first, list) = (places.start, self.drives.list.drain(places).collect());
        let mut lent = Lent { inner: self, first, list };
        deed(lent.inner, &mut lent.list)
    }

    /// Does something with each drive.
    fn for_each_drive(&mut self, mut deed: impl FnMut(&mut Inner, &mut Drive)) {
        let all = 0..self.drives.list.len();
        self.with_drives(all, |inner, list| list.iter_mut().for_each(|drive| deed(inner, drive)));
    }

    /// Has drivers read what nobody would keep, but the one that waits for its device: where more may come.
    pub(crate) fn read_ahead(&mut self) -> Vec<RawFd> {
        self.drives.list.iter_mut().filter_map(|drive| drive.driver.read_ahead()).collect()
    }

    /// The bytes of the order that is out.
    pub(crate) fn order_bytes(
        &mut self,
        settings: &crate::wire::WireSettings,
        is_new: bool,
        end: u32,
    ) -> Result<Vec<u8>, Cause> {
        let mut bytes = vec![0; 256];
        loop {
            let mut needed = 0;
            let (till, out) = (self.at, &mut self.at.0);
            // SAFETY: the pointer is the one that was written last, and the buffers are apart.
            let code = unsafe {
                let (room, at) = (bytes.len(), bytes.as_mut_ptr());
                kijolvar_order_bytes(till, out, settings, is_new.into(), end, at, room, &mut needed)
            };
            match code {
                library::OK => {
                    bytes.truncate(needed);
                    return Ok(bytes);
                }
                library::SHORT => bytes.resize(needed, 0),
                library::NO_ORDER => return Err(Cause::NoOrder),
                library::BAD_SETTINGS => return Err(Cause::BadSettings),
                _ => return Err(Cause::NoMemory),
            }
        }
    }

    /// Does the errands, and makes a longer room, until the answer is in the till, or the front of one that is cut.
    fn settled(&mut self, mut code: u32, needed: &mut usize) -> Result<u32, Cause> {
        while matches!(code, library::ERRANDS | library::SHORT) || code == library::CUT && *needed > self.text.len() {
            if code == library::ERRANDS {
                self.settle()?;
            } else {
                self.text.resize(*needed, 0);
            }
            code = self.answer(needed);
        }
        Ok(code)
    }

    /// The whole answer to lines, by the code of the call that began with them. The orders for which lines wait are
    /// carried out meanwhile, or reported as failed if nobody wants the answer.
    fn finish(&mut self, mut code: u32, mut needed: usize, is_wanted: bool) -> Result<Vec<u8>, Cause> {
        let (mut parts, mut tries, mut is_told) = (Vec::new(), 0, false);
        let mut report = self.drives.unreported.take();
        let mut is_any_done = report.is_some();
        loop {
            code = self.settled(code, &mut needed)?;
            let (has_memory, mut is_taken) = (code != library::NO_MEMORY, true);
            if !has_memory {
                // If no line is held, the answer is to an earlier call: none of this one was taken. If lines wait, the
                // report wasn't taken. If this is said again, it was, and they go on.
                code = self.answer(&mut needed);
                code = self.settled(code, &mut needed)?;
                tries += 1;
                is_taken = code == library::NO_MEMORY;
            }
            let is_held = matches!(code, library::WAITS | library::NO_MEMORY);
            if !is_held && !matches!(code, library::OK | library::CUT) {
                return Err(Cause::DiskFailed(None));
            }
            if is_taken {
                let told = if is_told { report.take() } else { None };
                parts.extend(self.answers_behind(told, needed));
            }
            if !has_memory && (!is_held || tries == TRIES) {
                self.drives.is_holding = is_held;
                self.keep(report.filter(|_| !is_taken));
                return Err(if is_any_done || !parts.is_empty() { Cause::NoAnswer } else { Cause::NoMemory });
            }
            if !is_held {
                return if code == library::OK { Ok(parts) } else { Err(Cause::NoAnswer) };
            }
            if code == library::NO_MEMORY {
                report = Some(Report::not_done());
            }
            let made = match report.take() {
                Some(report) => report,
                None => match self.serve(is_wanted) {
                    // Lines before this one were carried out.
                    Err(Cause::NoMemory) if is_any_done || !parts.is_empty() => return Err(Cause::NoAnswer),
                    served => served?,
                },
            };
            is_any_done |= made.is_done;
            code = self.tell(&made, &mut needed);
            is_told = true;
            report = Some(made);
        }
    }

    /// The answers to lines, which are behind those to a report's inputs. From the first input on that found no memory,
    /// or has no answer, they are kept, so that they are told again in their order.
    fn answers_behind(&mut self, report: Option<Report>, needed: usize) -> Vec<u8> {
        let mut inputs = report.map_or_else(Vec::new, |report| report.inputs);
        let mut answers = self.text[..needed].split_inclusive(|byte| *byte == b'\n');
        let of_inputs: Vec<_> = answers.by_ref().take(inputs.len()).collect();
        let count = of_inputs.iter().take_while(|answer| answer.ends_with(b"\n") && **answer != b"memory\n").count();
        self.drives.inputs.extend(inputs.drain(count..));
        answers.flatten().copied().collect()
    }

    /// Keeps a report that wasn't taken. What was printed is reported the next time. Of an order that failed, what
    /// happened at the device is handed in.
    fn keep(&mut self, report: Option<Report>) {
        match report {
            Some(report) if report.is_done => self.drives.unreported = Some(report),
            Some(report) => self.drives.inputs.extend(report.inputs),
            None => {}
        }
    }

    fn tell(&mut self, report: &Report, needed: &mut usize) -> u32 {
        let inputs: String = report.inputs.iter().flat_map(|line| [line, "\n"]).collect();
        let (till, out) = (self.at, &mut self.at.0);
        // SAFETY: the pointer is the one that was written last, and the buffers are apart.
        unsafe {
            let (text, room) = (self.text.as_mut_ptr(), self.text.len());
            let outcome = u32::from(!report.is_done);
            kijolvar_order_done(till, out, outcome, inputs.as_ptr(), inputs.len(), text, room, needed)
        }
    }

    /// Takes out the order for which a line waits. Those of hosted devices before it are kept.
    fn driven_order(&mut self) -> Result<Option<String>, Cause> {
        while let Some(line) = self.taken_out()? {
            let name = line.split(' ').next().unwrap_or("");
            if self.drives.list.iter().any(|drive| drive.name == name) {
                return Ok(Some(line));
            }
            self.drives.hosted.push_back(line);
        }
        Ok(None)
    }

    /// Has the order that waits carried out.
    fn serve(&mut self, is_wanted: bool) -> Result<Report, Cause> {
        let found = self.driven_order().inspect_err(|_| self.drives.is_holding = true)?;
        // An order that was taken out before, and wasn't reported, is no more.
        let (Some(line), true) = (found, is_wanted) else { return Ok(Report::not_done()) };
        self.drives.has_served = true;
        let Some(order) = Order::read(&line) else { return Ok(Report::not_done()) };
        let name = line.split(' ').next().unwrap_or("").to_string();
        let Some(place) = self.drives.list.iter().position(|drive| drive.name == name) else {
            return Ok(Report::not_done());
        };
        // If a driver panics, the next call gives the lines up.
        self.drives.is_holding = true;
        let report = self.with_drives(place..place + 1, |inner, list| {
            let drive = &mut list[0];
            if drive.driver.is_online() && drive.driver.carry_out(&mut DriverTill { inner }, &order) {
                drive.orders += 1;
                return Report { is_done: true, inputs: Vec::new() };
            }
            let happened = drive.inputs(inner);
            // What the till had no memory for happened before.
            let front = format!("input {name} ");
            let (mut inputs, others): (Vec<String>, Vec<String>) =
                inner.drives.inputs.drain(..).partition(|line| line.starts_with(&front));
            inner.drives.inputs = others.into();
            inputs.extend(happened);
            Report { is_done: false, inputs }
        });
        self.drives.is_holding = false;
        Ok(report)
    }

    /// What is left to do where a driven till's call isn't done: the whole answer.
    pub(crate) fn served(&mut self, code: u32, needed: usize) -> Result<Vec<u8>, Cause> {
        let found = self.finish(code, needed, true)?;
        if std::mem::take(&mut self.drives.has_served) {
            self.hand_in_behind();
        }
        Ok(found)
    }

    /// Ends lines of an earlier call that are held, if there are any: their orders failed, and nobody wants the answer.
    /// If there is no memory for that, the next call would go on with them in place of its own lines.
    pub(crate) fn give_up_held(&mut self) -> Result<(), Cause> {
        if !std::mem::take(&mut self.drives.is_holding) {
            return Ok(());
        }
        let mut needed = 0;
        let code = self.answer(&mut needed);
        let _ = self.finish(code, needed, false);
        if self.drives.is_holding {
            return Err(Cause::NoMemory);
        }
        Ok(())
    }

    /// Tells the till what has happened at the devices, and returns whether anything has. What it has no memory for is
    /// kept, and comes first the next time.
    pub(crate) fn hand_in(&mut self) -> Result<bool, Cause> {
        if self.drives.is_handing_in {
            return Ok(false);
        }
        let left = self.hand_in_inputs();
        if !self.drives.inputs.is_empty() {
            return left;
        }
        self.for_each_drive(|inner, drive| {
            // One that is detached has no paper.
            let is_long = drive.category == Category::PosPrinter && drive.orders >= KEPT_ORDERS;
            if is_long && inner.tear_off(&drive.name).is_ok() {
                drive.orders = 0;
            }
            let inputs = drive.inputs(inner);
            inner.drives.inputs.extend(inputs);
        });
        let found = self.hand_in_inputs();
        Ok(left? | found?)
    }

    /// Hands in behind something that is done, whatever comes of this. What finds no memory is handed in the next time,
    /// and `run_devices` says what else went wrong.
    fn hand_in_behind(&mut self) {
        match self.hand_in() {
            Ok(_) | Err(Cause::NoMemory | Cause::NoAnswer) => {}
            Err(cause) => self.drives.fault = Some(cause),
        }
    }

    /// Tells the till the inputs that wait. If one is refused, the others are told.
    fn hand_in_inputs(&mut self) -> Result<bool, Cause> {
        let is_any = !self.drives.inputs.is_empty();
        let mut found = Ok(is_any);
        self.drives.is_handing_in = true;
        while let Some(line) = self.drives.inputs.pop_front() {
            let told = self.hand_in_line(&line);
            if matches!(told, Err(Cause::NoMemory | Cause::NoAnswer)) {
                // One without an answer may not have been taken. It may be told twice.
                self.drives.inputs.push_front(line);
                found = told.map(|()| is_any);
                break;
            }
            found = found.and_then(|_| told.map(|()| is_any));
        }
        self.drives.is_handing_in = false;
        found
    }

    /// Tells the till a line of an input. Nothing happens at a device that is detached. Without memory nothing was
    /// done.
    fn hand_in_line(&mut self, line: &str) -> Result<(), Cause> {
        self.give_up_held()?;
        match self.carry_out(line.as_bytes()) {
            // The line is held: the next call does it.
            Err(Cause::NoMemory) if self.drives.is_holding => Err(Cause::NoAnswer),
            Err(cause) => Err(cause),
            Ok(answer) => match value_of(answer.trim_end_matches('\n'), None) {
                Ok(_) | Err(Cause::BadDevice) => Ok(()),
                Err(cause) => Err(cause),
            },
        }
    }

    /// Takes the printed paper of a device away.
    pub(crate) fn tear_off(&mut self, device: &str) -> Result<(), Cause> {
        let till = self.at;
        // SAFETY: the pointer is the one that was written last, and the name is lent for the call.
        match unsafe { kijolvar_tear_off(till, &mut self.at.0, device.as_ptr(), device.len()) } {
            library::OK => Ok(()),
            library::NO_DEVICE => Err(Cause::NoDevice),
            _ => Err(Cause::NoMemory),
        }
    }

    /// What a device is, by what `show` prints of it.
    fn category_of(&mut self, device: &str) -> Result<Category, Cause> {
        let text = self.ask(&Line::new("show").name(device))?;
        let words: Vec<&str> = value_of(&text, None)?.split(' ').collect();
        Ok(match words[..] {
            [""] => Category::Scanner,
            ["open" | "closed"] => Category::CashDrawer,
            ["open" | "closed", ..] => Category::PosPrinter,
            _ => Category::LineDisplay,
        })
    }

    /// Has a driver carry out the orders of a device from now on.
    pub(crate) fn drive(&mut self, device: &str, driver: Box<dyn Driver>) -> Result<(), Cause> {
        if !is_name(device) {
            return Err(Cause::BadArgument);
        }
        if self.drives.list.iter().any(|drive| drive.name == device) {
            return Err(Cause::Driven);
        }
        let category = self.category_of(device)?;
        if category != driver.category() {
            return Err(Cause::KindDiffers);
        }
        let name = device.to_string();
        let mut drive = Drive { name, category, is_on: None, orders: 0, refused_at: None, driver };
        drive.driver.start(&mut DriverTill { inner: self }, device).map_err(|error| error.into_cause())?;
        // If it was hosted before, orders of then aren't its driver's.
        while let Some(line) = self.taken_out()? {
            self.drives.hosted.push_back(line);
        }
        self.make_wait(device, category)?;
        // It isn't refused any more.
        self.drives.list.push(drive);
        let last = self.drives.list.len() - 1;
        self.with_drives(last..last + 1, |inner, list| list[0].driver.connect(&mut DriverTill { inner }));
        self.hand_in_behind();
        Ok(())
    }

    /// Makes the orders of a device wait for its driver. A scanner has none.
    fn make_wait(&mut self, device: &str, category: Category) -> Result<(), Cause> {
        if category == Category::Scanner {
            return Ok(());
        }
        let till = self.at;
        // SAFETY: the pointer is the one that was written last, and the name is lent for the call.
        match unsafe { kijolvar_drive(till, &mut self.at.0, device.as_ptr(), device.len()) } {
            library::OK => Ok(()),
            library::NO_MEMORY => Err(Cause::NoMemory),
            _ => Err(Cause::NoDevice),
        }
    }

    /// Drives a device again to which a spare was attached: nobody drives that yet.
    pub(crate) fn drive_again(&mut self, place: usize) {
        let (name, category) = (self.drives.list[place].name.clone(), self.drives.list[place].category);
        // One that is detached has nothing to drive.
        if self.make_wait(&name, category).is_err() {
            return;
        }
        let drive = &mut self.drives.list[place];
        (drive.is_on, drive.orders, drive.refused_at) = (None, 0, None);
        drive.driver.attached();
        // What the peripheral before has said isn't this one's.
        let front = format!("input {name} ");
        self.drives.inputs.retain(|line| !line.starts_with(&front));
        self.hand_in_behind();
    }

    /// Does what the last one of lines is to drivers, unless it failed. Without memory for its answer it may be done.
    pub(crate) fn apply_effect(&mut self, effect: Effect<'_>, found: &Result<String, Cause>) {
        let is_done = match found {
            Ok(answers) => effect.is_done(answers),
            Err(cause) => !matches!(cause, Cause::NoMemory),
        };
        match effect {
            _ if !is_done => {}
            Effect::Works => {}
            Effect::Attached(place) => self.drive_again(place),
            Effect::GaveUp(control) => self.give_output_up(control),
        }
    }

    /// The control of a name has given its output up: its printer is told, or all are if that isn't known.
    pub(crate) fn give_output_up(&mut self, control: &[u8]) {
        let device = self.device_of(control).map(str::to_string);
        self.for_each_drive(|_, drive| {
            let is_meant = device.as_ref().is_none_or(|device| *device == drive.name);
            if drive.category == Category::PosPrinter && is_meant {
                drive.driver.given_up();
            }
        });
    }

    pub(crate) fn driver_state(&self, device: &str) -> Result<DriverState, Cause> {
        let drive = self.drives.list.iter().find(|drive| drive.name == device).ok_or(Cause::NoDevice)?;
        let driver = &drive.driver;
        let (is_online, port_error, late_orders) = (driver.is_online(), driver.port_error(), driver.late_orders());
        Ok(DriverState { is_online, port_error, late_orders })
    }

    /// Why the port isn't open of the device on which the control of a name is.
    pub(crate) fn port_error_of(&self, control: &str) -> Option<i32> {
        let device = self.device_of(control.as_bytes())?;
        let driver = &self.drives.list.iter().find(|drive| drive.name == device)?.driver;
        driver.port_error().filter(|_| !driver.is_port_open())
    }

    /// Does what the devices need, and waits for something to do as long as it may. Returns whether anything was done.
    pub(crate) fn run_devices(&mut self, timeout: Duration) -> Result<bool, Cause> {
        if self.drives.is_empty() {
            std::thread::sleep(timeout);
            return Ok(false);
        }
        let end = end_after(timeout);
        loop {
            if self.run_round()? {
                return Ok(true);
            }
            let left = end.saturating_duration_since(Instant::now());
            if left.is_zero() {
                return Ok(false);
            }
            wait_for_any(&self.device_files(), left.min(Duration::from_millis(100)));
        }
    }

    /// The files at which something may come.
    pub(crate) fn device_files(&self) -> Vec<RawFd> {
        let mut files: Vec<_> = self.drives.list.iter().filter_map(|drive| drive.driver.file()).collect();
        files.dedup();
        files
    }

    /// Has drivers look at their devices, and takes over what was scanned.
    fn poll(&mut self) {
        self.for_each_drive(|inner, drive| {
            drive.driver.poll(&mut DriverTill { inner });
            let scans = drive.driver.scans().into_iter().map(|scan| (drive.name.clone(), scan));
            inner.drives.scans.extend(scans);
        });
    }

    fn run_round(&mut self) -> Result<bool, Cause> {
        self.poll();
        let found = self.hand_in();
        let handed_in = self.drives.fault.take().map_or(found, Err);
        // Scans are handed in even if an input is refused, but none before the device is on.
        if !self.drives.inputs.is_empty() {
            return handed_in;
        }
        let is_any_scan = self.hand_in_scans()?;
        let mut is_any = handed_in? || is_any_scan;
        if is_any_scan {
            // A scanner that was lost behind its scans is off now.
            self.hand_in()?;
        }
        for place in 0..self.drives.list.len() {
            let drive = &self.drives.list[place];
            if drive.category == Category::PosPrinter && is_over(drive.refused_at, REFUSED) {
                is_any |= self.work(place)?;
            }
        }
        Ok(is_any)
    }

    /// Tells the till what was scanned, and returns whether anything was. Scans behind one that fails are kept, and it
    /// too if there was no memory for it.
    fn hand_in_scans(&mut self) -> Result<bool, Cause> {
        let is_any = !self.drives.scans.is_empty();
        while let Some((device, scan)) = self.drives.scans.front() {
            let line = Line::new("input").name(device).word("scan").number(scan.kind);
            let line = line.bytes(&scan.data).bytes(&scan.label);
            let told = line.text().map(str::to_string).and_then(|text| self.hand_in_line(&text));
            if !matches!(told, Err(Cause::NoMemory)) {
                self.drives.scans.pop_front();
            }
            told?;
        }
        Ok(is_any)
    }

    /// Prints the first request that waits, and returns whether one did.
    fn work(&mut self, place: usize) -> Result<bool, Cause> {
        let line = Line::new("work").name(&self.drives.list[place].name);
        match Work::read(&self.ask(&line)?) {
            // Nothing waits for one that is detached.
            Ok(Work::Idle) | Err(Cause::BadDevice) => Ok(false),
            Ok(Work::Done { .. }) => Ok(true),
            Ok(Work::Failed { .. }) => {
                self.drives.list[place].refused_at = Some(Instant::now());
                Ok(true)
            }
            Err(cause) => Err(cause),
        }
    }
}
