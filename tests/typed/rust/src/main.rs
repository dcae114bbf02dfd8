//! Runs a script by the typed calls, and prints the answers in the script's form, each from what its call returned. A
//! line that has no typed call, as one of a wrong shape, with an unknown name or with a negative number, is carried out
//! by the text interface; it is listed on standard error, and how many lines there were of each sort. Usage: run
//! PROFILE|- FILE|- < SCRIPT
#[rustfmt::skip]
mod calls;
mod words;

use kijolvar::standard::ErrorReply;
use kijolvar::{CashDrawer, Control, Error, Event, HardTotals, LineDisplay, PosPrinter, Property, Scanner};
use kijolvar::{Till, Totals, Value, Work, BUILT_PROFILE};
use std::collections::HashMap;
use std::io::{Read, Write};
use std::ops::Deref;
use words::{answer, bytes, device, hex, nothing, number, truth};

/// A control of any category.
enum Any<'till> {
    Drawer(CashDrawer<'till>),
    Scanner(Scanner<'till>),
    Display(LineDisplay<'till>),
    Printer(PosPrinter<'till>),
    Totals(HardTotals<'till>),
}

impl<'till> Any<'till> {
    fn named(till: &'till Till, category: &str, name: &str) -> Option<Result<Any<'till>, Error>> {
        Some(match category {
            "CashDrawer" => CashDrawer::named(till, name).map(Any::Drawer),
            "Scanner" => Scanner::named(till, name).map(Any::Scanner),
            "LineDisplay" => LineDisplay::named(till, name).map(Any::Display),
            "POSPrinter" => PosPrinter::named(till, name).map(Any::Printer),
            "HardTotals" => HardTotals::named(till, name).map(Any::Totals),
            _ => return None,
        })
    }

    fn method(&self, word: &str, given: &[&str]) -> Option<words::Shown> {
        match self {
            Any::Drawer(control) => calls::drawer_method(control, word, given),
            Any::Scanner(control) => calls::scanner_method(control, word, given),
            Any::Display(control) => calls::display_method(control, word, given),
            Any::Printer(control) => calls::printer_method(control, word, given),
            Any::Totals(control) => calls::totals_method(control, word, given),
        }
    }

    fn get(&self, name: &str) -> Option<words::Shown> {
        let own = match self {
            Any::Drawer(control) => calls::drawer_get(control, name),
            Any::Scanner(control) => calls::scanner_get(control, name),
            Any::Display(control) => calls::display_get(control, name),
            Any::Printer(control) => calls::printer_get(control, name),
            Any::Totals(control) => calls::totals_get(control, name),
        };
        own.or_else(|| calls::common_get(self, name)).or_else(|| {
            let value = self.deref().get(Property::from_name(name)?);
            Some(value.map(|value| match value {
                Value::Number(number) => number.to_string(),
                Value::Truth(is_true) => is_true.to_string(),
                Value::Bytes(bytes) => hex(&bytes),
                other => format!("{other:?}"),
            }))
        })
    }

    fn set(&self, name: &str, word: &str) -> Option<words::Shown> {
        let own = match self {
            Any::Scanner(control) => calls::scanner_set(control, name, word),
            Any::Display(control) => calls::display_set(control, name, word),
            Any::Printer(control) => calls::printer_set(control, name, word),
            Any::Drawer(_) | Any::Totals(_) => None,
        };
        own.or_else(|| calls::common_set(self, name, word)).or_else(|| {
            let value = truth(word).map(Value::Truth).or_else(|| number(word).map(Value::Number))?;
            Some(nothing(self.deref().set(Property::from_name(name)?, value)))
        })
    }
}

impl<'till> Deref for Any<'till> {
    type Target = Control<'till>;

    fn deref(&self) -> &Control<'till> {
        match self {
            Any::Drawer(control) => control,
            Any::Scanner(control) => control,
            Any::Display(control) => control,
            Any::Printer(control) => control,
            Any::Totals(control) => control,
        }
    }
}

/// A run: the till, its controls by their names, and how many lines went which way.
struct Run<'till> {
    till: &'till Till,
    controls: HashMap<String, Any<'till>>,
    typed: u64,
    by_text: u64,
}

impl Run<'_> {
    /// What is printed for an event.
    fn event(event: Option<Event>) -> String {
        match event {
            None => "none".to_string(),
            Some(Event::StatusUpdate(status)) => format!("event StatusUpdateEvent {}", status.number()),
            Some(Event::Data) => "event DataEvent 0".to_string(),
            Some(Event::OutputComplete { output_id }) => format!("event OutputCompleteEvent {output_id}"),
            Some(Event::Error(error)) => {
                let extended = error.extended.map_or(0, |code| code.number());
                format!("event ErrorEvent {} {extended} {}", error.code.number(), error.locus.number())
            }
            Some(event) => panic!("{event:?}"),
        }
    }

    fn deliver(&self, name: &str, reply: &[&str]) -> Option<String> {
        let control = self.controls.get(name)?;
        let event = match *reply {
            [] => control.next_event(),
            ["retry"] => control.next_event_replied(ErrorReply::Retry),
            ["clear"] => control.next_event_replied(ErrorReply::Clear),
            ["continue"] => control.next_event_replied(ErrorReply::ContinueInput),
            _ => return None,
        };
        Some(Run::event(event.expect("an event")))
    }

    fn input(&self, name: &str, words: &[&str]) -> Option<String> {
        let till = self.till;
        Some(answer(nothing(match *words {
            ["open"] => till.input_drawer(name, true),
            ["closed"] => till.input_drawer(name, false),
            ["fault"] => till.input_scan_fault(name),
            ["cover", "open"] => till.input_cover(name, true),
            ["cover", "closed"] => till.input_cover(name, false),
            ["power", "on"] => till.input_power(name, true),
            ["power", "off"] => till.input_power(name, false),
            ["paper", lines] => till.input_paper(name, number(lines)?),
            ["scan", of, data, label] => till.input_scan(name, number(of)?, bytes(data)?, bytes(label)?),
            _ => return None,
        })))
    }

    fn work(&self, name: &str) -> String {
        match self.till.work(name) {
            Ok(Work::Idle) => "idle".to_string(),
            Ok(Work::Done { output_id }) => format!("done {output_id}"),
            Ok(Work::Failed { code, extended }) => {
                format!("failed {} {}", code.number(), extended.map_or(0, |code| code.number()))
            }
            Ok(other) => format!("{other:?}"),
            Err(error) => answer(Err(error)),
        }
    }

    fn new_control(&mut self, name: &str, category: &str) -> Option<String> {
        let shown = Any::named(self.till, category, device(name)?)?.map(|control| {
            self.controls.insert(name.to_string(), control);
        });
        Some(answer(nothing(shown)))
    }

    /// The answer to a line by a typed call, if it has one.
    fn words(&mut self, words: &[&str]) -> Option<String> {
        match *words {
            ["new", name, category] => self.new_control(name, category),
            ["input", name, ref words @ ..] => self.input(name, words),
            ["work", name] => Some(self.work(name)),
            ["show", name] => Some(answer(self.till.show(name))),
            ["detach", name] => Some(answer(nothing(self.till.detach(name)))),
            ["attach", name, spare] => Some(answer(nothing(self.till.attach(name, number(spare)?)))),
            ["deliver", name, ref reply @ ..] => self.deliver(name, reply),
            ["get", name, property] => self.controls.get(name)?.get(property).map(answer),
            ["set", name, property, value] => self.controls.get(name)?.set(property, value).map(answer),
            ["call", name, method, ref words @ ..] => self.controls.get(name)?.method(method, words).map(answer),
            [verb, name, ref words @ ..] => calls::common_method(self.controls.get(name)?, verb, words).map(answer),
            _ => None,
        }
    }

    fn line(&mut self, line: &[u8], out: &mut impl Write) -> std::io::Result<()> {
        if line.first() == Some(&b'#') || line.iter().all(|byte| *byte == b' ') {
            return Ok(());
        }
        let is_plain = line.len() <= 140_000 && line.iter().all(|byte| (0x20..0x7f).contains(byte));
        let text = String::from_utf8_lossy(line);
        let words: Vec<&str> = text.split(' ').filter(|word| !word.is_empty()).collect();
        if let Some(answer) = is_plain.then(|| self.words(&words)).flatten() {
            self.typed += 1;
            return writeln!(out, "{answer}");
        }
        self.by_text += 1;
        eprintln!("text: {}", text.chars().take(100).collect::<String>());
        out.write_all(self.till.carry_out(line).expect("an answer").as_bytes())
    }
}

fn main() -> Result<(), Box<dyn std::error::Error>> {
    let given: Vec<String> = std::env::args().skip(1).collect();
    let [profile, file] = given.as_slice() else { return Err("usage: run PROFILE|- FILE|- < SCRIPT".into()) };
    let profile = if profile == "-" { BUILT_PROFILE.to_string() } else { std::fs::read_to_string(profile)? };
    let till = Till::open(&profile, if file == "-" { Totals::Memory } else { Totals::existing(file) })?;
    let mut script = Vec::new();
    std::io::stdin().read_to_end(&mut script)?;
    let mut out = std::io::BufWriter::new(std::io::stdout());
    let mut run = Run { till: &till, controls: HashMap::new(), typed: 0, by_text: 0 };
    for line in script.split_inclusive(|byte| *byte == b'\n') {
        let line = match line.strip_suffix(b"\n") {
            Some(ended) => ended.strip_suffix(b"\r").unwrap_or(ended),
            None => line,
        };
        run.line(line, &mut out)?;
    }
    out.flush()?;
    eprintln!("{} typed, {} by text", run.typed, run.by_text);
    Ok(())
}
