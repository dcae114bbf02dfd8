//! The same script over the same state, in plain Rust with nothing proved: what the console's speed is compared with.
use std::collections::{HashMap, VecDeque};
use std::io::{self, Read, Write};

struct Control {
    open: bool,
    enabled: bool,
    events: VecDeque<u32>,
}

struct Counter {
    numbers: HashMap<Vec<u8>, usize>,
    controls: Vec<Control>,
    is_open: bool,
}

impl Counter {
    fn moved(&mut self, is_open: bool) {
        if self.is_open != is_open {
            self.is_open = is_open;
            for control in &mut self.controls {
                if control.open && control.enabled {
                    control.events.push_back(is_open as u32);
                }
            }
        }
    }

    fn control(&mut self, name: &[u8]) -> Option<&mut Control> {
        let number = *self.numbers.get(name)?;
        self.controls.get_mut(number)
    }

    fn carry_out<W: Write>(&mut self, line: &str, out: &mut W) -> io::Result<()> {
        let mut words = line.split(' ').filter(|word| !word.is_empty());
        let (Some(verb), Some(name)) = (words.next(), words.next()) else {
            return writeln!(out, "bad line");
        };
        let name = name.as_bytes();
        match (verb, words.next(), words.next(), words.next()) {
            ("new", Some("CashDrawer"), None, None) => {
                if self.numbers.contains_key(name) {
                    return writeln!(out, "bad control");
                }
                self.numbers.insert(name.to_vec(), self.controls.len());
                self.controls.push(Control { open: false, enabled: false, events: VecDeque::new() });
                writeln!(out, "ok")
            }
            ("open", Some("d1"), None, None) => match self.control(name) {
                Some(control) => {
                    control.open = true;
                    writeln!(out, "ok")
                }
                None => writeln!(out, "bad control"),
            },
            ("set", Some("DeviceEnabled"), Some(value), None) => match self.control(name) {
                Some(control) => {
                    control.enabled = value == "true";
                    writeln!(out, "ok")
                }
                None => writeln!(out, "bad control"),
            },
            ("get", Some("State"), None, None) => match self.control(name) {
                Some(control) => writeln!(out, "ok {}", if control.open { 2 } else { 1 }),
                None => writeln!(out, "bad control"),
            },
            ("call", Some("openDrawer"), None, None) => match self.control(name) {
                Some(control) if control.open && control.enabled => {
                    self.moved(true);
                    writeln!(out, "ok")
                }
                Some(_) => writeln!(out, "err 105"),
                None => writeln!(out, "bad control"),
            },
            ("input", Some(word), None, None) => {
                self.moved(word == "open");
                writeln!(out, "ok")
            }
            ("deliver", None, None, None) => match self.control(name) {
                Some(control) => match control.events.pop_front() {
                    Some(status) => writeln!(out, "event StatusUpdateEvent {status}"),
                    None => writeln!(out, "none"),
                },
                None => writeln!(out, "bad control"),
            },
            _ => writeln!(out, "bad line"),
        }
    }
}

fn main() -> io::Result<()> {
    let mut input = String::new();
    io::stdin().lock().read_to_string(&mut input)?;
    let mut out = io::BufWriter::new(io::stdout().lock());
    let mut counter = Counter { numbers: HashMap::new(), controls: Vec::new(), is_open: false };
    for line in input.lines() {
        if !line.trim_matches(' ').is_empty() && !line.starts_with('#') {
            counter.carry_out(line, &mut out)?;
        }
    }
    out.flush()
}
