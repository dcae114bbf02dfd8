//! The same script of Hard Totals over the same disk in memory, in plain Rust with nothing proved: what the console's
//! speed is compared with.
use std::collections::HashMap;
use std::io::{self, Read, Write};

/// A disk in memory: a write saves what it replaces and stamps each place that it touches, and a sync leaves no place
/// with the present stamp.
struct Disk {
    bytes: Vec<u8>,
    saved: Vec<u8>,
    stamps: Vec<u32>,
    stamp: u32,
}

impl Disk {
    fn new(size: usize) -> Disk {
        Disk { bytes: vec![0; size], saved: vec![0; size], stamps: vec![0; size], stamp: 1 }
    }

    fn write(&mut self, at: usize, new: &[u8]) {
        let range = at..at + new.len();
        let bytes = &mut self.bytes[range.clone()];
        let saved = &mut self.saved[range.clone()];
        let stamps = &mut self.stamps[range];
        if stamps.contains(&self.stamp) {
            for ((saved, byte), stamp) in saved.iter_mut().zip(bytes.iter()).zip(stamps.iter()) {
                if *stamp != self.stamp {
                    *saved = *byte;
                }
            }
        } else {
            saved.copy_from_slice(bytes);
        }
        stamps.fill(self.stamp);
        bytes.copy_from_slice(new);
    }

    fn sync(&mut self) {
        self.stamp = self.stamp.checked_add(1).unwrap_or_else(|| {
            self.stamps.fill(0);
            1
        });
    }
}

/// Layout 1 (docs/reference/totals-file.md).
const SIZE: usize = 327_680;
const SLOTS: [usize; 2] = [0, 32_768];
const LATER: [usize; 2] = [65_536, 196_608];
const BODY: usize = 13;
const LOG: usize = 16_384;
const OPEN: u8 = 0xA5;
const CLOSED: u8 = 0;

/// The images of a formatted disk.
struct Images {
    disk: Disk,
    slot: usize,
    sequence: u64,
}

impl Images {
    fn format(mut disk: Disk) -> Images {
        for at in [SLOTS[0], SLOTS[0] + LOG, SLOTS[1], SLOTS[1] + LOG, LATER[0], LATER[1]] {
            disk.write(at, &[CLOSED]);
        }
        disk.sync();
        let mut images = Images { disk, slot: 1, sequence: 0 };
        images.prepare(&[0, 0]);
        images.publish();
        images
    }

    /// Puts a body beside the current one.
    fn prepare(&mut self, body: &[u8]) {
        let at = SLOTS[1 - self.slot];
        if self.disk.bytes[at] == OPEN {
            self.disk.write(at, &[CLOSED]);
            self.disk.sync();
        }
        let mut head = [0; 12];
        head[..8].copy_from_slice(&(self.sequence + 1).to_be_bytes());
        head[8..].copy_from_slice(&(body.len() as u32).to_be_bytes());
        self.disk.write(at + 1, &head);
        self.disk.write(at + BODY, body);
        self.disk.write(at + LOG, &[CLOSED]);
        self.disk.sync();
    }

    /// Makes it the current one.
    fn publish(&mut self) {
        self.slot = 1 - self.slot;
        self.sequence += 1;
        self.disk.write(SLOTS[self.slot], &[OPEN]);
        self.disk.sync();
    }
}

struct File {
    handle: u64,
    name: Vec<u8>,
    bytes: Vec<u8>,
}

/// The files, and the disk that has them.
struct Totals {
    images: Images,
    files: Vec<File>,
    next_handle: u64,
}

/// A result code, and an extended code behind it.
struct Refusal(u32, Option<u32>);

const ILLEGAL: Refusal = Refusal(106, None);
const EXISTS: Refusal = Refusal(110, None);
const NO_ROOM: Refusal = Refusal(114, Some(201));

impl Totals {
    fn new() -> Totals {
        Totals { images: Images::format(Disk::new(SIZE)), files: Vec::new(), next_handle: 1 }
    }

    fn encode(&self) -> Vec<u8> {
        let size: usize = self.files.iter().map(|file| 5 + file.name.len() + file.bytes.len()).sum();
        let mut body = Vec::with_capacity(2 + size);
        body.extend_from_slice(&(self.files.len() as u16).to_be_bytes());
        for file in &self.files {
            body.push(file.name.len() as u8);
            body.extend_from_slice(&file.name);
            body.extend_from_slice(&(file.bytes.len() as u32).to_be_bytes());
            body.extend_from_slice(&file.bytes);
        }
        body
    }

    fn commit(&mut self) {
        let body = self.encode();
        self.images.prepare(&body);
        self.images.publish();
    }

    fn create(&mut self, name: Vec<u8>, size: usize) -> Result<u64, Refusal> {
        if !(1..=10).contains(&name.len()) || !name.iter().all(|byte| (0x20..=0x7F).contains(byte)) {
            return Err(ILLEGAL);
        }
        if self.files.iter().any(|file| file.name == name) {
            return Err(EXISTS);
        }
        let used: usize = self.files.iter().map(|file| file.bytes.len()).sum();
        if size > 8_192 - used || self.files.len() == 64 {
            return Err(NO_ROOM);
        }
        let handle = self.next_handle;
        self.next_handle += 1;
        self.files.push(File { handle, name, bytes: vec![0; size] });
        self.commit();
        Ok(handle)
    }

    fn write(&mut self, handle: u64, offset: usize, new: &[u8]) -> Result<(), Refusal> {
        let file = self.files.iter_mut().find(|file| file.handle == handle).ok_or(ILLEGAL)?;
        let end = offset.checked_add(new.len()).ok_or(ILLEGAL)?;
        file.bytes.get_mut(offset..end).ok_or(ILLEGAL)?.copy_from_slice(new);
        self.commit();
        Ok(())
    }

    fn read(&self, handle: u64, offset: usize, count: usize) -> Result<&[u8], Refusal> {
        let file = self.files.iter().find(|file| file.handle == handle).ok_or(ILLEGAL)?;
        let end = offset.checked_add(count).ok_or(ILLEGAL)?;
        file.bytes.get(offset..end).ok_or(ILLEGAL)
    }
}

#[derive(Clone, Copy, Default)]
struct Control {
    open: bool,
    enabled: bool,
}

struct Counter {
    controls: HashMap<Vec<u8>, Control>,
    totals: Totals,
}

fn decode(word: &str) -> Option<Vec<u8>> {
    if word == "-" {
        return Some(Vec::new());
    }
    let digit = |byte: u8| (byte as char).to_digit(16).map(|digit| digit as u8);
    let pairs = word.as_bytes().chunks(2);
    pairs.map(|pair| Some(digit(pair[0])? << 4 | digit(*pair.get(1)?)?)).collect()
}

fn print_bytes<W: Write>(bytes: &[u8], out: &mut W) -> io::Result<()> {
    const DIGITS: &[u8; 16] = b"0123456789abcdef";
    if bytes.is_empty() {
        return writeln!(out, "ok -");
    }
    out.write_all(b"ok ")?;
    for byte in bytes {
        out.write_all(&[DIGITS[usize::from(byte >> 4)], DIGITS[usize::from(byte & 15)]])?;
    }
    out.write_all(b"\n")
}

fn print_refusal<W: Write>(refusal: Refusal, out: &mut W) -> io::Result<()> {
    match refusal {
        Refusal(code, None) => writeln!(out, "err {code}"),
        Refusal(code, Some(extended)) => writeln!(out, "err {code} {extended}"),
    }
}

/// What a method of Hard Totals is called with.
enum Call {
    Create(Vec<u8>, usize),
    Write(u64, usize, Vec<u8>),
    Read(u64, usize, usize),
}

fn read_call<'a>(mut words: impl Iterator<Item = &'a str>) -> Option<Call> {
    let (method, first, second, third) = (words.next()?, words.next()?, words.next()?, words.next()?);
    if words.next().is_some() {
        return None;
    }
    match (method, third) {
        ("create", "true" | "false") => Some(Call::Create(decode(first)?, second.parse().ok()?)),
        ("write", _) => Some(Call::Write(first.parse().ok()?, second.parse().ok()?, decode(third)?)),
        ("read", _) => Some(Call::Read(first.parse().ok()?, second.parse().ok()?, third.parse().ok()?)),
        _ => None,
    }
}

impl Counter {
    fn call<W: Write>(&mut self, name: &[u8], call: Call, out: &mut W) -> io::Result<()> {
        match self.controls.get(name) {
            None => return writeln!(out, "bad control"),
            Some(Control { open: false, .. }) => return writeln!(out, "err 101"),
            Some(Control { enabled: false, .. }) => return writeln!(out, "err 105"),
            Some(_) => {}
        }
        match call {
            Call::Create(name, size) => match self.totals.create(name, size) {
                Ok(handle) => writeln!(out, "ok {handle}"),
                Err(refusal) => print_refusal(refusal, out),
            },
            Call::Write(handle, offset, bytes) => match self.totals.write(handle, offset, &bytes) {
                Ok(()) => writeln!(out, "ok"),
                Err(refusal) => print_refusal(refusal, out),
            },
            Call::Read(handle, offset, count) => match self.totals.read(handle, offset, count) {
                Ok(bytes) => print_bytes(bytes, out),
                Err(refusal) => print_refusal(refusal, out),
            },
        }
    }

    fn set_up<W: Write>(&mut self, name: &[u8], words: &[&str], out: &mut W) -> io::Result<()> {
        let control = self.controls.get_mut(name);
        match (words, control) {
            (["new", "HardTotals"], None) => {
                self.controls.insert(name.to_vec(), Control::default());
            }
            (["new", "HardTotals"], Some(_)) => return writeln!(out, "bad control"),
            (["open", "t1"], Some(control)) => control.open = true,
            (["set", "DeviceEnabled", "true"], Some(control)) => control.enabled = true,
            (["set", "DeviceEnabled", "false"], Some(control)) => control.enabled = false,
            (_, None) => return writeln!(out, "bad control"),
            _ => return writeln!(out, "bad line"),
        }
        writeln!(out, "ok")
    }

    fn carry_out<W: Write>(&mut self, line: &str, out: &mut W) -> io::Result<()> {
        let mut words = line.split(' ').filter(|word| !word.is_empty());
        let (Some(verb), Some(name)) = (words.next(), words.next()) else {
            return writeln!(out, "bad line");
        };
        if verb == "call" {
            return match read_call(words) {
                Some(call) => self.call(name.as_bytes(), call, out),
                None => writeln!(out, "bad line"),
            };
        }
        let words: Vec<&str> = std::iter::once(verb).chain(words).collect();
        self.set_up(name.as_bytes(), &words, out)
    }
}

fn main() -> io::Result<()> {
    let mut input = String::new();
    io::stdin().lock().read_to_string(&mut input)?;
    let mut out = io::BufWriter::new(io::stdout().lock());
    let mut counter = Counter { controls: HashMap::new(), totals: Totals::new() };
    for line in input.lines() {
        if !line.trim_matches(' ').is_empty() && !line.starts_with('#') {
            counter.carry_out(line, &mut out)?;
        }
    }
    out.flush()
}
