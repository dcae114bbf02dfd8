//! The same work as that of bench/printer.rt.in, in one pass over each request's bytes, and with a VecDeque of
//! requests.
use std::collections::VecDeque;
use std::hint::black_box;
use std::time::Instant;

const REQUESTS: u64 = 20_000;
const QUEUED: u64 = 100_000;
const CHARS: usize = 42;
const PAPER: u32 = 100_000;
const NEAR: u32 = 4_096;

#[derive(Clone, Copy)]
enum Alignment {
    Left,
    Center,
    Right,
}

#[derive(Clone, Copy)]
struct Character {
    byte: u8,
    is_bold: bool,
}

#[derive(Clone, Copy)]
enum Mark {
    Line(Alignment, usize),
    Cut(u8),
}

struct Printer {
    characters: Vec<Character>,
    marks: Vec<Mark>,
    start: usize,
    left: u32,
}

enum Stop {
    Illegal,
    PaperEnd,
}

/// What an escape sequence does.
enum Command {
    Nothing,
    Bold,
    Align(Alignment),
    Normal,
    Cut(u8),
    Feed(u32),
    Illegal,
}

fn number(digits: &[u8], none: u32) -> u32 {
    if digits.is_empty() {
        return none;
    }
    digits.iter().fold(0u32, |n, d| n.saturating_mul(10).saturating_add(u32::from(d - b'0')))
}

fn command(body: &[u8]) -> Command {
    match body {
        b"bC" => Command::Bold,
        b"cA" => Command::Align(Alignment::Center),
        b"rA" => Command::Align(Alignment::Right),
        b"N" => Command::Normal,
        _ => {
            let count = body.iter().take_while(|b| b.is_ascii_digit()).count();
            let (digits, letters) = body.split_at(count);
            match letters {
                b"P" | b"fP" => match number(digits, 100) {
                    n @ 0..=100 => Command::Cut(n as u8),
                    _ => Command::Illegal,
                },
                b"lF" => match number(digits, 1) {
                    n @ 0..=255 => Command::Feed(n),
                    _ => Command::Illegal,
                },
                _ => Command::Nothing,
            }
        }
    }
}

impl Printer {
    fn new() -> Self {
        Printer { characters: Vec::new(), marks: Vec::new(), start: 0, left: PAPER }
    }

    fn end_line(&mut self, alignment: Alignment, used: &mut u32) -> Result<(), Stop> {
        if *used >= self.left {
            return Err(Stop::PaperEnd);
        }
        self.marks.push(Mark::Line(alignment, self.characters.len() - self.start));
        self.start = self.characters.len();
        *used += 1;
        Ok(())
    }

    fn lay(&mut self, text: &[u8], used: &mut u32) -> Result<(), Stop> {
        let (mut is_bold, mut alignment) = (false, Alignment::Left);
        let mut at = 0;
        while at < text.len() {
            let byte = text[at];
            at += 1;
            match byte {
                27 if text.get(at) == Some(&b'|') => {
                    at += 1;
                    let inner = text[at..]
                        .iter()
                        .take_while(|b| matches!(b, 32..=126) && !b.is_ascii_uppercase())
                        .count();
                    if !matches!(text.get(at + inner), Some(b) if b.is_ascii_uppercase()) {
                        continue;
                    }
                    let body = &text[at..=at + inner];
                    at += inner + 1;
                    match command(body) {
                        Command::Nothing => {}
                        Command::Bold => is_bold = true,
                        Command::Align(to) => alignment = to,
                        Command::Normal => (is_bold, alignment) = (false, Alignment::Left),
                        Command::Cut(0) => {}
                        Command::Cut(n) => {
                            if self.characters.len() > self.start {
                                self.end_line(alignment, used)?;
                            }
                            self.marks.push(Mark::Cut(n));
                        }
                        Command::Feed(n) => {
                            for _ in 0..n {
                                self.end_line(alignment, used)?;
                            }
                        }
                        Command::Illegal => return Err(Stop::Illegal),
                    }
                }
                27 => {}
                10 => self.end_line(alignment, used)?,
                13 if text.get(at) == Some(&10) => {}
                13 => {
                    if self.characters.len() > self.start {
                        self.end_line(alignment, used)?;
                    }
                }
                32..=126 => {
                    if self.characters.len() - self.start == CHARS {
                        self.end_line(alignment, used)?;
                    }
                    self.characters.push(Character { byte, is_bold });
                }
                _ => return Err(Stop::Illegal),
            }
        }
        Ok(())
    }

    /// Whether the text is one, there is paper for it, and it is printed.
    fn print(&mut self, text: &[u8]) -> bool {
        if text.len() > 4096 || self.left == 0 {
            return false;
        }
        let (characters, marks, start, mut used) = (self.characters.len(), self.marks.len(), self.start, 0);
        if self.lay(text, &mut used).is_err() {
            self.characters.truncate(characters);
            self.marks.truncate(marks);
            self.start = start;
            return false;
        }
        self.left -= used;
        true
    }
}

/// A text of 4,096 bytes: lines with bold, centred and right parts, carriage returns, and cuts.
fn text() -> Vec<u8> {
    let piece: &[u8] = b"\x1b|cA\x1b|bCKIJOLVAR\x1b|N\r\n2 x COFFEE, LARGE\x1b|rA  7.80\n\
        \x1b|NTOTAL   7.80\r\n\x1b|2lF\x1b|50P";
    piece.iter().copied().cycle().take(4096).collect()
}

fn print_all(text: &[u8]) {
    let mut printer = Printer::new();
    let start = Instant::now();
    let mut count = 0u64;
    for _ in 0..REQUESTS {
        if printer.left <= NEAR {
            printer.left = PAPER;
        }
        count += u64::from(printer.print(black_box(text)));
    }
    let spent = start.elapsed().as_micros();
    let bold = printer.characters.iter().filter(|c| c.is_bold && c.byte == b'K').count();
    let cuts = printer.marks.iter().filter(|m| matches!(m, Mark::Cut(50))).count();
    let lines = printer.marks.iter().filter(|m| matches!(m, Mark::Line(Alignment::Right, n) if *n > 0)).count();
    println!("requests: {count} in {spent} us, {} lines and cuts, {bold} {cuts} {lines}", printer.marks.len());
}

fn work_all() {
    let mut printer = Printer::new();
    let mut queue = VecDeque::new();
    let start = Instant::now();
    for id in 1..=QUEUED {
        queue.push_back((id, black_box(b"12.50\n").to_vec()));
    }
    let mut last = 0;
    while let Some((id, text)) = queue.front() {
        if printer.left <= NEAR {
            printer.left = PAPER;
        }
        if printer.print(text) {
            last = *id;
        }
        queue.pop_front();
    }
    println!("queued: {last} in {} us", start.elapsed().as_micros());
}

fn main() {
    let text = text();
    for _ in 0..3 {
        print_all(&text);
        work_all();
    }
}
