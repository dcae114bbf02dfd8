//! What simulated devices are physically.
use crate::line::bytes_of;

/// What a line display shows.
#[derive(Debug, Clone, PartialEq, Eq)]
#[non_exhaustive]
pub struct DisplayView {
    /// All characters, row by row.
    pub characters: Vec<u8>,
    /// The attribute of each, in the same order: the number of a
    /// [`DisplayAttribute`](crate::standard::DisplayAttribute).
    pub attributes: Vec<u8>,
}

/// How a line of a receipt is aligned.
#[derive(Debug, Clone, Copy, PartialEq, Eq)]
#[allow(missing_docs)]
pub enum Alignment {
    Left,
    Centre,
    Right,
}

/// Characters of a receipt, and whether each is bold.
#[derive(Debug, Clone, PartialEq, Eq, Default)]
#[non_exhaustive]
pub struct PrintedText {
    /// The characters.
    pub characters: Vec<u8>,
    /// Whether each of them is bold.
    pub is_bold: Vec<bool>,
}

/// What a printer has printed.
#[derive(Debug, Clone, PartialEq, Eq)]
#[non_exhaustive]
pub enum Printed {
    /// A line.
    Line(Alignment, PrintedText),
    /// A cut of so many percent.
    Cut(u32),
}

/// What a receipt printer is physically.
#[derive(Debug, Clone, PartialEq, Eq)]
#[non_exhaustive]
pub struct PrinterView {
    /// Whether its cover is open.
    pub is_cover_open: bool,
    /// How many lines of paper are left.
    pub lines: u64,
    /// The line buffer: what is printed once its line ends.
    pub buffer: PrintedText,
    /// What was printed, the oldest first.
    pub items: Vec<Printed>,
}

/// A drawer is open or closed.
pub(crate) fn is_open(text: &str) -> Option<bool> {
    match text {
        "open" => Some(true),
        "closed" => Some(false),
        _ => None,
    }
}

impl DisplayView {
    pub(crate) fn read(text: &str) -> Option<DisplayView> {
        let (characters, attributes) = text.split_once(' ')?;
        let digit = |digit: char| digit.to_digit(10).map(|number| number as u8);
        Some(DisplayView {
            characters: bytes_of(characters)?,
            attributes: attributes.chars().map(digit).collect::<Option<_>>()?,
        })
    }
}

impl PrintedText {
    fn read(text: &str) -> Option<PrintedText> {
        let (characters, bold) = text.split_once(':')?;
        let is_bold = bold.bytes().filter(|digit| *digit != b'-').map(|digit| digit == b'1').collect();
        Some(PrintedText { characters: bytes_of(characters)?, is_bold })
    }
}

impl Printed {
    fn read(text: &str) -> Option<Printed> {
        let (kind, rest) = text.split_once(':')?;
        let alignment = match kind {
            "x" => return rest.parse().ok().map(Printed::Cut),
            "l" => Alignment::Left,
            "c" => Alignment::Centre,
            "r" => Alignment::Right,
            _ => return None,
        };
        PrintedText::read(rest).map(|text| Printed::Line(alignment, text))
    }
}

impl PrinterView {
    pub(crate) fn read(text: &str) -> Option<PrinterView> {
        let mut words = text.split(' ');
        Some(PrinterView {
            is_cover_open: is_open(words.next()?)?,
            lines: words.next()?.parse().ok()?,
            buffer: PrintedText::read(words.next()?)?,
            items: words.map(Printed::read).collect::<Option<_>>()?,
        })
    }
}
