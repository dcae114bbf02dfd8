//! The same work as that of bench/display.rt.in, over a Vec of cells that scrolls by copy_within.
use std::hint::black_box;
use std::time::Instant;

const TEXTS: u64 = 100_000;
const ROWS: usize = 8;
const COLUMNS: usize = 80;

#[derive(Clone, Copy)]
enum Attribute {
    Normal,
    Blink,
    Reverse,
    BlinkReverse,
}

#[derive(Clone, Copy)]
struct Cell {
    character: u8,
    attribute: Attribute,
}

const BLANK: Cell = Cell { character: b' ', attribute: Attribute::Normal };

struct Display {
    cells: Vec<Cell>,
    row: usize,
    column: usize,
}

impl Display {
    fn next_row(&mut self) {
        self.column = 0;
        if self.row + 1 < ROWS {
            self.row += 1;
            return;
        }
        self.cells.copy_within(COLUMNS.., 0);
        self.cells[(ROWS - 1) * COLUMNS..].fill(BLANK);
    }

    /// Whether the text is one, and is shown.
    fn display_text(&mut self, text: &[u8], number: i128) -> bool {
        if text.len() > 4096 || !text.iter().all(|b| matches!(b, b'\n' | b'\r' | 32..=126)) {
            return false;
        }
        let attribute = match number {
            0 => Attribute::Normal,
            1 => Attribute::Blink,
            2 => Attribute::Reverse,
            3 => Attribute::BlinkReverse,
            _ => return false,
        };
        for &byte in text {
            match byte {
                b'\n' => self.next_row(),
                b'\r' => self.column = 0,
                character => {
                    if self.column == COLUMNS {
                        self.next_row();
                    }
                    self.cells[self.row * COLUMNS + self.column] = Cell { character, attribute };
                    self.column += 1;
                }
            }
        }
        true
    }
}

fn main() {
    let text = b"ABCDEFGHIJKLMNOPQRSTUVWXYZ0123456789.,:;";
    for _ in 0..3 {
        let mut display = Display { cells: vec![BLANK; ROWS * COLUMNS], row: 0, column: 0 };
        let start = Instant::now();
        let mut count = 0u64;
        for _ in 0..TEXTS {
            count += u64::from(display.display_text(black_box(text), black_box(2)));
            black_box(&mut display);
        }
        let spent = start.elapsed().as_micros();
        let last = display.cells[(ROWS - 1) * COLUMNS];
        black_box(last.attribute);
        println!("texts: {count} in {spent} us, {} {} {}", display.row, display.column, last.character);
    }
}
