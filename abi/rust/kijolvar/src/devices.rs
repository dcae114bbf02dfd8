//! The devices' side of a till: work on output, and orders for hardware of your own.
use crate::error::Cause;
use crate::line::{bytes_of, code_of, value_of};
use crate::standard::{Category, ExtendedCode, ResultCode};

/// What [`Till::work`](crate::Till::work) did.
#[derive(Debug, Clone, Copy, PartialEq, Eq)]
#[non_exhaustive]
pub enum Work {
    /// There was nothing to do.
    Idle,
    /// The request with this OutputID was done.
    Done {
        /// The request's OutputID.
        output_id: u64,
    },
    /// The first request failed, and is still the first.
    Failed {
        /// Why it failed.
        code: ResultCode,
        /// The extended code, if the result code is E_EXTENDED.
        extended: Option<ExtendedCode>,
    },
}

impl Work {
    pub(crate) fn read(text: &str) -> Result<Work, Cause> {
        let bad = || Cause::BadAnswer(text.to_string());
        if text == "idle" {
            return Ok(Work::Idle);
        }
        if let Some(number) = text.strip_prefix("done ") {
            return number.parse().map(|output_id| Work::Done { output_id }).map_err(|_| bad());
        }
        match text.strip_prefix("failed ").map(|numbers| code_of(numbers, Some(Category::PosPrinter))) {
            Some(Some(Cause::Code(code))) => Ok(Work::Failed { code, extended: None }),
            Some(Some(Cause::Extended(extended))) => {
                Ok(Work::Failed { code: ResultCode::Extended, extended: Some(extended) })
            }
            Some(_) => Err(bad()),
            None => Err(value_of(text, None).err().unwrap_or_else(bad)),
        }
    }
}

/// An order for hardware of your own ([`Till::host`](crate::Till::host), [`Driver`](crate::Driver)).
#[derive(Debug, Clone, PartialEq, Eq)]
#[non_exhaustive]
#[allow(missing_docs)]
pub enum Order {
    /// The drawer opens.
    OpenDrawer { device: String },
    /// The display shows the text from this row and column on, counted from 0; the column may be one right of the last.
    /// The attribute is the number of a [`DisplayAttribute`](crate::standard::DisplayAttribute).
    DisplayTextAt { device: String, row: u32, column: u32, text: Vec<u8>, attribute: u32 },
    /// The display is blank.
    ClearText { device: String },
    /// The display moves what it shows by so many rows or columns. The direction is the number of a
    /// [`ScrollDirection`](crate::standard::ScrollDirection).
    ScrollText { device: String, direction: u32, units: u32 },
    /// The printer prints the data, with its escape sequences (docs/reference/printer.md).
    Print { device: String, data: Vec<u8> },
    /// The printer cuts so much of the paper, 0 to 100 percent.
    CutPaper { device: String, percentage: u32 },
}

impl Order {
    pub(crate) fn read(line: &str) -> Option<Order> {
        let words: Vec<&str> = line.split(' ').collect();
        let device = words.first()?.to_string();
        Some(match words[1..] {
            ["openDrawer"] => Order::OpenDrawer { device },
            ["clearText"] => Order::ClearText { device },
            ["displayTextAt", row, column, text, attribute] => {
                let (row, column, attribute) = (row.parse().ok()?, column.parse().ok()?, attribute.parse().ok()?);
                Order::DisplayTextAt { device, row, column, text: bytes_of(text)?, attribute }
            }
            ["scrollText", direction, units] => {
                Order::ScrollText { device, direction: direction.parse().ok()?, units: units.parse().ok()? }
            }
            ["print", data] => Order::Print { device, data: bytes_of(data)? },
            ["cutPaper", percentage] => Order::CutPaper { device, percentage: percentage.parse().ok()? },
            _ => return None,
        })
    }
}
