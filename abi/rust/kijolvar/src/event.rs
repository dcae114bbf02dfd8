//! Events, and the replies to ErrorEvents.
use crate::error::{Cause, Error};
use crate::line::{code_of, value_of, Line};
use crate::standard::{
    Category, DrawerStatus, ErrorLocus, ErrorReply, ExtendedCode, PowerStatus, PrinterStatus, ResultCode,
};
use crate::till::Till;
use std::fmt;

/// An event.
#[derive(Debug, Clone, Copy, PartialEq, Eq)]
#[non_exhaustive]
pub enum Event {
    /// StatusUpdateEvent: the device has another status now.
    StatusUpdate(StatusUpdate),
    /// DataEvent: a bar code was read. ScanData, ScanDataLabel and ScanDataType have it, and DataEventEnabled is false
    /// now.
    Data,
    /// ErrorEvent: input or output failed. [`Control::reply_to`](crate::Control::reply_to) says what happens next.
    Error(ErrorEvent),
    /// OutputCompleteEvent: a request that was queued is printed.
    OutputComplete {
        /// The OutputID of the request.
        output_id: u64,
    },
}

/// The new status of a device, in a StatusUpdateEvent.
#[derive(Debug, Clone, Copy, PartialEq, Eq)]
#[non_exhaustive]
pub enum StatusUpdate {
    /// A cash drawer was opened or closed.
    Drawer(DrawerStatus),
    /// A printer's cover or paper changed.
    Printer(PrinterStatus),
    /// The device was switched on or off.
    Power(PowerStatus),
    /// A status that this version doesn't know.
    Other(u64),
}

impl StatusUpdate {
    /// Returns the status of a control of this category by its number.
    fn from_number(category: Category, number: u64) -> StatusUpdate {
        let drawer = |number| DrawerStatus::from_number(number).map(StatusUpdate::Drawer);
        let printer = |number| PrinterStatus::from_number(number).map(StatusUpdate::Printer);
        let own = match category {
            Category::CashDrawer => drawer(number),
            Category::PosPrinter => printer(number),
            _ => None,
        };
        let power = || PowerStatus::from_number(number).map(StatusUpdate::Power);
        own.or_else(power).unwrap_or(StatusUpdate::Other(number))
    }

    /// Returns the status's number in the standard.
    pub fn number(self) -> u64 {
        match self {
            StatusUpdate::Drawer(status) => status.number().into(),
            StatusUpdate::Printer(status) => status.number().into(),
            StatusUpdate::Power(status) => status.number().into(),
            StatusUpdate::Other(number) => number,
        }
    }
}

/// What an ErrorEvent says.
#[derive(Debug, Clone, Copy, PartialEq, Eq)]
#[non_exhaustive]
pub struct ErrorEvent {
    /// Why input or output failed.
    pub code: ResultCode,
    /// The extended code, if the result code is E_EXTENDED.
    pub extended: Option<ExtendedCode>,
    /// Where the error is.
    pub locus: ErrorLocus,
}

impl Event {
    /// Delivers the next event of the control with this name, with the reply if it is an ErrorEvent.
    pub(crate) fn deliver(
        till: &Till,
        name: &str,
        category: Category,
        reply: Option<ErrorReply>,
    ) -> Result<Option<Event>, Error> {
        let line = Line::new("deliver").name(name);
        let text =
            till.answer("deliver", &reply.map_or(line, |reply| Line::new("deliver").name(name).word(reply.word())))?;
        if text == "none" {
            return Ok(None);
        }
        let failed = |cause| Error::new("deliver", cause);
        match text.strip_prefix("event ") {
            Some(event) => Event::read(event, category).map(Some).ok_or_else(|| failed(Cause::BadAnswer(text))),
            None => Err(failed(value_of(&text, None).err().unwrap_or(Cause::BadAnswer(text.clone())))),
        }
    }

    fn read(text: &str, category: Category) -> Option<Event> {
        let (word, numbers) = text.split_once(' ')?;
        Some(match word {
            "StatusUpdateEvent" => Event::StatusUpdate(StatusUpdate::from_number(category, numbers.parse().ok()?)),
            "DataEvent" => Event::Data,
            "OutputCompleteEvent" => Event::OutputComplete { output_id: numbers.parse().ok()? },
            "ErrorEvent" => {
                let (codes, locus) = numbers.rsplit_once(' ')?;
                let locus = ErrorLocus::from_number(locus.parse().ok()?)?;
                match code_of(codes, Some(category))? {
                    Cause::Extended(extended) => {
                        Event::Error(ErrorEvent { code: ResultCode::Extended, extended: Some(extended), locus })
                    }
                    Cause::Code(code) => Event::Error(ErrorEvent { code, extended: None, locus }),
                    _ => return None,
                }
            }
            _ => return None,
        })
    }
}

/// Delivers the next event, if there is one.
type Deliver<'till, T> = Box<dyn FnMut() -> Result<Option<T>, Error> + 'till>;

/// An iterator that delivers events until none is left. It ends after an error.
#[must_use = "an event is delivered when it is asked for"]
pub struct Events<'till, T> {
    next: Option<Deliver<'till, T>>,
}

impl<'till, T> Events<'till, T> {
    pub(crate) fn new(next: Deliver<'till, T>) -> Events<'till, T> {
        Events { next: Some(next) }
    }
}

impl<T> fmt::Debug for Events<'_, T> {
    fn fmt(&self, out: &mut fmt::Formatter<'_>) -> fmt::Result {
        out.debug_struct("Events").finish_non_exhaustive()
    }
}

impl<T> Iterator for Events<'_, T> {
    type Item = Result<T, Error>;

    fn next(&mut self) -> Option<Self::Item> {
        let found = (self.next.as_mut()?)();
        if found.is_err() {
            self.next = None;
        }
        found.transpose()
    }
}
