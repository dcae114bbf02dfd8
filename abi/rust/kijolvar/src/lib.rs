//! A till's devices, as UnifiedPOS has them: cash drawer, scanner, line display, receipt printer and Hard Totals.
//!
//! A [`Till`] has the devices of a profile. An application uses a device through a control: it is opened on the device,
//! claimed if the device is an exclusive-use one (scanners, displays and printers), and enabled.
//! [`CashDrawer::enabled`] and its like do what is needed.
//!
//! ```
//! use kijolvar::standard::{DisplayAttribute, PrinterStation, ScanDataType};
//! use kijolvar::{Event, Till, Totals, BUILT_PROFILE};
//!
//! let till = Till::open(BUILT_PROFILE, Totals::Memory)?;
//! let scanner = till.scanner("s1")?.enabled()?;
//! let display = till.line_display("p1")?.enabled()?;
//! let printer = till.pos_printer("r1")?.enabled()?;
//!
//! scanner.set_data_event_enabled(true)?;
//! till.input_scan("s1", ScanDataType::Ean13.into(), "4006381", "4006381")?;
//! for event in scanner.events() {
//!     assert_eq!(event?, Event::Data);
//!     assert_eq!(scanner.scan_data()?, b"4006381");
//! }
//! display.display_text("4.50", DisplayAttribute::Normal)?;
//! printer.print_normal(PrinterStation::Receipt, "Bread 4.50\n")?;
//! # Ok::<(), kijolvar::Error>(())
//! ```
//!
//! # Errors
//!
//! Each call returns a [`Result`] with an [`Error`], which names the call, and has the result code and the extended
//! code of the standard if the control refused it, and often the reason. A call that fails changed nothing, unless its
//! [`Cause`] says otherwise. Any call may fail for [`Cause::BadArgument`] (as a device's name with a space),
//! [`Cause::NoMemory`], [`Cause::NoAnswer`], [`Cause::DiskFailed`] or [`Cause::BadAnswer`], and for [`Cause::InCall`]
//! if a driver makes it. Its documentation lists the others. Of a call that is refused with E_OFFLINE the error says,
//! too, why the device's port isn't open ([`Error::port_error`]).
//!
//! ```
//! use kijolvar::standard::{ExtendedCode, PrinterStation, ResultCode};
//! # use kijolvar::{Till, Totals, BUILT_PROFILE};
//! # let till = Till::open(BUILT_PROFILE, Totals::Memory)?;
//! let printer = till.pos_printer("r1")?.enabled()?;
//! till.input_cover("r1", true)?;
//! let error = printer.print_normal(PrinterStation::Receipt, "Bread\n").unwrap_err();
//! assert_eq!((error.call(), error.code()), ("printNormal", Some(ResultCode::Extended)));
//! assert_eq!(error.extended(), Some(ExtendedCode::PrinterCoverOpen));
//! assert_eq!(error.to_string(), "printNormal: E_EXTENDED, EPTR_COVER_OPEN: The cover is open.");
//! # Ok::<(), kijolvar::Error>(())
//! ```
//!
//! # Hardware
//!
//! All devices are simulated at first. [`Till::drive`] has a driver carry out the orders of one: [`EscPosPrinter`]
//! and its drawer, [`SerialDisplay`], [`WedgeScanner`], or a [`Driver`] of your own. [`Till::run_devices`] is their
//! loop.
//!
//! # Threads
//!
//! A till may be moved to another thread, and is used by one thread at a time. An [`Actor`] has a till for several
//! threads, of which one serves the drivers by [`Actor::run_devices`]. A call takes up to 128 KiB of the thread's
//! stack. A profile is read on a thread of its own, which has as much as any profile takes, and a TCP port is opened by
//! one.
//!
//! # Later versions
//!
//! What may have more variants or fields in a later version is `#[non_exhaustive]`: match it with a `_`. Exhaustive is
//! what the standard fixes, as [`ErrorReply`](standard::ErrorReply). Settings and a [`Scan`] are made of their
//! defaults: `EscPosSettings { timeout, ..EscPosSettings::default() }`.

mod actor;
mod control;
#[rustfmt::skip]
mod controls;
mod devices;
mod drivers;
mod drives;
mod error;
mod event;
mod line;
mod links;
mod ports;
#[rustfmt::skip]
mod property;
mod questions;
mod raw;
#[rustfmt::skip]
mod reasons;
mod stack;
#[rustfmt::skip]
pub mod standard;
mod till;
mod totals_file;
mod transaction;
mod views;
mod wire;

pub use actor::Actor;
pub use control::{Control, Key};
pub use controls::{CashDrawer, HardTotals, LineDisplay, PosPrinter, Scanner};
pub use devices::{Order, Work};
pub use drivers::{
    Cutter, DisplaySettings, Driver, DriverTill, EscPosDrawer, EscPosPrinter, EscPosSettings, OrderEnd, Protocol, Scan,
    SerialDisplay, WedgeScanner,
};
pub use drives::DriverState;
pub use error::{Cause, Error};
pub use event::{ErrorEvent, Event, Events, StatusUpdate};
pub use ports::{Flow, Parity, Port, SerialSettings};
pub use property::{Property, PropertyType, Value};
pub use questions::{backup, check, devices, files, migrate, ProfileDevice, ProfileMistake, TotalsContents};
pub use till::{Till, BUILT_PROFILE};
pub use totals_file::Totals;
pub use views::{Alignment, DisplayView, Printed, PrintedText, PrinterView};
pub use wire::{Asked, PrinterReply, WireSettings};
