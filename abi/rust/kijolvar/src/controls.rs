//! The controls of the categories, with their methods and properties.
//! Written by abi/typed_rust.py: don't change it by hand.
use crate::control::{Control, Key};
#[cfg(doc)]
use crate::error::Cause;
use crate::error::Error;
use crate::line::GREATEST;
use crate::property::{Property, Value};
use crate::standard::{
    Category, DisplayAttribute, PowerNotify, PowerReporting, PowerState, PrinterStation, ScrollDirection, State,
};
#[cfg(doc)]
use crate::standard::{ExtendedCode, ResultCode};
use crate::till::Till;
use std::fmt;
use std::ops::Deref;
use std::time::Duration;

/// The milliseconds of a timeout, of which -1 is without end. One that is too long for a line is without end, too.
fn milliseconds(timeout: Option<Duration>) -> i64 {
    let time = timeout.and_then(|time| i64::try_from(time.as_millis()).ok());
    time.filter(|time| *time <= GREATEST).unwrap_or(-1)
}

impl Till {
    /// Makes a control of CashDrawer and opens it on a device. [`CashDrawer::enabled`] enables it.
    ///
    /// # Errors
    ///
    /// As [`Control::open`]; [`Cause::Full`], [`Cause::NoMemory`].
    pub fn cash_drawer(&self, device: &str) -> Result<CashDrawer<'_>, Error> {
        let control = CashDrawer::new(self)?;
        control.open(device)?;
        Ok(control)
    }

    /// Makes a control of Scanner and opens it on a device. [`Scanner::enabled`] enables it.
    ///
    /// # Errors
    ///
    /// As [`Control::open`]; [`Cause::Full`], [`Cause::NoMemory`].
    pub fn scanner(&self, device: &str) -> Result<Scanner<'_>, Error> {
        let control = Scanner::new(self)?;
        control.open(device)?;
        Ok(control)
    }

    /// Makes a control of LineDisplay and opens it on a device. [`LineDisplay::enabled`] enables it.
    ///
    /// # Errors
    ///
    /// As [`Control::open`]; [`Cause::Full`], [`Cause::NoMemory`].
    pub fn line_display(&self, device: &str) -> Result<LineDisplay<'_>, Error> {
        let control = LineDisplay::new(self)?;
        control.open(device)?;
        Ok(control)
    }

    /// Makes a control of POSPrinter and opens it on a device. [`PosPrinter::enabled`] enables it.
    ///
    /// # Errors
    ///
    /// As [`Control::open`]; [`Cause::Full`], [`Cause::NoMemory`].
    pub fn pos_printer(&self, device: &str) -> Result<PosPrinter<'_>, Error> {
        let control = PosPrinter::new(self)?;
        control.open(device)?;
        Ok(control)
    }

    /// Makes a control of HardTotals and opens it on a device. [`HardTotals::enabled`] enables it.
    ///
    /// # Errors
    ///
    /// As [`Control::open`]; [`Cause::Full`], [`Cause::NoMemory`].
    pub fn hard_totals(&self, device: &str) -> Result<HardTotals<'_>, Error> {
        let control = HardTotals::new(self)?;
        control.open(device)?;
        Ok(control)
    }
}

impl Control<'_> {
    /// open (Common Properties, Methods and Events): opens the control on a device, and sets its properties to their
    /// defaults.
    ///
    /// Flags are false, except CursorUpdate, which is true. Numbers are 0, and bytes are empty. You can open a closed
    /// control again.
    ///
    /// - `device`: the device's name in the profile. Range: 1 to 16 characters.
    ///
    /// # Errors
    ///
    /// - [`E_ILLEGAL`](ResultCode::Illegal): the control is open already.
    /// - [`E_NOEXIST`](ResultCode::NoExist): no device of the control's category has the name.
    /// - [`E_NOSERVICE`](ResultCode::NoService): no peripheral is attached to the device.
    /// - [`Cause::NoMemory`]: there was no memory.
    pub fn open(&self, device: &str) -> Result<(), Error> {
        let line = self.line("open").name(device);
        self.open_on(device, &line)
    }

    /// close (Common Properties, Methods and Events): closes the control: it releases the device, deletes its events
    /// and its output that waits, and disables it.
    ///
    /// A control of Hard Totals also gives up its claims of files, and its transaction is dropped.
    ///
    /// # Errors
    ///
    /// - [`E_CLOSED`](ResultCode::Closed): the control is closed.
    pub fn close(&self) -> Result<(), Error> {
        let line = self.line("close");
        self.close_by(&line)
    }

    /// claim (Common Properties, Methods and Events): claims the device, which keeps other controls from using it.
    ///
    /// A claim that the control has already stays as it is. The call never waits: if another control has the device, it
    /// fails at once.
    ///
    /// - `timeout`: how long the claim may take. `None` and [`Duration::MAX`] are without end.
    ///
    /// # Errors
    ///
    /// - [`E_CLOSED`](ResultCode::Closed): the control is closed.
    /// - [`E_ILLEGAL`](ResultCode::Illegal): the timeout is below -1.
    /// - [`E_TIMEOUT`](ResultCode::Timeout): another control has claimed the device, or a file of the totals.
    pub fn claim(&self, timeout: Option<Duration>) -> Result<(), Error> {
        let line = self.line("claim").number(milliseconds(timeout));
        self.ask("claim", &line)?.nothing()
    }

    /// release (Common Properties, Methods and Events): releases the device that the control has claimed.
    ///
    /// An exclusive-use device is disabled for the control, and the control's events and output that waits are deleted.
    /// A sharable device stays enabled.
    ///
    /// # Errors
    ///
    /// - [`E_CLOSED`](ResultCode::Closed): the control is closed.
    /// - [`E_ILLEGAL`](ResultCode::Illegal): the control hasn't claimed the device.
    pub fn release(&self) -> Result<(), Error> {
        let line = self.line("release");
        self.ask("release", &line)?.nothing()
    }

    /// State (Common Properties, Methods and Events): what the control is doing; it can be read while the control is
    /// closed, too.
    pub fn state(&self) -> Result<State, Error> {
        self.property(Property::State)?.constant(State::from_number)
    }

    /// Claimed (Common Properties, Methods and Events): whether the control has claimed its device.
    ///
    /// # Errors
    ///
    /// - [`E_CLOSED`](ResultCode::Closed): the control is closed.
    pub fn claimed(&self) -> Result<bool, Error> {
        self.property(Property::Claimed)?.truth()
    }

    /// DeviceEnabled (Common Properties, Methods and Events): whether the device works for this control.
    ///
    /// An exclusive-use device has to be claimed first. AutoDisable and a release set it to false. Enabling Hard Totals
    /// recovers their files, if they are off.
    ///
    /// # Errors
    ///
    /// - [`E_CLOSED`](ResultCode::Closed): the control is closed.
    pub fn device_enabled(&self) -> Result<bool, Error> {
        self.property(Property::DeviceEnabled)?.truth()
    }

    /// Sets DeviceEnabled (Common Properties, Methods and Events): whether the device works for this control.
    ///
    /// # Errors
    ///
    /// - [`E_CLOSED`](ResultCode::Closed): the control is closed.
    /// - [`E_CLAIMED`](ResultCode::Claimed): another control has claimed the device, which is an exclusive-use device.
    /// - [`E_NOTCLAIMED`](ResultCode::NotClaimed): the control hasn't claimed the device, which is an exclusive-use
    ///   device.
    /// - [`E_NOHARDWARE`](ResultCode::NoHardware): the disk of the totals isn't formatted.
    /// - [`E_FAILURE`](ResultCode::Failure): the totals can't be recovered.
    /// - [`Cause::DiskFailed`]: the disk failed, and the change may be in the file or not.
    pub fn set_device_enabled(&self, value: bool) -> Result<(), Error> {
        self.set(Property::DeviceEnabled, Value::Truth(value))
    }

    /// FreezeEvents (Common Properties, Methods and Events): whether events are held back: none is delivered while this
    /// is true.
    ///
    /// # Errors
    ///
    /// - [`E_CLOSED`](ResultCode::Closed): the control is closed.
    pub fn freeze_events(&self) -> Result<bool, Error> {
        self.property(Property::FreezeEvents)?.truth()
    }

    /// Sets FreezeEvents (Common Properties, Methods and Events): whether events are held back: none is delivered while
    /// this is true.
    ///
    /// # Errors
    ///
    /// - [`E_CLOSED`](ResultCode::Closed): the control is closed.
    pub fn set_freeze_events(&self, value: bool) -> Result<(), Error> {
        self.set(Property::FreezeEvents, Value::Truth(value))
    }

    /// CapPowerReporting (Common Properties, Methods and Events): whether the device reports that it is on or off.
    ///
    /// # Errors
    ///
    /// - [`E_CLOSED`](ResultCode::Closed): the control is closed.
    pub fn cap_power_reporting(&self) -> Result<PowerReporting, Error> {
        self.property(Property::CapPowerReporting)?.constant(PowerReporting::from_number)
    }

    /// PowerNotify (Common Properties, Methods and Events): whether the control gets StatusUpdateEvents of the device's
    /// power.
    ///
    /// Set it before you enable the device.
    ///
    /// # Errors
    ///
    /// - [`E_CLOSED`](ResultCode::Closed): the control is closed.
    pub fn power_notify(&self) -> Result<PowerNotify, Error> {
        self.property(Property::PowerNotify)?.constant(PowerNotify::from_number)
    }

    /// Sets PowerNotify (Common Properties, Methods and Events): whether the control gets StatusUpdateEvents of the
    /// device's power.
    ///
    /// # Errors
    ///
    /// - [`E_CLOSED`](ResultCode::Closed): the control is closed.
    /// - [`E_ILLEGAL`](ResultCode::Illegal): the value is out of its range, would change while the device is enabled,
    ///   or is PN_ENABLED and the device doesn't report its power.
    pub fn set_power_notify(&self, value: PowerNotify) -> Result<(), Error> {
        self.set(Property::PowerNotify, Value::Number(value.number().into()))
    }

    /// PowerState (Common Properties, Methods and Events): whether the device is on, if the control is enabled and
    /// PowerNotify is PN_ENABLED.
    ///
    /// # Errors
    ///
    /// - [`E_CLOSED`](ResultCode::Closed): the control is closed.
    pub fn power_state(&self) -> Result<PowerState, Error> {
        self.property(Property::PowerState)?.constant(PowerState::from_number)
    }
}

/// A cash drawer.
///
/// Several controls may share a drawer. A claim only keeps the others from opening it.
///
/// Chapter Cash Drawer of the standard.
///
/// ```
/// # use kijolvar::{Till, Totals, BUILT_PROFILE};
/// # let till = Till::open(BUILT_PROFILE, Totals::Memory)?;
/// let drawer = till.cash_drawer("d1")?.enabled()?;
/// assert!(drawer.device_enabled()?);
/// # Ok::<(), kijolvar::Error>(())
/// ```
pub struct CashDrawer<'till> {
    control: Control<'till>,
}

impl<'till> CashDrawer<'till> {
    /// Makes a control, which is closed.
    ///
    /// # Errors
    ///
    /// [`Cause::Full`], [`Cause::NoMemory`].
    pub fn new(till: &'till Till) -> Result<CashDrawer<'till>, Error> {
        Ok(CashDrawer { control: Control::new(till, Category::CashDrawer, None)? })
    }

    /// Makes a control, which is closed, with a name in lines of the text interface: 1 to 16 letters, digits or
    /// hyphens. Once it is dropped, you can make one of this category and name again.
    ///
    /// # Errors
    ///
    /// [`Cause::NameInUse`], [`Cause::Full`], [`Cause::NoMemory`], [`Cause::BadArgument`].
    pub fn named(till: &'till Till, name: &str) -> Result<CashDrawer<'till>, Error> {
        Ok(CashDrawer { control: Control::new(till, Category::CashDrawer, Some(name))? })
    }

    /// Finds a control by its key, which stays open when this is dropped.
    ///
    /// # Errors
    ///
    /// [`Cause::OtherTill`], [`Cause::Discarded`].
    pub fn of(till: &'till Till, key: &Key<CashDrawer<'static>>) -> Result<CashDrawer<'till>, Error> {
        Ok(CashDrawer { control: Control::of(till, Category::CashDrawer, key)? })
    }

    /// Keeps the control open, and returns its key. [`Key::discard`] closes it.
    pub fn into_key(self) -> Key<CashDrawer<'static>> {
        self.control.into_key()
    }

    /// Enables the control. The device isn't claimed.
    ///
    /// # Errors
    ///
    /// As [`Control::set_device_enabled`]; then the control is closed, unless it has a key.
    pub fn enabled(self) -> Result<CashDrawer<'till>, Error> {
        self.set_device_enabled(true)?;
        Ok(self)
    }

    /// openDrawer (Cash Drawer): opens the drawer; one that is open stays open.
    ///
    /// # Errors
    ///
    /// - [`E_CLOSED`](ResultCode::Closed): the control is closed.
    /// - [`E_CLAIMED`](ResultCode::Claimed): another control has claimed the device.
    /// - [`E_DISABLED`](ResultCode::Disabled): the control is disabled.
    /// - [`E_FAILURE`](ResultCode::Failure): the drawer, or the printer that it is on, can't answer.
    /// - [`E_OFFLINE`](ResultCode::Offline): the drawer is off.
    /// - [`Cause::NoMemory`]: there was no memory.
    pub fn open_drawer(&self) -> Result<(), Error> {
        let line = self.line("call").word("openDrawer");
        self.ask("openDrawer", &line)?.nothing()
    }

    /// CapStatus (Cash Drawer): whether the drawer reports if it is open: always true.
    ///
    /// # Errors
    ///
    /// - [`E_CLOSED`](ResultCode::Closed): the control is closed.
    pub fn cap_status(&self) -> Result<bool, Error> {
        self.property(Property::CapStatus)?.truth()
    }

    /// DrawerOpened (Cash Drawer): whether the drawer is open.
    ///
    /// # Errors
    ///
    /// - [`E_CLOSED`](ResultCode::Closed): the control is closed.
    /// - [`E_DISABLED`](ResultCode::Disabled): the control is disabled.
    pub fn drawer_opened(&self) -> Result<bool, Error> {
        self.property(Property::DrawerOpened)?.truth()
    }
}

impl<'till> Deref for CashDrawer<'till> {
    type Target = Control<'till>;

    fn deref(&self) -> &Control<'till> {
        &self.control
    }
}

impl fmt::Debug for CashDrawer<'_> {
    fn fmt(&self, out: &mut fmt::Formatter<'_>) -> fmt::Result {
        self.control.fmt(out)
    }
}

/// A scanner of bar codes.
///
/// An exclusive-use device: claim it before you enable it. What it reads comes as a DataEvent.
///
/// Chapter Scanner (Bar Code Reader) of the standard.
///
/// ```
/// # use kijolvar::{Till, Totals, BUILT_PROFILE};
/// # let till = Till::open(BUILT_PROFILE, Totals::Memory)?;
/// let scanner = till.scanner("s1")?.enabled()?;
/// assert!(scanner.device_enabled()?);
/// # Ok::<(), kijolvar::Error>(())
/// ```
pub struct Scanner<'till> {
    control: Control<'till>,
}

impl<'till> Scanner<'till> {
    /// Makes a control, which is closed.
    ///
    /// # Errors
    ///
    /// [`Cause::Full`], [`Cause::NoMemory`].
    pub fn new(till: &'till Till) -> Result<Scanner<'till>, Error> {
        Ok(Scanner { control: Control::new(till, Category::Scanner, None)? })
    }

    /// Makes a control, which is closed, with a name in lines of the text interface: 1 to 16 letters, digits or
    /// hyphens. Once it is dropped, you can make one of this category and name again.
    ///
    /// # Errors
    ///
    /// [`Cause::NameInUse`], [`Cause::Full`], [`Cause::NoMemory`], [`Cause::BadArgument`].
    pub fn named(till: &'till Till, name: &str) -> Result<Scanner<'till>, Error> {
        Ok(Scanner { control: Control::new(till, Category::Scanner, Some(name))? })
    }

    /// Finds a control by its key, which stays open when this is dropped.
    ///
    /// # Errors
    ///
    /// [`Cause::OtherTill`], [`Cause::Discarded`].
    pub fn of(till: &'till Till, key: &Key<Scanner<'static>>) -> Result<Scanner<'till>, Error> {
        Ok(Scanner { control: Control::of(till, Category::Scanner, key)? })
    }

    /// Keeps the control open, and returns its key. [`Key::discard`] closes it.
    pub fn into_key(self) -> Key<Scanner<'static>> {
        self.control.into_key()
    }

    /// Claims the device and enables the control.
    ///
    /// # Errors
    ///
    /// As [`Control::claim`] and [`Control::set_device_enabled`]; then the control is closed, unless it has a key.
    pub fn enabled(self) -> Result<Scanner<'till>, Error> {
        self.claim(Some(Duration::ZERO))?;
        self.set_device_enabled(true)?;
        Ok(self)
    }

    /// clearInput (Common Properties, Methods and Events; Scanner (Bar Code Reader)): deletes the control's DataEvents
    /// and ErrorEvents of input, and ends its error state of input.
    ///
    /// # Errors
    ///
    /// - [`E_CLOSED`](ResultCode::Closed): the control is closed.
    /// - [`E_CLAIMED`](ResultCode::Claimed): another control has claimed the device.
    /// - [`E_NOTCLAIMED`](ResultCode::NotClaimed): no control has claimed the device.
    pub fn clear_input(&self) -> Result<(), Error> {
        let line = self.line("call").word("clearInput");
        self.ask("clearInput", &line)?.nothing()
    }

    /// clearInputProperties (Common Properties, Methods and Events; Scanner (Bar Code Reader)): sets ScanData,
    /// ScanDataLabel and ScanDataType to their defaults.
    ///
    /// # Errors
    ///
    /// - [`E_CLOSED`](ResultCode::Closed): the control is closed.
    /// - [`E_CLAIMED`](ResultCode::Claimed): another control has claimed the device.
    /// - [`E_NOTCLAIMED`](ResultCode::NotClaimed): no control has claimed the device.
    pub fn clear_input_properties(&self) -> Result<(), Error> {
        let line = self.line("call").word("clearInputProperties");
        self.ask("clearInputProperties", &line)?.nothing()
    }

    /// DataEventEnabled (Common Properties, Methods and Events; Scanner (Bar Code Reader)): whether DataEvents and
    /// ErrorEvents of input are delivered.
    ///
    /// The delivery of a DataEvent sets it to false; set it to true again when you are ready for the next one.
    ///
    /// # Errors
    ///
    /// - [`E_CLOSED`](ResultCode::Closed): the control is closed.
    pub fn data_event_enabled(&self) -> Result<bool, Error> {
        self.property(Property::DataEventEnabled)?.truth()
    }

    /// Sets DataEventEnabled (Common Properties, Methods and Events; Scanner (Bar Code Reader)): whether DataEvents and
    /// ErrorEvents of input are delivered.
    ///
    /// # Errors
    ///
    /// - [`E_CLOSED`](ResultCode::Closed): the control is closed.
    pub fn set_data_event_enabled(&self, value: bool) -> Result<(), Error> {
        self.set(Property::DataEventEnabled, Value::Truth(value))
    }

    /// AutoDisable (Common Properties, Methods and Events; Scanner (Bar Code Reader)): whether the next scan disables
    /// the control.
    ///
    /// # Errors
    ///
    /// - [`E_CLOSED`](ResultCode::Closed): the control is closed.
    pub fn auto_disable(&self) -> Result<bool, Error> {
        self.property(Property::AutoDisable)?.truth()
    }

    /// Sets AutoDisable (Common Properties, Methods and Events; Scanner (Bar Code Reader)): whether the next scan
    /// disables the control.
    ///
    /// # Errors
    ///
    /// - [`E_CLOSED`](ResultCode::Closed): the control is closed.
    pub fn set_auto_disable(&self, value: bool) -> Result<(), Error> {
        self.set(Property::AutoDisable, Value::Truth(value))
    }

    /// DataCount (Common Properties, Methods and Events; Scanner (Bar Code Reader)): how many DataEvents wait.
    ///
    /// # Errors
    ///
    /// - [`E_CLOSED`](ResultCode::Closed): the control is closed.
    pub fn data_count(&self) -> Result<u64, Error> {
        self.property(Property::DataCount)?.number()
    }

    /// DecodeData (Scanner (Bar Code Reader)): whether a DataEvent sets ScanDataLabel and ScanDataType.
    ///
    /// # Errors
    ///
    /// - [`E_CLOSED`](ResultCode::Closed): the control is closed.
    pub fn decode_data(&self) -> Result<bool, Error> {
        self.property(Property::DecodeData)?.truth()
    }

    /// Sets DecodeData (Scanner (Bar Code Reader)): whether a DataEvent sets ScanDataLabel and ScanDataType.
    ///
    /// # Errors
    ///
    /// - [`E_CLOSED`](ResultCode::Closed): the control is closed.
    pub fn set_decode_data(&self, value: bool) -> Result<(), Error> {
        self.set(Property::DecodeData, Value::Truth(value))
    }

    /// ScanData (Scanner (Bar Code Reader)): all that was read, of the DataEvent that was delivered last.
    ///
    /// # Errors
    ///
    /// - [`E_CLOSED`](ResultCode::Closed): the control is closed.
    pub fn scan_data(&self) -> Result<Vec<u8>, Error> {
        self.property(Property::ScanData)?.bytes()
    }

    /// ScanDataLabel (Scanner (Bar Code Reader)): the label of the bar code, of the DataEvent that was delivered last.
    ///
    /// It is empty if DecodeData was false then.
    ///
    /// # Errors
    ///
    /// - [`E_CLOSED`](ResultCode::Closed): the control is closed.
    pub fn scan_data_label(&self) -> Result<Vec<u8>, Error> {
        self.property(Property::ScanDataLabel)?.bytes()
    }

    /// ScanDataType (Scanner (Bar Code Reader)): the type of the bar code, of the DataEvent that was delivered last.
    ///
    /// It is 0 if DecodeData was false then. Many types have names: SCAN_SDT_UPCA and the like.
    ///
    /// # Errors
    ///
    /// - [`E_CLOSED`](ResultCode::Closed): the control is closed.
    pub fn scan_data_type(&self) -> Result<u64, Error> {
        self.property(Property::ScanDataType)?.number()
    }
}

impl<'till> Deref for Scanner<'till> {
    type Target = Control<'till>;

    fn deref(&self) -> &Control<'till> {
        &self.control
    }
}

impl fmt::Debug for Scanner<'_> {
    fn fmt(&self, out: &mut fmt::Formatter<'_>) -> fmt::Result {
        self.control.fmt(out)
    }
}

/// A line display for the customer.
///
/// An exclusive-use device: claim it before you enable it. Each control has a cursor of its own.
///
/// Chapter Line Display of the standard.
///
/// ```
/// # use kijolvar::{Till, Totals, BUILT_PROFILE};
/// # let till = Till::open(BUILT_PROFILE, Totals::Memory)?;
/// let display = till.line_display("p1")?.enabled()?;
/// assert!(display.device_enabled()?);
/// # Ok::<(), kijolvar::Error>(())
/// ```
pub struct LineDisplay<'till> {
    control: Control<'till>,
}

impl<'till> LineDisplay<'till> {
    /// Makes a control, which is closed.
    ///
    /// # Errors
    ///
    /// [`Cause::Full`], [`Cause::NoMemory`].
    pub fn new(till: &'till Till) -> Result<LineDisplay<'till>, Error> {
        Ok(LineDisplay { control: Control::new(till, Category::LineDisplay, None)? })
    }

    /// Makes a control, which is closed, with a name in lines of the text interface: 1 to 16 letters, digits or
    /// hyphens. Once it is dropped, you can make one of this category and name again.
    ///
    /// # Errors
    ///
    /// [`Cause::NameInUse`], [`Cause::Full`], [`Cause::NoMemory`], [`Cause::BadArgument`].
    pub fn named(till: &'till Till, name: &str) -> Result<LineDisplay<'till>, Error> {
        Ok(LineDisplay { control: Control::new(till, Category::LineDisplay, Some(name))? })
    }

    /// Finds a control by its key, which stays open when this is dropped.
    ///
    /// # Errors
    ///
    /// [`Cause::OtherTill`], [`Cause::Discarded`].
    pub fn of(till: &'till Till, key: &Key<LineDisplay<'static>>) -> Result<LineDisplay<'till>, Error> {
        Ok(LineDisplay { control: Control::of(till, Category::LineDisplay, key)? })
    }

    /// Keeps the control open, and returns its key. [`Key::discard`] closes it.
    pub fn into_key(self) -> Key<LineDisplay<'static>> {
        self.control.into_key()
    }

    /// Claims the device and enables the control.
    ///
    /// # Errors
    ///
    /// As [`Control::claim`] and [`Control::set_device_enabled`]; then the control is closed, unless it has a key.
    pub fn enabled(self) -> Result<LineDisplay<'till>, Error> {
        self.claim(Some(Duration::ZERO))?;
        self.set_device_enabled(true)?;
        Ok(self)
    }

    /// displayText (Line Display): shows a text from the cursor on.
    ///
    /// A line feed goes to the start of the next row, a carriage return to the start of its row. A text that runs past
    /// the last row scrolls the display. If CursorUpdate is true, the cursor moves to the end of the text.
    ///
    /// - `text`: the text: bytes 0x20 to 0x7E, line feeds and carriage returns. Range: 0 to 4096 bytes.
    /// - `attribute`: how the characters are shown.
    ///
    /// # Errors
    ///
    /// - [`E_CLOSED`](ResultCode::Closed): the control is closed.
    /// - [`E_CLAIMED`](ResultCode::Claimed): another control has claimed the device.
    /// - [`E_NOTCLAIMED`](ResultCode::NotClaimed): no control has claimed the device.
    /// - [`E_DISABLED`](ResultCode::Disabled): the control is disabled.
    /// - [`E_ILLEGAL`](ResultCode::Illegal): the text has more than 4,096 bytes, or one other than 0x20 to 0x7E, LF and
    ///   CR, or the attribute is out of its range.
    /// - [`E_FAILURE`](ResultCode::Failure): the display didn't answer.
    /// - [`E_OFFLINE`](ResultCode::Offline): the display is off.
    /// - [`Cause::NoMemory`]: there was no memory.
    pub fn display_text(&self, text: impl AsRef<[u8]>, attribute: DisplayAttribute) -> Result<(), Error> {
        let line = self.line("call").word("displayText").bytes(text.as_ref()).number(attribute.number());
        self.ask("displayText", &line)?.nothing()
    }

    /// displayTextAt (Line Display): moves the cursor to a place, and shows a text from there on, as displayText does.
    ///
    /// The cursor moves to the place even if CursorUpdate is false.
    ///
    /// - `row`: the row in which it begins, counted from 0. Range: 0 to Rows - 1 rows.
    /// - `column`: the column in which it begins, counted from 0; Columns is right of the last. Range: 0 to Columns
    ///   columns.
    /// - `text`: the text: bytes 0x20 to 0x7E, line feeds and carriage returns. Range: 0 to 4096 bytes.
    /// - `attribute`: how the characters are shown.
    ///
    /// # Errors
    ///
    /// - [`E_CLOSED`](ResultCode::Closed): the control is closed.
    /// - [`E_CLAIMED`](ResultCode::Claimed): another control has claimed the device.
    /// - [`E_NOTCLAIMED`](ResultCode::NotClaimed): no control has claimed the device.
    /// - [`E_DISABLED`](ResultCode::Disabled): the control is disabled.
    /// - [`E_ILLEGAL`](ResultCode::Illegal): the row, column or attribute is out of its range, or displayText refuses a
    ///   byte of the text.
    /// - [`E_FAILURE`](ResultCode::Failure): the display didn't answer.
    /// - [`E_OFFLINE`](ResultCode::Offline): the display is off.
    /// - [`Cause::NoMemory`]: there was no memory.
    pub fn display_text_at(
        &self,
        row: u64,
        column: u64,
        text: impl AsRef<[u8]>,
        attribute: DisplayAttribute,
    ) -> Result<(), Error> {
        let line = self.line("call")
            .word("displayTextAt")
            .number(row)
            .number(column)
            .bytes(text.as_ref())
            .number(attribute.number());
        self.ask("displayTextAt", &line)?.nothing()
    }

    /// clearText (Line Display): blanks the display, and sets the cursor to row 0, column 0.
    ///
    /// # Errors
    ///
    /// - [`E_CLOSED`](ResultCode::Closed): the control is closed.
    /// - [`E_CLAIMED`](ResultCode::Claimed): another control has claimed the device.
    /// - [`E_NOTCLAIMED`](ResultCode::NotClaimed): no control has claimed the device.
    /// - [`E_DISABLED`](ResultCode::Disabled): the control is disabled.
    /// - [`E_FAILURE`](ResultCode::Failure): the display didn't answer.
    /// - [`E_OFFLINE`](ResultCode::Offline): the display is off.
    /// - [`Cause::NoMemory`]: there was no memory.
    pub fn clear_text(&self) -> Result<(), Error> {
        let line = self.line("call").word("clearText");
        self.ask("clearText", &line)?.nothing()
    }

    /// scrollText (Line Display): scrolls what the display shows, and leaves blanks behind it; the cursor stays.
    ///
    /// - `direction`: where the text moves.
    /// - `units`: how far it moves. Range: 0 to Rows up or down, 0 to Columns left or right.
    ///
    /// # Errors
    ///
    /// - [`E_CLOSED`](ResultCode::Closed): the control is closed.
    /// - [`E_CLAIMED`](ResultCode::Claimed): another control has claimed the device.
    /// - [`E_NOTCLAIMED`](ResultCode::NotClaimed): no control has claimed the device.
    /// - [`E_DISABLED`](ResultCode::Disabled): the control is disabled.
    /// - [`E_ILLEGAL`](ResultCode::Illegal): the direction or the units are out of their range.
    /// - [`E_FAILURE`](ResultCode::Failure): the display didn't answer.
    /// - [`E_OFFLINE`](ResultCode::Offline): the display is off.
    /// - [`Cause::NoMemory`]: there was no memory.
    pub fn scroll_text(&self, direction: ScrollDirection, units: u64) -> Result<(), Error> {
        let line = self.line("call").word("scrollText").number(direction.number()).number(units);
        self.ask("scrollText", &line)?.nothing()
    }

    /// Rows (Line Display): how many rows the display has.
    ///
    /// # Errors
    ///
    /// - [`E_CLOSED`](ResultCode::Closed): the control is closed.
    pub fn rows(&self) -> Result<u64, Error> {
        self.property(Property::Rows)?.number()
    }

    /// Columns (Line Display): how many columns the display has.
    ///
    /// # Errors
    ///
    /// - [`E_CLOSED`](ResultCode::Closed): the control is closed.
    pub fn columns(&self) -> Result<u64, Error> {
        self.property(Property::Columns)?.number()
    }

    /// CursorRow (Line Display): the row in which the next text begins, counted from 0.
    ///
    /// # Errors
    ///
    /// - [`E_CLOSED`](ResultCode::Closed): the control is closed.
    pub fn cursor_row(&self) -> Result<u64, Error> {
        self.property(Property::CursorRow)?.number()
    }

    /// Sets CursorRow (Line Display): the row in which the next text begins, counted from 0. Range: 0 to Rows - 1 rows.
    ///
    /// # Errors
    ///
    /// - [`E_CLOSED`](ResultCode::Closed): the control is closed.
    /// - [`E_ILLEGAL`](ResultCode::Illegal): the value is out of its range.
    pub fn set_cursor_row(&self, value: u64) -> Result<(), Error> {
        self.set(Property::CursorRow, Value::Number(value))
    }

    /// CursorColumn (Line Display): the column in which the next text begins, counted from 0; Columns is right of the
    /// last.
    ///
    /// # Errors
    ///
    /// - [`E_CLOSED`](ResultCode::Closed): the control is closed.
    pub fn cursor_column(&self) -> Result<u64, Error> {
        self.property(Property::CursorColumn)?.number()
    }

    /// Sets CursorColumn (Line Display): the column in which the next text begins, counted from 0; Columns is right of
    /// the last. Range: 0 to Columns columns.
    ///
    /// # Errors
    ///
    /// - [`E_CLOSED`](ResultCode::Closed): the control is closed.
    /// - [`E_ILLEGAL`](ResultCode::Illegal): the value is out of its range.
    pub fn set_cursor_column(&self, value: u64) -> Result<(), Error> {
        self.set(Property::CursorColumn, Value::Number(value))
    }

    /// CursorUpdate (Line Display): whether displayText and displayTextAt move the cursor to the end of the text.
    ///
    /// # Errors
    ///
    /// - [`E_CLOSED`](ResultCode::Closed): the control is closed.
    pub fn cursor_update(&self) -> Result<bool, Error> {
        self.property(Property::CursorUpdate)?.truth()
    }

    /// Sets CursorUpdate (Line Display): whether displayText and displayTextAt move the cursor to the end of the text.
    ///
    /// # Errors
    ///
    /// - [`E_CLOSED`](ResultCode::Closed): the control is closed.
    pub fn set_cursor_update(&self, value: bool) -> Result<(), Error> {
        self.set(Property::CursorUpdate, Value::Truth(value))
    }
}

impl<'till> Deref for LineDisplay<'till> {
    type Target = Control<'till>;

    fn deref(&self) -> &Control<'till> {
        &self.control
    }
}

impl fmt::Debug for LineDisplay<'_> {
    fn fmt(&self, out: &mut fmt::Formatter<'_>) -> fmt::Result {
        self.control.fmt(out)
    }
}

/// A receipt printer.
///
/// An exclusive-use device: claim it before you enable it.
///
/// Chapter POS Printer of the standard.
///
/// ```
/// # use kijolvar::{Till, Totals, BUILT_PROFILE};
/// # let till = Till::open(BUILT_PROFILE, Totals::Memory)?;
/// let printer = till.pos_printer("r1")?.enabled()?;
/// assert!(printer.device_enabled()?);
/// # Ok::<(), kijolvar::Error>(())
/// ```
pub struct PosPrinter<'till> {
    control: Control<'till>,
}

impl<'till> PosPrinter<'till> {
    /// Makes a control, which is closed.
    ///
    /// # Errors
    ///
    /// [`Cause::Full`], [`Cause::NoMemory`].
    pub fn new(till: &'till Till) -> Result<PosPrinter<'till>, Error> {
        Ok(PosPrinter { control: Control::new(till, Category::PosPrinter, None)? })
    }

    /// Makes a control, which is closed, with a name in lines of the text interface: 1 to 16 letters, digits or
    /// hyphens. Once it is dropped, you can make one of this category and name again.
    ///
    /// # Errors
    ///
    /// [`Cause::NameInUse`], [`Cause::Full`], [`Cause::NoMemory`], [`Cause::BadArgument`].
    pub fn named(till: &'till Till, name: &str) -> Result<PosPrinter<'till>, Error> {
        Ok(PosPrinter { control: Control::new(till, Category::PosPrinter, Some(name))? })
    }

    /// Finds a control by its key, which stays open when this is dropped.
    ///
    /// # Errors
    ///
    /// [`Cause::OtherTill`], [`Cause::Discarded`].
    pub fn of(till: &'till Till, key: &Key<PosPrinter<'static>>) -> Result<PosPrinter<'till>, Error> {
        Ok(PosPrinter { control: Control::of(till, Category::PosPrinter, key)? })
    }

    /// Keeps the control open, and returns its key. [`Key::discard`] closes it.
    pub fn into_key(self) -> Key<PosPrinter<'static>> {
        self.control.into_key()
    }

    /// Claims the device and enables the control.
    ///
    /// # Errors
    ///
    /// As [`Control::claim`] and [`Control::set_device_enabled`]; then the control is closed, unless it has a key.
    pub fn enabled(self) -> Result<PosPrinter<'till>, Error> {
        self.claim(Some(Duration::ZERO))?;
        self.set_device_enabled(true)?;
        Ok(self)
    }

    /// printNormal (POS Printer): prints data, with its escape sequences; if AsyncMode is true, it is queued and
    /// printed later.
    ///
    /// The data counts as printed whole, or not at all; an attached printer may have printed its first lines. An
    /// asynchronous request gets the next OutputID; an OutputCompleteEvent follows when it is printed.
    ///
    /// - `station`: the station; only the receipt is there.
    /// - `data`: what is printed: bytes 0x20 to 0x7E, line feeds, carriage returns and escape sequences. Range: 0 to
    ///   4096 bytes.
    ///
    /// # Errors
    ///
    /// - [`E_CLOSED`](ResultCode::Closed): the control is closed.
    /// - [`E_CLAIMED`](ResultCode::Claimed): another control has claimed the device.
    /// - [`E_NOTCLAIMED`](ResultCode::NotClaimed): no control has claimed the device.
    /// - [`E_DISABLED`](ResultCode::Disabled): the control is disabled.
    /// - [`E_ILLEGAL`](ResultCode::Illegal): the station isn't the receipt; or the data has more than 4,096 bytes, a
    ///   byte that isn't ASCII text, LF, CR or ESC, or a number out of range.
    /// - [`E_BUSY`](ResultCode::Busy): AsyncMode is false, and earlier requests still wait.
    /// - [`E_FAILURE`](ResultCode::Failure): the printer didn't answer, or no OutputID is left.
    /// - [`E_OFFLINE`](ResultCode::Offline): the printer is off.
    /// - E_EXTENDED, [`EPTR_COVER_OPEN`](ExtendedCode::PrinterCoverOpen): the cover is open.
    /// - E_EXTENDED, [`EPTR_REC_EMPTY`](ExtendedCode::PrinterRecEmpty): there isn't enough paper.
    /// - [`Cause::NoMemory`]: there was no memory.
    pub fn print_normal(&self, station: PrinterStation, data: impl AsRef<[u8]>) -> Result<(), Error> {
        let line = self.line("call").word("printNormal").number(station.number()).bytes(data.as_ref());
        self.ask("printNormal", &line)?.nothing()
    }

    /// printImmediate (POS Printer): prints data at once, before all requests that wait.
    ///
    /// The data counts as printed whole, or not at all; an attached printer may have printed its first lines.
    ///
    /// - `station`: the station; only the receipt is there.
    /// - `data`: what is printed: bytes 0x20 to 0x7E, line feeds, carriage returns and escape sequences. Range: 0 to
    ///   4096 bytes.
    ///
    /// # Errors
    ///
    /// - [`E_CLOSED`](ResultCode::Closed): the control is closed.
    /// - [`E_CLAIMED`](ResultCode::Claimed): another control has claimed the device.
    /// - [`E_NOTCLAIMED`](ResultCode::NotClaimed): no control has claimed the device.
    /// - [`E_DISABLED`](ResultCode::Disabled): the control is disabled.
    /// - [`E_ILLEGAL`](ResultCode::Illegal): the station isn't the receipt; or the data has more than 4,096 bytes, a
    ///   byte that isn't ASCII text, LF, CR or ESC, or a number out of range.
    /// - [`E_FAILURE`](ResultCode::Failure): the printer didn't answer.
    /// - [`E_OFFLINE`](ResultCode::Offline): the printer is off.
    /// - E_EXTENDED, [`EPTR_COVER_OPEN`](ExtendedCode::PrinterCoverOpen): the cover is open.
    /// - E_EXTENDED, [`EPTR_REC_EMPTY`](ExtendedCode::PrinterRecEmpty): there isn't enough paper.
    /// - [`Cause::NoMemory`]: there was no memory.
    pub fn print_immediate(&self, station: PrinterStation, data: impl AsRef<[u8]>) -> Result<(), Error> {
        let line = self.line("call").word("printImmediate").number(station.number()).bytes(data.as_ref());
        self.ask("printImmediate", &line)?.nothing()
    }

    /// cutPaper (POS Printer): cuts the receipt's paper; if AsyncMode is true, the cut is queued and done later.
    ///
    /// A cut of 0 percent cuts nothing, but still needs a closed cover and paper.
    ///
    /// - `percentage`: how much of the paper is cut; PTR_CP_FULLCUT is a full cut. Range: 0 to 100 percent.
    ///
    /// # Errors
    ///
    /// - [`E_CLOSED`](ResultCode::Closed): the control is closed.
    /// - [`E_CLAIMED`](ResultCode::Claimed): another control has claimed the device.
    /// - [`E_NOTCLAIMED`](ResultCode::NotClaimed): no control has claimed the device.
    /// - [`E_DISABLED`](ResultCode::Disabled): the control is disabled.
    /// - [`E_ILLEGAL`](ResultCode::Illegal): the percentage is out of its range.
    /// - [`E_BUSY`](ResultCode::Busy): AsyncMode is false, and earlier requests still wait.
    /// - [`E_FAILURE`](ResultCode::Failure): the printer didn't answer, or no OutputID is left.
    /// - [`E_OFFLINE`](ResultCode::Offline): the printer is off.
    /// - E_EXTENDED, [`EPTR_COVER_OPEN`](ExtendedCode::PrinterCoverOpen): the cover is open.
    /// - E_EXTENDED, [`EPTR_REC_EMPTY`](ExtendedCode::PrinterRecEmpty): there is no paper.
    /// - [`Cause::NoMemory`]: there was no memory.
    pub fn cut_paper(&self, percentage: u64) -> Result<(), Error> {
        let line = self.line("call").word("cutPaper").number(percentage);
        self.ask("cutPaper", &line)?.nothing()
    }

    /// clearOutput (Common Properties, Methods and Events; POS Printer): deletes the requests that wait and the
    /// ErrorEvents of output, and ends the error state of output.
    ///
    /// OutputCompleteEvents stay.
    ///
    /// # Errors
    ///
    /// - [`E_CLOSED`](ResultCode::Closed): the control is closed.
    /// - [`E_CLAIMED`](ResultCode::Claimed): another control has claimed the device.
    /// - [`E_NOTCLAIMED`](ResultCode::NotClaimed): no control has claimed the device.
    pub fn clear_output(&self) -> Result<(), Error> {
        let line = self.line("call").word("clearOutput");
        self.ask("clearOutput", &line)?.nothing()
    }

    /// AsyncMode (POS Printer): whether printNormal and cutPaper are queued and done later.
    ///
    /// # Errors
    ///
    /// - [`E_CLOSED`](ResultCode::Closed): the control is closed.
    pub fn async_mode(&self) -> Result<bool, Error> {
        self.property(Property::AsyncMode)?.truth()
    }

    /// Sets AsyncMode (POS Printer): whether printNormal and cutPaper are queued and done later.
    ///
    /// # Errors
    ///
    /// - [`E_CLOSED`](ResultCode::Closed): the control is closed.
    pub fn set_async_mode(&self, value: bool) -> Result<(), Error> {
        self.set(Property::AsyncMode, Value::Truth(value))
    }

    /// OutputID (Common Properties, Methods and Events; POS Printer): the OutputID of the request that was queued last,
    /// or 0 if none was since the control was opened.
    ///
    /// # Errors
    ///
    /// - [`E_CLOSED`](ResultCode::Closed): the control is closed.
    pub fn output_id(&self) -> Result<u64, Error> {
        self.property(Property::OutputId)?.number()
    }

    /// RecLineChars (POS Printer): how many characters a line of the receipt has.
    ///
    /// # Errors
    ///
    /// - [`E_CLOSED`](ResultCode::Closed): the control is closed.
    /// - [`E_CLAIMED`](ResultCode::Claimed): another control has claimed the device.
    /// - [`E_NOTCLAIMED`](ResultCode::NotClaimed): no control has claimed the device.
    /// - [`E_DISABLED`](ResultCode::Disabled): the control is disabled.
    pub fn rec_line_chars(&self) -> Result<u64, Error> {
        self.property(Property::RecLineChars)?.number()
    }

    /// CoverOpen (POS Printer): whether the printer's cover is open.
    ///
    /// # Errors
    ///
    /// - [`E_CLOSED`](ResultCode::Closed): the control is closed.
    /// - [`E_CLAIMED`](ResultCode::Claimed): another control has claimed the device.
    /// - [`E_NOTCLAIMED`](ResultCode::NotClaimed): no control has claimed the device.
    /// - [`E_DISABLED`](ResultCode::Disabled): the control is disabled.
    pub fn cover_open(&self) -> Result<bool, Error> {
        self.property(Property::CoverOpen)?.truth()
    }

    /// RecEmpty (POS Printer): whether the receipt has no paper.
    ///
    /// # Errors
    ///
    /// - [`E_CLOSED`](ResultCode::Closed): the control is closed.
    /// - [`E_CLAIMED`](ResultCode::Claimed): another control has claimed the device.
    /// - [`E_NOTCLAIMED`](ResultCode::NotClaimed): no control has claimed the device.
    /// - [`E_DISABLED`](ResultCode::Disabled): the control is disabled.
    pub fn rec_empty(&self) -> Result<bool, Error> {
        self.property(Property::RecEmpty)?.truth()
    }

    /// RecNearEnd (POS Printer): whether the receipt's paper is near its end, or gone.
    ///
    /// # Errors
    ///
    /// - [`E_CLOSED`](ResultCode::Closed): the control is closed.
    /// - [`E_CLAIMED`](ResultCode::Claimed): another control has claimed the device.
    /// - [`E_NOTCLAIMED`](ResultCode::NotClaimed): no control has claimed the device.
    /// - [`E_DISABLED`](ResultCode::Disabled): the control is disabled.
    pub fn rec_near_end(&self) -> Result<bool, Error> {
        self.property(Property::RecNearEnd)?.truth()
    }
}

impl<'till> Deref for PosPrinter<'till> {
    type Target = Control<'till>;

    fn deref(&self) -> &Control<'till> {
        &self.control
    }
}

impl fmt::Debug for PosPrinter<'_> {
    fn fmt(&self, out: &mut fmt::Formatter<'_>) -> fmt::Result {
        self.control.fmt(out)
    }
}

/// Hard Totals: small files that survive a loss of power.
///
/// Several controls may share the totals. Enabling the first one recovers the files from the disk. A change is on the
/// disk before its call returns.
///
/// Chapter Hard Totals of the standard.
///
/// ```
/// # use kijolvar::{Till, Totals, BUILT_PROFILE};
/// # let till = Till::open(BUILT_PROFILE, Totals::Memory)?;
/// let totals = till.hard_totals("t1")?.enabled()?;
/// assert!(totals.device_enabled()?);
/// # Ok::<(), kijolvar::Error>(())
/// ```
pub struct HardTotals<'till> {
    control: Control<'till>,
}

impl<'till> HardTotals<'till> {
    /// Makes a control, which is closed.
    ///
    /// # Errors
    ///
    /// [`Cause::Full`], [`Cause::NoMemory`].
    pub fn new(till: &'till Till) -> Result<HardTotals<'till>, Error> {
        Ok(HardTotals { control: Control::new(till, Category::HardTotals, None)? })
    }

    /// Makes a control, which is closed, with a name in lines of the text interface: 1 to 16 letters, digits or
    /// hyphens. Once it is dropped, you can make one of this category and name again.
    ///
    /// # Errors
    ///
    /// [`Cause::NameInUse`], [`Cause::Full`], [`Cause::NoMemory`], [`Cause::BadArgument`].
    pub fn named(till: &'till Till, name: &str) -> Result<HardTotals<'till>, Error> {
        Ok(HardTotals { control: Control::new(till, Category::HardTotals, Some(name))? })
    }

    /// Finds a control by its key, which stays open when this is dropped.
    ///
    /// # Errors
    ///
    /// [`Cause::OtherTill`], [`Cause::Discarded`].
    pub fn of(till: &'till Till, key: &Key<HardTotals<'static>>) -> Result<HardTotals<'till>, Error> {
        Ok(HardTotals { control: Control::of(till, Category::HardTotals, key)? })
    }

    /// Keeps the control open, and returns its key. [`Key::discard`] closes it.
    pub fn into_key(self) -> Key<HardTotals<'static>> {
        self.control.into_key()
    }

    /// Enables the control. The device isn't claimed.
    ///
    /// # Errors
    ///
    /// As [`Control::set_device_enabled`]; then the control is closed, unless it has a key.
    pub fn enabled(self) -> Result<HardTotals<'till>, Error> {
        self.set_device_enabled(true)?;
        Ok(self)
    }

    /// create (Hard Totals): creates a file whose bytes are all 0, and returns its handle.
    ///
    /// Error detection changes nothing.
    ///
    /// - `name`: the new file's name: bytes 0x20 to 0x7F. Range: 1 to 10 bytes.
    /// - `size`: how many bytes the file has; that never changes. Range: 0 to FreeData bytes.
    /// - `error_detection`: whether errors in the file are to be detected.
    /// - returns `handle`: the new file's handle.
    ///
    /// # Errors
    ///
    /// - [`E_CLOSED`](ResultCode::Closed): the control is closed.
    /// - [`E_CLAIMED`](ResultCode::Claimed): another control has claimed the device.
    /// - [`E_DISABLED`](ResultCode::Disabled): the control is disabled.
    /// - [`E_FAILURE`](ResultCode::Failure): the totals are off.
    /// - [`E_ILLEGAL`](ResultCode::Illegal): the control is in a transaction, the name is bad, or the size is below 0.
    /// - [`E_EXISTS`](ResultCode::Exists): a file has the name.
    /// - E_EXTENDED, [`ETOT_NOROOM`](ExtendedCode::TotalsNoRoom): the size is above FreeData, or there are as many
    ///   files as there may be.
    /// - [`E_FAILURE`](ResultCode::Failure): no handle is left, or the sequence of the totals has run out.
    /// - [`Cause::DiskFailed`]: the disk failed, and the change may be in the file or not.
    /// - [`Cause::NoMemory`]: there was no memory.
    pub fn create(&self, name: impl AsRef<[u8]>, size: u64, error_detection: bool) -> Result<u64, Error> {
        let line = self.line("call").word("create").bytes(name.as_ref()).number(size).truth(error_detection);
        self.ask("create", &line)?.number()
    }

    /// delete (Hard Totals): deletes a file; its handle is never used again.
    ///
    /// - `name`: the file's name. Range: 1 to 10 bytes.
    ///
    /// # Errors
    ///
    /// - [`E_CLOSED`](ResultCode::Closed): the control is closed.
    /// - [`E_CLAIMED`](ResultCode::Claimed): another control has claimed the device.
    /// - [`E_DISABLED`](ResultCode::Disabled): the control is disabled.
    /// - [`E_FAILURE`](ResultCode::Failure): the totals are off.
    /// - [`E_ILLEGAL`](ResultCode::Illegal): the control is in a transaction.
    /// - [`E_NOEXIST`](ResultCode::NoExist): no file has the name.
    /// - [`E_CLAIMED`](ResultCode::Claimed): another control has claimed the file.
    /// - [`E_FAILURE`](ResultCode::Failure): the sequence of the totals has run out.
    /// - [`Cause::DiskFailed`]: the disk failed, and the change may be in the file or not.
    /// - [`Cause::NoMemory`]: there was no memory.
    pub fn delete(&self, name: impl AsRef<[u8]>) -> Result<(), Error> {
        let line = self.line("call").word("delete").bytes(name.as_ref());
        self.ask("delete", &line)?.nothing()
    }

    /// find (Hard Totals): finds a file by its name, and returns its handle and its size.
    ///
    /// - `name`: the file's name. Range: 1 to 10 bytes.
    /// - returns `handle`: the file's handle.
    /// - returns `size`: how many bytes the file has.
    ///
    /// # Errors
    ///
    /// - [`E_CLOSED`](ResultCode::Closed): the control is closed.
    /// - [`E_CLAIMED`](ResultCode::Claimed): another control has claimed the device.
    /// - [`E_DISABLED`](ResultCode::Disabled): the control is disabled.
    /// - [`E_FAILURE`](ResultCode::Failure): the totals are off.
    /// - [`E_NOEXIST`](ResultCode::NoExist): no file has the name.
    pub fn find(&self, name: impl AsRef<[u8]>) -> Result<(u64, u64), Error> {
        let line = self.line("call").word("find").bytes(name.as_ref());
        self.ask("find", &line)?.pair()
    }

    /// findByIndex (Hard Totals): returns the name of the file at an index, in the order of creation.
    ///
    /// - `index`: the file's index, counted from 0. Range: 0 to NumberOfFiles - 1 files.
    /// - returns `name`: the file's name.
    ///
    /// # Errors
    ///
    /// - [`E_CLOSED`](ResultCode::Closed): the control is closed.
    /// - [`E_CLAIMED`](ResultCode::Claimed): another control has claimed the device.
    /// - [`E_DISABLED`](ResultCode::Disabled): the control is disabled.
    /// - [`E_FAILURE`](ResultCode::Failure): the totals are off.
    /// - [`E_ILLEGAL`](ResultCode::Illegal): no file is at the index.
    /// - [`Cause::NoMemory`]: there was no memory.
    pub fn find_by_index(&self, index: u64) -> Result<Vec<u8>, Error> {
        let line = self.line("call").word("findByIndex").number(index);
        self.ask("findByIndex", &line)?.bytes()
    }

    /// read (Hard Totals): reads bytes of a file as they are on the disk; what a transaction has buffered isn't among
    /// them.
    ///
    /// - `handle`: the file's handle.
    /// - `offset`: where the bytes begin, counted from 0. Range: the bytes have to be within the file.
    /// - `count`: how many bytes are read. Range: the bytes have to be within the file.
    /// - returns `data`: the bytes.
    ///
    /// # Errors
    ///
    /// - [`E_CLOSED`](ResultCode::Closed): the control is closed.
    /// - [`E_CLAIMED`](ResultCode::Claimed): another control has claimed the device.
    /// - [`E_DISABLED`](ResultCode::Disabled): the control is disabled.
    /// - [`E_FAILURE`](ResultCode::Failure): the totals are off.
    /// - [`E_ILLEGAL`](ResultCode::Illegal): no file has the handle, or the bytes aren't all within the file.
    /// - [`E_CLAIMED`](ResultCode::Claimed): another control has claimed the file.
    /// - [`Cause::NoMemory`]: there was no memory.
    pub fn read(&self, handle: u64, offset: u64, count: u64) -> Result<Vec<u8>, Error> {
        let line = self.line("call").word("read").number(handle).number(offset).number(count);
        self.ask("read", &line)?.bytes()
    }

    /// write (Hard Totals): writes bytes to a file; in a transaction they are buffered until it is committed.
    ///
    /// - `handle`: the file's handle.
    /// - `offset`: where the bytes begin, counted from 0. Range: the bytes have to be within the file.
    /// - `data`: the bytes that are written. Range: the bytes have to be within the file.
    ///
    /// # Errors
    ///
    /// - [`E_CLOSED`](ResultCode::Closed): the control is closed.
    /// - [`E_CLAIMED`](ResultCode::Claimed): another control has claimed the device.
    /// - [`E_DISABLED`](ResultCode::Disabled): the control is disabled.
    /// - [`E_FAILURE`](ResultCode::Failure): the totals are off.
    /// - [`E_ILLEGAL`](ResultCode::Illegal): no file has the handle, or the bytes aren't all within the file.
    /// - [`E_CLAIMED`](ResultCode::Claimed): another control has claimed the file.
    /// - E_EXTENDED, [`ETOT_NOROOM`](ExtendedCode::TotalsNoRoom): the transaction has no room for the write.
    /// - [`E_FAILURE`](ResultCode::Failure): there is no transaction, and the sequence of the totals has run out.
    /// - [`Cause::DiskFailed`]: the disk failed, and the change may be in the file or not.
    /// - [`Cause::NoMemory`]: there was no memory.
    pub fn write(&self, handle: u64, offset: u64, data: impl AsRef<[u8]>) -> Result<(), Error> {
        let line = self.line("call").word("write").number(handle).number(offset).bytes(data.as_ref());
        self.ask("write", &line)?.nothing()
    }

    /// setAll (Hard Totals): sets all bytes of a file to one value; in a transaction this is buffered until it is
    /// committed.
    ///
    /// - `handle`: the file's handle.
    /// - `value`: the value of each byte. Range: 0 to 255.
    ///
    /// # Errors
    ///
    /// - [`E_CLOSED`](ResultCode::Closed): the control is closed.
    /// - [`E_CLAIMED`](ResultCode::Claimed): another control has claimed the device.
    /// - [`E_DISABLED`](ResultCode::Disabled): the control is disabled.
    /// - [`E_FAILURE`](ResultCode::Failure): the totals are off.
    /// - [`E_ILLEGAL`](ResultCode::Illegal): no file has the handle, or the value isn't that of a byte.
    /// - [`E_CLAIMED`](ResultCode::Claimed): another control has claimed the file.
    /// - E_EXTENDED, [`ETOT_NOROOM`](ExtendedCode::TotalsNoRoom): the transaction has no room for the change.
    /// - [`E_FAILURE`](ResultCode::Failure): there is no transaction, and the sequence of the totals has run out.
    /// - [`Cause::DiskFailed`]: the disk failed, and the change may be in the file or not.
    /// - [`Cause::NoMemory`]: there was no memory.
    pub fn set_all(&self, handle: u64, value: u64) -> Result<(), Error> {
        let line = self.line("call").word("setAll").number(handle).number(value);
        self.ask("setAll", &line)?.nothing()
    }

    /// rename (Hard Totals): gives a file another name.
    ///
    /// - `handle`: the file's handle.
    /// - `name`: the file's new name: bytes 0x20 to 0x7F. Range: 1 to 10 bytes.
    ///
    /// # Errors
    ///
    /// - [`E_CLOSED`](ResultCode::Closed): the control is closed.
    /// - [`E_CLAIMED`](ResultCode::Claimed): another control has claimed the device.
    /// - [`E_DISABLED`](ResultCode::Disabled): the control is disabled.
    /// - [`E_FAILURE`](ResultCode::Failure): the totals are off.
    /// - [`E_ILLEGAL`](ResultCode::Illegal): the control is in a transaction, no file has the handle, or the name is
    ///   bad.
    /// - [`E_EXISTS`](ResultCode::Exists): a file has the name, be it this one.
    /// - [`E_CLAIMED`](ResultCode::Claimed): another control has claimed the file.
    /// - [`E_FAILURE`](ResultCode::Failure): the sequence of the totals has run out.
    /// - [`Cause::DiskFailed`]: the disk failed, and the change may be in the file or not.
    /// - [`Cause::NoMemory`]: there was no memory.
    pub fn rename(&self, handle: u64, name: impl AsRef<[u8]>) -> Result<(), Error> {
        let line = self.line("call").word("rename").number(handle).bytes(name.as_ref());
        self.ask("rename", &line)?.nothing()
    }

    /// claimFile (Hard Totals): claims a file, which keeps other controls from reading and changing it.
    ///
    /// The call never waits: if another control has the file, it fails at once.
    ///
    /// - `handle`: the file's handle.
    /// - `timeout`: how long the claim may take. `None` and [`Duration::MAX`] are without end.
    ///
    /// # Errors
    ///
    /// - [`E_CLOSED`](ResultCode::Closed): the control is closed.
    /// - [`E_DISABLED`](ResultCode::Disabled): the control is disabled.
    /// - [`E_FAILURE`](ResultCode::Failure): the totals are off.
    /// - [`E_ILLEGAL`](ResultCode::Illegal): no file has the handle, or the timeout is below -1.
    /// - [`E_TIMEOUT`](ResultCode::Timeout): another control has claimed the file or the device.
    pub fn claim_file(&self, handle: u64, timeout: Option<Duration>) -> Result<(), Error> {
        let line = self.line("call").word("claimFile").number(handle).number(milliseconds(timeout));
        self.ask("claimFile", &line)?.nothing()
    }

    /// releaseFile (Hard Totals): releases a file that the control has claimed.
    ///
    /// - `handle`: the file's handle.
    ///
    /// # Errors
    ///
    /// - [`E_CLOSED`](ResultCode::Closed): the control is closed.
    /// - [`E_DISABLED`](ResultCode::Disabled): the control is disabled.
    /// - [`E_FAILURE`](ResultCode::Failure): the totals are off.
    /// - [`E_ILLEGAL`](ResultCode::Illegal): no file has the handle, or the control hasn't claimed it.
    pub fn release_file(&self, handle: u64) -> Result<(), Error> {
        let line = self.line("call").word("releaseFile").number(handle);
        self.ask("releaseFile", &line)?.nothing()
    }

    /// beginTrans (Hard Totals): begins a transaction: writes are buffered until it is committed or rolled back.
    ///
    /// # Errors
    ///
    /// - [`E_CLOSED`](ResultCode::Closed): the control is closed.
    /// - [`E_DISABLED`](ResultCode::Disabled): the control is disabled.
    /// - [`E_FAILURE`](ResultCode::Failure): the totals are off.
    /// - [`E_ILLEGAL`](ResultCode::Illegal): the control is in a transaction already.
    pub fn begin_trans(&self) -> Result<(), Error> {
        let line = self.line("call").word("beginTrans");
        self.ask("beginTrans", &line)?.nothing()
    }

    /// commitTrans (Hard Totals): ends the transaction, and makes its changes all together; a loss of power leaves all
    /// of them or none.
    ///
    /// # Errors
    ///
    /// - [`E_CLOSED`](ResultCode::Closed): the control is closed.
    /// - [`E_CLAIMED`](ResultCode::Claimed): another control has claimed the device.
    /// - [`E_DISABLED`](ResultCode::Disabled): the control is disabled.
    /// - [`E_FAILURE`](ResultCode::Failure): the totals are off.
    /// - [`E_ILLEGAL`](ResultCode::Illegal): the control is in no transaction.
    /// - [`E_NOEXIST`](ResultCode::NoExist): a file of the transaction was deleted.
    /// - [`E_CLAIMED`](ResultCode::Claimed): another control has claimed a file of the transaction.
    /// - [`E_FAILURE`](ResultCode::Failure): the sequence of the totals has run out; the transaction stays.
    /// - [`Cause::DiskFailed`]: the disk failed, and the change may be in the file or not.
    /// - [`Cause::NoMemory`]: there was no memory.
    pub fn commit_trans(&self) -> Result<(), Error> {
        let line = self.line("call").word("commitTrans");
        self.ask("commitTrans", &line)?.nothing()
    }

    /// rollback (Hard Totals): ends the transaction, and drops its changes.
    ///
    /// # Errors
    ///
    /// - [`E_CLOSED`](ResultCode::Closed): the control is closed.
    /// - [`E_DISABLED`](ResultCode::Disabled): the control is disabled.
    /// - [`E_FAILURE`](ResultCode::Failure): the totals are off.
    /// - [`E_ILLEGAL`](ResultCode::Illegal): the control is in no transaction.
    pub fn rollback(&self) -> Result<(), Error> {
        let line = self.line("call").word("rollback");
        self.ask("rollback", &line)?.nothing()
    }

    /// TotalsSize (Hard Totals): how many bytes all files may have together.
    ///
    /// # Errors
    ///
    /// - [`E_CLOSED`](ResultCode::Closed): the control is closed.
    pub fn totals_size(&self) -> Result<u64, Error> {
        self.property(Property::TotalsSize)?.number()
    }

    /// FreeData (Hard Totals): how many bytes are left for new files, which is TotalsSize less the sizes of all files.
    ///
    /// # Errors
    ///
    /// - [`E_CLOSED`](ResultCode::Closed): the control is closed.
    /// - [`E_DISABLED`](ResultCode::Disabled): the control is disabled.
    /// - [`E_FAILURE`](ResultCode::Failure): the totals are off.
    pub fn free_data(&self) -> Result<u64, Error> {
        self.property(Property::FreeData)?.number()
    }

    /// NumberOfFiles (Hard Totals): how many files there are.
    ///
    /// # Errors
    ///
    /// - [`E_CLOSED`](ResultCode::Closed): the control is closed.
    /// - [`E_DISABLED`](ResultCode::Disabled): the control is disabled.
    /// - [`E_FAILURE`](ResultCode::Failure): the totals are off.
    pub fn number_of_files(&self) -> Result<u64, Error> {
        self.property(Property::NumberOfFiles)?.number()
    }

    /// TransactionInProgress (Hard Totals): whether the control is in a transaction.
    ///
    /// # Errors
    ///
    /// - [`E_CLOSED`](ResultCode::Closed): the control is closed.
    pub fn transaction_in_progress(&self) -> Result<bool, Error> {
        self.property(Property::TransactionInProgress)?.truth()
    }

    /// CapTransactions (Hard Totals): whether there are transactions: always true.
    ///
    /// # Errors
    ///
    /// - [`E_CLOSED`](ResultCode::Closed): the control is closed.
    pub fn cap_transactions(&self) -> Result<bool, Error> {
        self.property(Property::CapTransactions)?.truth()
    }

    /// CapSingleFile (Hard Totals): whether there may be only one file: always false.
    ///
    /// # Errors
    ///
    /// - [`E_CLOSED`](ResultCode::Closed): the control is closed.
    pub fn cap_single_file(&self) -> Result<bool, Error> {
        self.property(Property::CapSingleFile)?.truth()
    }

    /// CapErrorDetection (Hard Totals): whether error detection can be chosen for a file: always false.
    ///
    /// # Errors
    ///
    /// - [`E_CLOSED`](ResultCode::Closed): the control is closed.
    pub fn cap_error_detection(&self) -> Result<bool, Error> {
        self.property(Property::CapErrorDetection)?.truth()
    }
}

impl<'till> Deref for HardTotals<'till> {
    type Target = Control<'till>;

    fn deref(&self) -> &Control<'till> {
        &self.control
    }
}

impl fmt::Debug for HardTotals<'_> {
    fn fmt(&self, out: &mut fmt::Formatter<'_>) -> fmt::Result {
        self.control.fmt(out)
    }
}
