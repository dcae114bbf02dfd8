//! What every control has: its name, its events, and how its lines are asked.
use crate::error::{Cause, Error};
use crate::event::{ErrorEvent, Event, Events};
use crate::line::{Answer, Line};
use crate::property::{Property, PropertyType, Value};
use crate::standard::{Category, ErrorLocus, ErrorReply, ResultCode};
use crate::till::Till;
use crate::transaction::end_transaction;
use std::fmt;
use std::marker::PhantomData;

/// A control: an application's handle on a device of a till.
///
/// The controls of the categories ([`CashDrawer`](crate::CashDrawer) and so on) are controls with the methods and
/// properties of their category. Dropping one closes it.
pub struct Control<'till> {
    till: &'till Till,
    category: Category,
    name: String,
    place: usize,
    turn: u64,
    is_kept: bool,
}

/// A control of type `T` that is kept open, by which its till finds it again ([`Control`]). It may go to another
/// thread.
///
/// A till has at most 4,096 controls, so [`Key::discard`] the key of a control that you need no more.
pub struct Key<T> {
    till: u64,
    name: String,
    place: usize,
    turn: u64,
    of: PhantomData<fn() -> T>,
}

impl<'till> Control<'till> {
    /// Makes a control, which is closed. If it has a name, no other control of the till may have it.
    pub(crate) fn new(till: &'till Till, category: Category, name: Option<&str>) -> Result<Control<'till>, Error> {
        let (name, place, turn) = till.new_control(category, name)?;
        Ok(Control { till, category, name, place, turn, is_kept: false })
    }

    /// Keeps the control open, and returns its key.
    pub(crate) fn into_key<T>(mut self) -> Key<T> {
        self.is_kept = true;
        let (till, name) = (self.till.number(), std::mem::take(&mut self.name));
        Key { till, name, place: self.place, turn: self.turn, of: PhantomData }
    }

    /// Finds a control by its key. It stays open when it is dropped.
    pub(crate) fn of<T>(till: &'till Till, category: Category, key: &Key<T>) -> Result<Control<'till>, Error> {
        key.check("of", till)?;
        let (name, place, turn) = (key.name.clone(), key.place, key.turn);
        Ok(Control { till, category, name, place, turn, is_kept: true })
    }

    /// Returns the control's name in lines of the text interface.
    pub fn name(&self) -> &str {
        &self.name
    }

    /// Returns the control's category.
    pub fn category(&self) -> Category {
        self.category
    }

    /// Returns the control's till.
    pub fn till(&self) -> &'till Till {
        self.till
    }

    /// Returns the name of the device on which the control is open, if it is. It doesn't see lines that open or close
    /// the control ([`Till::carry_out`]).
    ///
    /// ```
    /// # use kijolvar::{Till, Totals, BUILT_PROFILE};
    /// # let till = Till::open(BUILT_PROFILE, Totals::Memory)?;
    /// let drawer = till.cash_drawer("d1")?;
    /// assert_eq!(drawer.device().as_deref(), Some("d1"));
    /// drawer.close()?;
    /// assert_eq!(drawer.device(), None);
    /// # Ok::<(), kijolvar::Error>(())
    /// ```
    pub fn device(&self) -> Option<String> {
        self.till.open_device(self.place).filter(|_| self.till.has_turn(self.place, self.turn))
    }

    /// Begins a line on the control by its verb.
    pub(crate) fn line(&self, verb: &str) -> Line {
        Line::new(verb).name(&self.name)
    }

    /// Returns an error if the control was discarded by its key: another may be the till's control of this name now.
    fn check(&self, call: &'static str) -> Result<(), Error> {
        if self.till.has_turn(self.place, self.turn) {
            Ok(())
        } else {
            Err(Error::new(call, Cause::Discarded))
        }
    }

    /// Notes whether a transaction is to be rolled back before the next call, and returns whether one was.
    pub(crate) fn set_rollback_due(&self, is_due: bool) -> bool {
        self.till.set_rollback_due(self.place, is_due)
    }

    /// Carries out a line on the control: what is behind `ok`. A rollback that is due is first.
    pub(crate) fn ask(&self, call: &'static str, line: &Line) -> Result<Answer, Error> {
        self.check(call)?;
        if self.set_rollback_due(false) {
            end_transaction(self).map_err(|cause| Error::new(call, cause))?;
        }
        self.till.ask(call, Some(self.category), line)
    }

    /// Opens the control by a line. Its till keeps which device it is on, also if there is no memory for the answer.
    pub(crate) fn open_on(&self, device: &str, line: &Line) -> Result<(), Error> {
        let done = self.ask("open", line).and_then(|answer| answer.nothing());
        if done.as_ref().map_or_else(|fault| matches!(fault.cause(), Cause::NoAnswer), |_| true) {
            self.till.opened_on(self.place, device);
        }
        done
    }

    /// Closes the control by a line. Its till keeps that it is closed, also if there is no memory for the answer.
    pub(crate) fn close_by(&self, line: &Line) -> Result<(), Error> {
        let done = self.ask("close", line).and_then(|answer| answer.nothing());
        let is_closed = |cause: &Cause| matches!(cause, Cause::NoAnswer | Cause::Code(ResultCode::Closed));
        if done.as_ref().map_or_else(|fault| is_closed(fault.cause()), |()| true) {
            self.till.closed(self.place);
        }
        done
    }

    /// Reads a property.
    pub(crate) fn property(&self, property: Property) -> Result<Answer, Error> {
        self.ask(property.name(), &self.line("get").word(property.name()))
    }

    /// Reads a property of any category by its name; the control refuses those that it doesn't have with E_ILLEGAL.
    ///
    /// # Errors
    ///
    /// An error of the property, as the method of the property's name says.
    pub fn get(&self, property: Property) -> Result<Value, Error> {
        let answer = self.property(property)?;
        match property.type_of() {
            PropertyType::Number => answer.number().map(Value::Number),
            PropertyType::Truth => answer.truth().map(Value::Truth),
            PropertyType::Bytes => answer.bytes().map(Value::Bytes),
        }
    }

    /// Sets a property of any category by its name; the control refuses those that can't be set with E_ILLEGAL, and
    /// also values of another type.
    ///
    /// # Errors
    ///
    /// An error of the property, as the method that sets it says; [`Cause::BadArgument`] for bytes, which none takes.
    pub fn set(&self, property: Property, value: Value) -> Result<(), Error> {
        let line = self.line("set").word(property.name());
        let line = match value {
            Value::Number(number) => line.number(number),
            Value::Truth(is_true) => line.truth(is_true),
            Value::Bytes(_) => return Err(Error::new(property.name(), Cause::BadArgument)),
        };
        self.ask(property.name(), &line)?.nothing()
    }

    /// Delivers the control's next event, if there is one. An ErrorEvent has the default reply; [`Control::reply_to`]
    /// gives another.
    ///
    /// None is delivered while the control is closed or FreezeEvents is true, and no DataEvent while DataEventEnabled
    /// is false.
    ///
    /// # Errors
    ///
    /// [`Cause::DiskFailed`], [`Cause::NoAnswer`], [`Cause::BadAnswer`].
    pub fn next_event(&self) -> Result<Option<Event>, Error> {
        self.check("deliver")?;
        Event::deliver(self.till, &self.name, self.category, None)
    }

    /// Delivers the control's next event, and replies to it beforehand if it is an ErrorEvent.
    ///
    /// # Errors
    ///
    /// As [`Control::next_event`].
    pub fn next_event_replied(&self, reply: ErrorReply) -> Result<Option<Event>, Error> {
        self.check("deliver")?;
        Event::deliver(self.till, &self.name, self.category, Some(reply))
    }

    /// Returns an iterator that delivers the control's events until none is left. You may use the till meanwhile.
    ///
    /// ```
    /// # use kijolvar::{standard::{ErrorReply, PrinterStation}, Event, Till, Totals, BUILT_PROFILE};
    /// # let till = Till::open(BUILT_PROFILE, Totals::Memory)?;
    /// let printer = till.pos_printer("r1")?.enabled()?;
    /// printer.set_async_mode(true)?;
    /// printer.print_normal(PrinterStation::Receipt, "Bread\n")?;
    /// till.input_cover("r1", true)?;
    /// till.work("r1")?;
    /// for event in printer.events() {
    ///     if let Event::Error(error) = event? {
    ///         printer.reply_to(error, ErrorReply::Clear)?;
    ///     }
    /// }
    /// # Ok::<(), kijolvar::Error>(())
    /// ```
    pub fn events(&self) -> Events<'_, Event> {
        Events::new(Box::new(|| self.next_event()))
    }

    /// Replies to an ErrorEvent of the control that was delivered, in place of the default reply. Reply before you ask
    /// the control anything else.
    ///
    /// # Errors
    ///
    /// [`Cause::DiskFailed`], [`Cause::NoAnswer`].
    pub fn reply_to(&self, error: ErrorEvent, reply: ErrorReply) -> Result<(), Error> {
        // The default reply leaves what is held or waits where it is, at EL_OUTPUT and EL_INPUT_DATA. So ER_CLEAR is
        // clearOutput or clearInput after it.
        let method = match (reply, error.locus) {
            (ErrorReply::Clear, ErrorLocus::Output) => "clearOutput",
            (ErrorReply::Clear, ErrorLocus::InputData) => "clearInput",
            _ => return Ok(()),
        };
        let Err(refusal) = self.ask("reply_to", &self.line("call").word(method)) else { return Ok(()) };
        let is_gone = matches!(refusal.code(), Some(ResultCode::Closed | ResultCode::Claimed | ResultCode::NotClaimed));
        if !is_gone {
            return Err(refusal);
        }
        // A control that was closed or released meanwhile has nothing left to clear. What its printer didn't print is
        // given up all the same.
        if error.locus == ErrorLocus::Output {
            self.till.enter("reply_to")?.give_output_up(self.name.as_bytes());
        }
        Ok(())
    }

    /// Passes each event of the control to a listener, in order, until none is left. The listener's reply counts for an
    /// ErrorEvent.
    ///
    /// # Errors
    ///
    /// As [`Control::next_event`]; [`Cause::Discarded`] if the listener discards the control by its key.
    pub fn pump(&self, mut listen: impl FnMut(&Event) -> Option<ErrorReply>) -> Result<(), Error> {
        while let Some(event) = self.next_event()? {
            if let (Event::Error(error), Some(reply)) = (&event, listen(&event)) {
                self.reply_to(*error, reply)?;
            }
        }
        Ok(())
    }
}

impl Drop for Control<'_> {
    fn drop(&mut self) {
        if !self.is_kept {
            self.till.give_back(self.place);
        }
    }
}

impl fmt::Debug for Control<'_> {
    fn fmt(&self, out: &mut fmt::Formatter<'_>) -> fmt::Result {
        write!(out, "{}({:?})", self.category.word(), self.name)
    }
}

impl<T> Key<T> {
    /// Returns an error if the key is of no control of the till.
    fn check(&self, call: &'static str, till: &Till) -> Result<(), Error> {
        if self.till != till.number() {
            Err(Error::new(call, Cause::OtherTill))
        } else if till.has_turn(self.place, self.turn) {
            Ok(())
        } else {
            Err(Error::new(call, Cause::Discarded))
        }
    }

    /// Closes the control if it is open, and gives it back to its till, which may use it again for another one. Clones
    /// of the key, and controls that were found by it, are refused from then on. If a driver does this while its till
    /// is in a call, the control is closed once that has returned.
    ///
    /// # Errors
    ///
    /// [`Cause::OtherTill`], [`Cause::Discarded`].
    pub fn discard(self, till: &Till) -> Result<(), Error> {
        self.check("discard", till)?;
        till.give_back(self.place);
        Ok(())
    }
}

impl<T> Clone for Key<T> {
    fn clone(&self) -> Key<T> {
        Key { till: self.till, name: self.name.clone(), place: self.place, turn: self.turn, of: PhantomData }
    }
}

impl<T> fmt::Debug for Key<T> {
    fn fmt(&self, out: &mut fmt::Formatter<'_>) -> fmt::Result {
        write!(out, "Key({:?})", self.name)
    }
}
