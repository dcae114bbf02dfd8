//! Transactions of Hard Totals that end in any case.
use crate::control::Control;
use crate::controls::HardTotals;
use crate::error::{Cause, Error};
use crate::line::Answer;
use crate::property::Property;

/// A transaction that is rolled back when this is dropped.
struct Open<'t, 'till>(&'t HardTotals<'till>);

impl Drop for Open<'_, '_> {
    fn drop(&mut self) {
        // Without memory it is due, and the control's next call fails if there is still none.
        let _ = end_transaction(self.0);
    }
}

/// Rolls a control's transaction back, if it is in one. A control that is disabled is enabled for that.
fn roll_back(control: &Control<'_>) -> Result<(), Error> {
    if !control.property(Property::TransactionInProgress)?.truth()? {
        return Ok(());
    }
    let was_enabled = control.device_enabled()?;
    if !was_enabled {
        control.set_device_enabled(true)?;
    }
    let done = control.ask("rollback", &control.line("call").word("rollback")).and_then(Answer::nothing);
    if !was_enabled {
        control.set_device_enabled(false)?;
    }
    done
}

/// Ends a control's transaction, if it is in one. Without memory, or while its till is in a call, this is due before
/// the control's next call.
pub(crate) fn end_transaction(control: &Control<'_>) -> Result<(), Cause> {
    let Err(error) = roll_back(control) else { return Ok(()) };
    let cause = match error.into_cause() {
        Cause::InCall => Cause::InCall,
        Cause::NoMemory | Cause::NoAnswer => Cause::NoMemory,
        // It is refused if there is none: the control was closed or discarded. A till whose disk failed is over.
        _ => return Ok(()),
    };
    control.set_rollback_due(true);
    Err(cause)
}

impl HardTotals<'_> {
    /// Begins a transaction, does work in it, commits what the work wrote, and returns what it returned. If the work
    /// fails or panics, or the commit is refused, the transaction is rolled back, and the totals are as they were. This
    /// is so too if the work has disabled the control. If there is no memory for the rollback, the control's next call
    /// begins with it. If the disk fails ([`Cause::DiskFailed`]), the totals have all that was written, or nothing.
    ///
    /// The work may fail by an error of your own, to which an [`Error`] can be converted.
    ///
    /// # Errors
    ///
    /// As [`HardTotals::begin_trans`] and [`HardTotals::commit_trans`], and the error that the work returns.
    ///
    /// ```
    /// # use kijolvar::{Error, Till, Totals, BUILT_PROFILE};
    /// # let till = Till::open(BUILT_PROFILE, Totals::Memory)?;
    /// let totals = till.hard_totals("t1")?.enabled()?;
    /// let (sales, count) = (totals.create("SALES", 8, false)?, totals.create("COUNT", 8, false)?);
    /// totals.transaction(|totals| {
    ///     totals.write(sales, 0, 450u64.to_be_bytes())?;
    ///     totals.write(count, 0, 1u64.to_be_bytes())
    /// })?;
    /// assert_eq!(totals.read(count, 7, 1)?, [1]);
    /// # Ok::<(), Error>(())
    /// ```
    pub fn transaction<R, E: From<Error>>(&self, work: impl FnOnce(&Self) -> Result<R, E>) -> Result<R, E> {
        // If there is no memory for the answer, one may have begun.
        let open = (!self.transaction_in_progress()?).then(|| Open(self));
        self.begin_trans()?;
        let found = work(self)?;
        self.commit_trans()?;
        std::mem::forget(open);
        Ok(found)
    }
}
