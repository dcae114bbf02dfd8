//! A till for several threads.
use crate::error::{Cause, Error};
use crate::ports::{end_after, wait_for_any};
use crate::till::Till;
use std::sync::mpsc::{channel, Sender};
use std::thread::{current, Builder, JoinHandle, ThreadId};
use std::time::{Duration, Instant};

/// How long the till is left to others between two looks at its devices, unless one says something.
const SLICE: Duration = Duration::from_millis(20);

/// What the till's thread does next.
type Job = Box<dyn FnOnce(&Till) + Send>;

/// A till on a thread of its own. Each thread has a clone of the actor, and gives it work, which is done in the order
/// in which it comes. The till is dropped, and its thread ends, once all clones are dropped.
///
/// Call [`Actor::run_devices`] in a loop on one of the threads if devices have drivers. Work that called
/// [`Till::run_devices`] with a timeout would keep all other work waiting for so long.
///
/// A control is closed at the end of the work that opened it, unless the work keeps its key:
///
/// ```
/// use kijolvar::{Actor, CashDrawer, Till, Totals, BUILT_PROFILE};
///
/// let (actor, thread) = Actor::start(Till::open(BUILT_PROFILE, Totals::Memory)?)?;
/// let drawer = actor.run(|till| Ok(till.cash_drawer("d1")?.enabled()?.into_key()))?;
/// std::thread::scope(|scope| {
///     for _ in 0..4 {
///         let (actor, drawer) = (actor.clone(), drawer.clone());
///         scope.spawn(move || actor.run(move |till| CashDrawer::of(till, &drawer)?.open_drawer()));
///     }
/// });
/// actor.run(move |till| drawer.discard(till))?;
/// drop(actor);
/// thread.join().unwrap();
/// # Ok::<(), kijolvar::Error>(())
/// ```
#[derive(Debug, Clone)]
pub struct Actor {
    jobs: Sender<Job>,
    thread: ThreadId,
}

impl Actor {
    /// Moves a till to a thread of its own. Join the thread to wait until the till is dropped.
    ///
    /// # Errors
    ///
    /// [`Cause::NoMemory`] if the system gives no thread. The till is dropped then.
    pub fn start(till: Till) -> Result<(Actor, JoinHandle<()>), Error> {
        let (jobs, work) = channel::<Job>();
        let thread = Builder::new().spawn(move || {
            for job in work {
                job(&till);
            }
        });
        let thread = thread.map_err(|_| Error::new("Actor::start", Cause::NoMemory))?;
        Ok((Actor { jobs, thread: thread.thread().id() }, thread))
    }

    /// Does work on the till, waits for it, and returns what it returns.
    ///
    /// # Errors
    ///
    /// The error that the work returns; [`Cause::ActorEnded`] if work panicked, this one or an earlier one;
    /// [`Cause::InsideActor`] if the call is made by work of the actor, which has the till already.
    pub fn run<R, F>(&self, work: F) -> Result<R, Error>
    where
        R: Send + 'static,
        F: FnOnce(&Till) -> Result<R, Error> + Send + 'static,
    {
        let ended = || Error::new("Actor::run", Cause::ActorEnded);
        if current().id() == self.thread {
            return Err(Error::new("Actor::run", Cause::InsideActor));
        }
        let (give, answer) = channel();
        // Who waits no more has no use for the answer.
        let job: Job = Box::new(move |till| drop(give.send(work(till))));
        self.jobs.send(job).map_err(|_| ended())?;
        answer.recv().map_err(|_| ended())?
    }

    /// Does what the driven devices need, as [`Till::run_devices`] does, and waits as long as this until there is
    /// something to do. It looks at the devices again and again, and other threads use the till meanwhile.
    ///
    /// # Errors
    ///
    /// As [`Till::run_devices`] and [`Actor::run`].
    pub fn run_devices(&self, timeout: Duration) -> Result<bool, Error> {
        let end = end_after(timeout);
        loop {
            let (is_any, files) =
                self.run(|till| Ok((till.run_devices(Duration::ZERO)?, till.enter("run_devices")?.device_files())))?;
            if is_any {
                return Ok(true);
            }
            let left = end.saturating_duration_since(Instant::now());
            if left.is_zero() {
                return Ok(false);
            }
            // Another thread may have one of them closed meanwhile, which only ends the waiting.
            wait_for_any(&files, left.min(SLICE));
        }
    }
}
