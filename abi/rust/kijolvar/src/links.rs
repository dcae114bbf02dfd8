//! The line to a receipt printer: what is sent, what has been acknowledged, and what the printer says of itself. The
//! bytes of orders and the meaning of replies are the library's.
use crate::drivers::{DriverTill, OrderEnd};
use crate::error::{Cause, Error};
use crate::ports::{end_after, uptime, Cable, Lost, Port, ETIMEDOUT, LONGEST_WAIT, MOST_READS, QUICKLY};
use crate::wire::{Asked, PrinterReply, WireSettings};
use std::collections::VecDeque;
use std::time::{Duration, Instant, SystemTime, UNIX_EPOCH};

/// What is sent while no order is out. Zero bytes do nothing, and end a command that an earlier connection has begun.
const START: &[u8] = b"\0\0\0\0\0\0\0\0\0\0\0\0\x1b@\x1da\xff";
const ASKED_START: &[u8] = b"\0\0\0\0\0\0\0\0\0\0\0\0\x1b@\x1da\0";
const REFRESH: &[u8] = b"\x1da\xff";
/// How many bytes ask for an acknowledgement: GS ( H, or GS r.
const JOB_SIZE: usize = 11;
const QUESTION_SIZE: usize = 3;
/// How many bytes an automatic status has; and the bit of the answer to DLE EOT 2 by which printing has stopped at the
/// end of the paper.
const STATUS_SIZE: usize = 4;
const HAS_ENDED: u8 = 0x20;
/// How much goes out at once, and how much is unacknowledged at most in a line that holds bytes back: a question waits
/// behind it.
const ENOUGH: usize = 2048;
const ENOUGH_HELD: usize = 512;
/// How many pieces of an order may be due, and how many bytes of no use are kept.
const DUE_OF_JOB: usize = 32;
const MOST_KEPT: usize = 1024;
/// How often a printer is asked, and how long late answers may be apart, however short the timeout is.
const OFTEN: Duration = Duration::from_millis(100);
const APART: Duration = Duration::from_millis(500);
/// How long a printer says nothing at least when it is switched off and on again, and how long it may still acknowledge
/// a line after it has said that it stops, or has acknowledged another one.
const SILENT: Duration = Duration::from_secs(2);
const STOPPING: Duration = Duration::from_secs(1);

/// The questions of DLE EOT that are asked one after the other: the printer, why it is offline, its paper.
const QUESTIONS: [Asked; 3] = [Asked::Printer, Asked::OfflineCause, Asked::Paper];

/// A reply that tells how the printer is, and what was asked.
#[derive(Debug, Clone)]
pub(crate) struct Told {
    pub(crate) bytes: Vec<u8>,
    pub(crate) asked: Asked,
}

#[derive(Debug, Clone, Copy, PartialEq, Eq, Default)]
enum Paper {
    #[default]
    Unknown,
    Good,
    Near,
    Empty,
}

/// What a printer says of itself.
#[derive(Debug, Clone, Copy, PartialEq, Eq, Default)]
struct Signs {
    is_offline: bool,
    is_cover_open: bool,
    has_fault: bool,
    is_pin_high: bool,
    paper: Paper,
}

impl Signs {
    /// Takes over what a `status` line says.
    fn hear(&mut self, line: &str) {
        let words: Vec<&str> = line.split(' ').collect();
        for pair in words[1..].chunks(2) {
            match pair {
                ["pin", level] => self.is_pin_high = *level == "high",
                ["offline", answer] => self.is_offline = *answer == "yes",
                ["cover", state] => self.is_cover_open = *state == "open",
                ["fault", answer] => self.has_fault = *answer == "yes",
                ["paper", "good"] => self.paper = Paper::Good,
                ["paper", "near"] => self.paper = Paper::Near,
                ["paper", "empty"] => self.paper = Paper::Empty,
                _ => {}
            }
        }
    }
}

/// An order on its way to the paper, piece by piece: a line, a cut or a pulse. One without any is one empty piece, so
/// that the printer is asked. Places are in its bytes.
#[derive(Debug, Default)]
struct Job {
    number: u64,
    bytes: Vec<u8>,
    /// Up to where it was sent, and is printed as far as is known.
    sent: usize,
    done: usize,
    is_all_sent: bool,
    is_done: bool,
    /// Pieces were lost, and later ones may have been printed.
    is_torn: bool,
    /// Whether it is for the paper, where the same order mustn't be twice.
    is_once: bool,
}

/// Bytes that were sent, or are being sent, and that the printer hasn't acknowledged.
#[derive(Debug)]
struct Parcel {
    number: u16,
    /// The job, or 0, and which of its bytes they are.
    job: u64,
    from: usize,
    to: usize,
    is_last: bool,
    is_torn: bool,
    /// Whether they are for the paper.
    is_once: bool,
    /// Where they begin in all that was ever put out.
    place: u64,
}

/// What an order is: one for the paper, output that waits (AsyncMode), or a pulse for the drawer. Others may come
/// before output that has failed is tried again, so that its next order is one of its own.
#[derive(Debug, Clone, Copy, PartialEq, Eq)]
pub(crate) enum Kind {
    Paper,
    Waiting,
    Pulse,
}

/// What is waited for.
#[derive(Debug, Clone, Copy, PartialEq, Eq)]
enum Until {
    /// The order is printed or torn, or the printer has stopped.
    Printed(Kind),
    /// The order is printed, or nothing of it is due any more, or the printer has stopped.
    Settled(Kind),
    /// Nothing is due, or it is known what is lost, or the printer has stopped.
    NoneDue,
    /// That is so, or the printer has said that it can print.
    Calm,
    /// The printer that was silent has answered something, or it has stopped.
    Heard,
    /// The first status has come.
    Known,
}

/// The line to a printer, which acknowledges in order what it has printed.
///
/// Any port may stay open while the printer is off, and lose what is sent: a serial line does, and so do a cable with a
/// chip of its own and a print server. So a piece is printed only if its own acknowledgement comes. One that comes for
/// a later piece says that the earlier ones are printed or lost, and they are sent again.
///
/// A line with flow control holds back what the printer doesn't take. If the printer loses its power in the middle of a
/// piece, it gets the rest of that later, and acknowledges the piece. So after a silence the acknowledgements of what
/// was sent before it count for nothing.
#[derive(Debug)]
pub(crate) struct Link {
    pub(crate) cable: Cable,
    timeout: Duration,
    pause: Duration,
    /// Whether it says nothing by itself: it is asked. Its acknowledgements have no number.
    is_asked: bool,
    /// The devices on it, each with its settings. Its replies are read by the first one that isn't detached.
    pub(crate) devices: Vec<(String, WireSettings)>,
    is_begun: bool,
    /// The order of each kind that failed last, or is out.
    orders: [Option<Job>; 3],
    jobs: u64,
    /// When the order that is out began, and when it ends unless the printer acknowledges something before.
    began_at: Instant,
    ends_at: Instant,
    end: Vec<u8>,
    number: u16,
    due: VecDeque<Parcel>,
    /// What goes out, what of it has, and what goes out next that nothing acknowledges.
    out: Vec<u8>,
    out_sent: usize,
    put_out: u64,
    control: Vec<u8>,
    /// What has come.
    got: Vec<u8>,
    pub(crate) told: Vec<Told>,
    /// When it said that it is offline, and was online before.
    offline_at: Option<Instant>,
    signs: Signs,
    pub(crate) statuses: u64,
    pub(crate) late: u64,
    /// How many lines the orders for the paper had that were done.
    pub(crate) lines: u64,
    is_there: bool,
    was_silent: bool,
    is_refreshing: bool,
    asked_at: Option<Instant>,
    heard_at: Option<Instant>,
    /// When anybody has looked what has come, and how long the machine had run then.
    looked_at: Option<Instant>,
    looked_at_in_all: Duration,
    tried_at: Option<Instant>,
    refreshed_at: Option<Instant>,
    /// The last question, how many aren't answered, and when it was put or a late answer came.
    question: usize,
    unanswered: u32,
    questioned_at: Option<Instant>,
    /// Whether late answers come, and what was heard.
    is_late: bool,
    heard: Vec<Told>,
    hearing: Signs,
    /// Whether it has answered a question that was put after it had said that it is offline.
    is_hearing: bool,
    /// Of a printer that is asked: how many bytes of an automatic status that has begun still come.
    status_left: usize,
    /// How many rounds of questions have said that it can print since something was sent or acknowledged, or it said
    /// anything else; and since when they count.
    calm: u32,
    calm_at: Instant,
    /// How many acknowledgements without a number have come since a marker is out, how often that was put again, and
    /// when it was last.
    answers: usize,
    again: usize,
    marked_at: Option<Instant>,
}

/// Whether an order may take so long: in no time none succeeds, and each has to end.
pub(crate) fn is_timeout(time: Duration) -> bool {
    !time.is_zero() && time <= LONGEST_WAIT
}

/// Whether a time is over, which begins at an instant; it is if that never was.
pub(crate) fn is_over(since: Option<Instant>, time: Duration) -> bool {
    since.is_none_or(|since| since.elapsed() >= time)
}

/// A number of a job. A printer may still acknowledge jobs of a host that has ended, which shouldn't have the numbers
/// of these.
fn first_number() -> u16 {
    let now = SystemTime::now().duration_since(UNIX_EPOCH).unwrap_or_default();
    (now.subsec_nanos() >> 8) as u16
}

impl Link {
    pub(crate) fn new(port: Port, timeout: Duration, pause: Duration, is_asked: bool) -> Link {
        Link {
            cable: Cable::patient(port),
            timeout,
            pause,
            is_asked,
            devices: Vec::new(),
            is_begun: false,
            orders: [None, None, None],
            jobs: 0,
            began_at: Instant::now(),
            ends_at: Instant::now(),
            end: Vec::new(),
            number: first_number(),
            due: VecDeque::new(),
            out: Vec::new(),
            out_sent: 0,
            put_out: 0,
            control: Vec::new(),
            got: Vec::new(),
            told: Vec::new(),
            offline_at: None,
            signs: Signs::default(),
            statuses: 0,
            late: 0,
            lines: 0,
            is_there: false,
            was_silent: false,
            is_refreshing: false,
            asked_at: None,
            heard_at: None,
            looked_at: None,
            looked_at_in_all: Duration::ZERO,
            tried_at: None,
            refreshed_at: None,
            question: 0,
            unanswered: 0,
            questioned_at: None,
            is_late: false,
            heard: Vec::new(),
            hearing: Signs::default(),
            is_hearing: false,
            status_left: 0,
            calm: 0,
            calm_at: Instant::now(),
            answers: 0,
            again: 0,
            marked_at: None,
        }
    }

    /// Whether its settings can work: the port may be one, and its times are in their ranges.
    pub(crate) fn is_sound(&self) -> bool {
        self.cable.port.is_sound() && is_timeout(self.timeout) && self.pause <= LONGEST_WAIT
    }

    /// Whether the port is open and the printer answers.
    pub(crate) fn is_online(&self) -> bool {
        self.cable.is_open() && self.is_there
    }

    /// Whether the printer's sensors see enough paper.
    pub(crate) fn has_paper(&self) -> bool {
        self.signs.paper == Paper::Good
    }

    /// Whether they see that the paper is near its end, and that there is some.
    pub(crate) fn is_near_end(&self) -> bool {
        self.signs.paper == Paper::Near
    }

    /// Whether the printer has said last that it prints nothing now.
    fn is_offline(&self) -> bool {
        !self.told.is_empty() && self.signs.is_offline
    }

    /// Whether it has also said why. Nothing says that its paper feed button is held down.
    fn is_stopped(&self) -> bool {
        let signs = &self.signs;
        self.is_offline() && (signs.is_cover_open || signs.has_fault || signs.paper == Paper::Empty)
    }

    /// Whether the printer may be silent for long, and is still there: it takes nothing over a line that holds bytes
    /// back, and says that it goes on before it acknowledges anything. One that is asked says that only if it is asked.
    fn may_be_silent(&self) -> bool {
        self.cable.holds_back() && if self.is_asked { self.is_stopped() } else { self.is_offline() }
    }

    /// Puts what begins a connection, unless it waits already.
    fn put_start(&mut self) {
        let start = if self.is_asked { ASKED_START } else { START };
        if !self.control.ends_with(start) {
            self.control.extend_from_slice(start);
        }
    }

    fn put_refresh(&mut self) {
        if !self.is_asked {
            self.control.extend_from_slice(REFRESH);
        }
    }

    /// Whether nothing waits to go out, nor in a line that holds it back: a question behind it would only pile up.
    fn is_idle(&self) -> bool {
        self.out_sent == self.out.len() && self.control.is_empty() && !self.cable.is_holding()
    }

    /// Puts a question of DLE EOT.
    fn put_question(&mut self, question: usize) {
        (self.question, self.questioned_at) = (question, Some(Instant::now()));
        if self.unanswered == 0 && self.asked_at.is_some() {
            // Nobody can answer what wasn't asked.
            self.asked_at = self.questioned_at;
        }
        self.unanswered += 1;
        self.control.extend_from_slice(&[0x10, 0x04, QUESTIONS[question] as u8]);
    }

    /// Asks a printer how it is that says nothing by itself, or whose late answers have told nothing. A short timeout
    /// leaves an answer time, and a long one doesn't keep what the printer says now waiting.
    fn ask_on(&mut self) {
        let time = match self.unanswered {
            0 => OFTEN,
            _ if self.is_late => APART,
            _ => self.timeout.max(APART).min(SILENT),
        };
        if (self.is_asked || self.is_late) && self.is_idle() && is_over(self.questioned_at, time) {
            if std::mem::take(&mut self.is_late) {
                // The late answers that haven't come are lost.
                self.unanswered = 0;
            }
            if self.unanswered > 0 {
                self.stir();
            }
            self.put_question(0);
        }
    }

    /// What the printer has said up to now says nothing of what comes.
    fn stir(&mut self) {
        (self.calm, self.calm_at) = (0, Instant::now());
    }

    /// Asks whether the printer is there. While a question is unanswered, its time goes on.
    fn ask(&mut self) {
        self.asked_at.get_or_insert_with(Instant::now);
        if !self.is_asked || self.unanswered == 0 && self.is_idle() {
            self.put_question(0);
        } else {
            self.ask_on();
        }
    }

    // Jobs and parcels.

    /// The job of a number, if it is still known.
    fn job_of(&mut self, number: u64) -> Option<&mut Job> {
        self.orders.iter_mut().flatten().find(|job| job.number == number)
    }

    /// Whether something of a job may still be acknowledged. Acknowledgements without a number don't say of which job
    /// they are, so any that may still come counts.
    fn is_due(&self, number: u64) -> bool {
        self.due.iter().any(|parcel| self.is_asked || parcel.job == number)
    }

    /// The job of the order that is out.
    fn current(&mut self, kind: Kind) -> &mut Job {
        self.orders[kind as usize].get_or_insert_default()
    }

    /// Puts bytes and the question for their acknowledgement out.
    fn send(&mut self, bytes: &[u8], mut parcel: Parcel) {
        self.number = self.number.wrapping_add(1);
        (parcel.number, parcel.place) = (self.number, self.put_out);
        let begun = self.out.len();
        self.out.extend_from_slice(bytes);
        self.out.extend_from_slice(&self.end);
        if !self.is_asked {
            // The library's question has the number in its last four bytes, a digit of sixteen in each.
            let digits = self.out.len() - 4;
            for place in 0..4 {
                self.out[digits + place] = 0x40 | (self.number >> (12 - 4 * place) & 15) as u8;
            }
        }
        self.put_out += (self.out.len() - begun) as u64;
        self.due.push_back(parcel);
        self.stir();
    }

    /// Puts out what comes next, once nothing is left of what went out before: what nothing acknowledges, and then
    /// pieces of the order that is posted.
    fn fill(&mut self, posting: Option<Kind>) {
        if self.out_sent < self.out.len() {
            return;
        }
        self.out.clear();
        self.out_sent = 0;
        self.put_out += self.control.len() as u64;
        self.out.append(&mut self.control);
        let Some(kind) = posting else { return };
        while self.out.len() < ENOUGH && !self.current(kind).is_all_sent {
            let job = self.current(kind);
            let (number, from, to) = (job.number, job.sent, piece_end(&job.bytes, job.sent));
            if !self.may_send(number, to - from) {
                return;
            }
            let job = self.current(kind);
            let piece = job.bytes[from..to].to_vec();
            (job.sent, job.is_all_sent) = (to, to == job.bytes.len());
            let (is_last, is_once) = (job.is_all_sent, job.is_once && !job.bytes.is_empty());
            let parcel = Parcel { number: 0, job: number, from, to, is_last, is_torn: false, is_once, place: 0 };
            self.send(&piece, parcel);
        }
    }

    /// Whether the next piece of a job, which has so many bytes, may go out though others aren't acknowledged.
    fn may_send(&self, number: u64, size: usize) -> bool {
        // Answers to GS r have no number: one piece is out at a time, so that none counts for another.
        let most = if self.is_asked { 1 } else { DUE_OF_JOB };
        let count = self.due.iter().filter(|parcel| parcel.job == number).count();
        let begun = self.due.front().map_or(self.put_out, |first| first.place);
        let unacknowledged = (self.put_out - begun) as usize + size + self.end.len();
        count < most && (count == 0 || !self.cable.holds_back() || unacknowledged <= ENOUGH_HELD)
    }

    /// Takes back what hasn't begun to go out.
    fn take_back(&mut self) {
        let begun = self.put_out - (self.out.len() - self.out_sent) as u64;
        while let Some(last) = self.due.back() {
            if last.place < begun {
                return;
            }
            let (job, from, place) = (last.job, last.from, last.place);
            if let Some(job) = self.job_of(job) {
                (job.sent, job.is_all_sent) = (from, false);
            }
            self.out.truncate(self.out.len() - (self.put_out - place) as usize);
            self.put_out = place;
            self.due.pop_back();
        }
    }

    /// The parcel at this place is printed, and those before it are printed or lost. The order that is out waits for
    /// each of them, also for those of an order before it, so that it has its whole time again.
    fn acknowledge(&mut self, last: usize) {
        self.ends_at = end_after(self.timeout);
        for place in 0..=last {
            let Some(parcel) = self.due.pop_front() else { return };
            if parcel.job == 0 {
                continue;
            }
            if place < last || parcel.is_torn || self.job_of(parcel.job).is_some_and(|job| job.is_torn) {
                self.tear(parcel.job);
            } else {
                self.print(&parcel);
            }
        }
    }

    /// Whether a marker is out.
    fn is_marked(&self) -> bool {
        let begun = self.put_out - (self.out.len() - self.out_sent) as u64;
        self.due.back().is_some_and(|last| last.job == 0 && last.place < begun)
    }

    /// An acknowledgement without a number. Once a marker is out, it doesn't say which question it is for, unless each
    /// has one.
    fn acknowledge_next(&mut self) {
        self.stir();
        if !self.is_marked() {
            self.acknowledge(0);
            return;
        }
        self.answers += 1;
        self.ends_at = end_after(self.timeout.max(SILENT));
        if self.answers >= self.due.len() + self.again {
            (0..self.due.len()).for_each(|_| self.acknowledge(0));
            (self.answers, self.again) = (0, 0);
        }
    }

    /// Whether no acknowledgement is left of those that may come since a marker is out: one has come, and none behind
    /// it though the printer has said several times that it can print. The first of these rounds may have begun before.
    fn is_all_answered(&self) -> bool {
        self.answers > 0 && self.calm > 1 && self.calm_at.elapsed() >= STOPPING
    }

    /// What a parcel is of is printed.
    fn print(&mut self, parcel: &Parcel) {
        if let Some(job) = self.job_of(parcel.job) {
            job.done = job.done.max(parcel.to);
            job.is_done |= parcel.is_last;
        } else if parcel.is_last && parcel.is_once {
            self.late += 1;
        }
    }

    /// Bytes of an order were lost.
    fn tear(&mut self, number: u64) {
        if let Some(job) = self.job_of(number) {
            job.is_torn = true;
        }
        for parcel in self.due.iter_mut().filter(|parcel| parcel.job == number) {
            parcel.is_torn = true;
        }
    }

    // What comes.

    /// The printer answers, for the first time or again. It may have been off: then it says no status by itself.
    fn come_back(&mut self) {
        self.put_start();
        (self.is_there, self.was_silent) = (true, false);
    }

    /// The printer has answered something.
    fn answered(&mut self, line: &str) {
        let was_quiet = is_over(self.heard_at, self.timeout);
        self.asked_at = None;
        self.heard_at = Some(Instant::now());
        if self.was_silent || !self.is_there {
            self.come_back();
        } else if was_quiet && !line.contains(" offline yes") {
            // It may have been off for a moment, after which it says no status by itself. One that is offline would
            // keep what it is sent until it goes on.
            self.put_refresh();
        }
    }

    /// The printer is as these replies tell. While it is offline, another status doesn't make it so again.
    fn take_signs(&mut self, signs: Signs, told: Vec<Told>) {
        if !self.is_offline() {
            (self.offline_at, self.is_hearing) = (Some(Instant::now()), false);
        }
        (self.signs, self.told) = (signs, told);
        self.statuses += 1;
    }

    /// A reply of a printer that says by itself how it is. Its automatic status alone tells of pin and cover at once.
    fn take_reply(&mut self, line: &str, told: Told) {
        self.answered(line);
        if let Some(number) = line.strip_prefix("job ") {
            let number = number.parse().ok();
            if let Some(place) = self.due.iter().position(|parcel| Some(parcel.number) == number) {
                if self.was_reset() {
                    self.lose_held();
                } else {
                    self.acknowledge(place);
                }
            }
        } else if line.contains(" pin ") && line.contains(" cover ") {
            let mut signs = self.signs;
            signs.hear(line);
            self.take_signs(signs, vec![told]);
            self.is_refreshing = false;
            self.heard.clear();
        } else {
            self.take_part(line, told);
        }
    }

    /// A reply of a printer that is asked, which is a byte.
    fn take_answer(&mut self, line: &str, told: Told) {
        self.answered(line);
        if told.asked == Asked::PaperInOrder {
            self.acknowledge_next();
        } else {
            self.take_part(line, told);
        }
    }

    /// The answer to a question of DLE EOT. The three together say what an automatic status would. A printer that says
    /// by itself how it is gets the other two while it is offline: if it was switched on so, it says nothing.
    fn take_part(&mut self, line: &str, told: Told) {
        // Answers don't say what was asked. Questions are put again if they aren't answered, and may only have waited.
        self.unanswered -= 1;
        self.is_late = self.unanswered > 0;
        if self.is_late {
            self.questioned_at = Some(Instant::now());
            return;
        }
        if self.question == 0 {
            self.heard.clear();
            self.hearing = Signs::default();
            self.is_hearing |= self.questioned_at > self.offline_at;
        }
        if self.heard.len() != self.question {
            // An automatic status has come meanwhile.
            return;
        }
        let has_ended = self.hearing.paper == Paper::Empty;
        self.heard.push(told);
        self.hearing.hear(line);
        if !self.is_asked && !self.hearing.is_offline {
            if self.is_offline() && !self.control.ends_with(REFRESH) {
                // It prints again, and hasn't said so, or that is lost.
                self.put_refresh();
            }
            return;
        }
        if self.question + 1 < QUESTIONS.len() {
            self.put_question(self.question + 1);
            return;
        }
        self.compose(has_ended);
        if self.hearing.is_offline {
            self.stir();
        } else {
            self.calm += 1;
        }
    }

    /// Puts the replies to the three questions together to what an automatic status would say. The sensor tells of the
    /// paper: there may be some again where printing has stopped at its end. One that is asked may have no such sensor.
    fn compose(&mut self, has_ended: bool) {
        let mut heard = self.heard.clone();
        if has_ended && self.is_asked {
            self.hearing.paper = Paper::Empty;
            heard.pop();
        } else {
            heard[1].bytes.iter_mut().for_each(|byte| *byte &= !HAS_ENDED);
        }
        if self.told.is_empty() || self.hearing != self.signs {
            self.take_signs(self.hearing, heard);
        }
    }

    /// Reads the first reply in bytes that have come.
    fn reply(&self, till: &mut DriverTill<'_>, asked: Asked, bytes: &[u8]) -> Result<PrinterReply, Error> {
        let mut found = Err(Error::new("reply", Cause::NoDevice));
        for (device, settings) in &self.devices {
            found = till.reply(device, settings, asked, bytes);
            if !matches!(&found, Err(error) if matches!(error.cause(), Cause::NoDevice)) {
                break;
            }
        }
        found
    }

    /// A printer that is asked has sent an automatic status, although it was told to send none: it was reset. What is
    /// due may not be printed, it is told again, and questions from before may have no answer.
    fn take_status(&mut self) {
        if !self.due.is_empty() {
            self.lose_held();
        }
        (self.asked_at, self.heard_at) = (None, Some(Instant::now()));
        self.come_back();
        (self.is_late, self.questioned_at) = (self.unanswered > 0, Some(Instant::now()));
    }

    /// Whether a byte is one of an automatic status. That counts once it is whole.
    fn is_of_status(&mut self, byte: u8) -> bool {
        let (is_first, is_next) = (byte & 0x93 == 0x10, self.status_left > 0 && byte & 0x90 == 0);
        self.status_left = match (is_first, is_next) {
            (true, _) => STATUS_SIZE - 1,
            (_, true) => self.status_left - 1,
            _ => 0,
        };
        if is_next && self.status_left == 0 {
            self.take_status();
        }
        is_first || is_next
    }

    /// Whether a piece is due, and the first one has gone out whole, with its question. Nothing acknowledges it before.
    fn is_first_sent(&self) -> bool {
        let sent = self.put_out - (self.out.len() - self.out_sent) as u64;
        let size = |parcel: &Parcel| (parcel.to - parcel.from + self.end.len()) as u64;
        self.due.front().is_some_and(|first| first.place + size(first) <= sent)
    }

    /// Reads a byte as one of an automatic status, as the answer to the question that is out, or as an acknowledgement.
    /// Returns whether there was memory for that.
    fn take_byte(&mut self, till: &mut DriverTill<'_>, byte: u8) -> bool {
        if self.is_of_status(byte) {
            return true;
        }
        let question = (self.unanswered > 0).then_some(QUESTIONS[self.question]);
        let due = self.is_first_sent().then_some(Asked::PaperInOrder);
        for asked in [question, due].into_iter().flatten() {
            let reply = match self.reply(till, asked, &[byte]) {
                Ok(reply) => reply,
                Err(error) => return !matches!(error.cause(), Cause::NoMemory),
            };
            if let Some(line) = reply.lines.last() {
                self.take_answer(line, Told { bytes: vec![byte], asked });
                break;
            }
        }
        true
    }

    /// Reads the first reply in what has come, and forgets the bytes that it used. Returns whether any were used.
    fn take_first(&mut self, till: &mut DriverTill<'_>) -> bool {
        let asked = if self.unanswered > 0 { QUESTIONS[self.question] } else { Asked::Nothing };
        let Ok(reply) = self.reply(till, asked, &self.got) else { return false };
        if reply.used == 0 || reply.used > self.got.len() {
            return false;
        }
        let used: Vec<u8> = self.got.drain(..reply.used).collect();
        if let Some(line) = reply.lines.last() {
            // What isn't the reply was skipped before it.
            self.take_reply(line, Told { bytes: used[reply.skipped.min(used.len())..].to_vec(), asked });
        }
        true
    }

    /// Reads once, and returns whether anything came.
    fn read_some(&mut self, till: &mut DriverTill<'_>) -> Result<bool, Lost> {
        let mut room = [0; MOST_KEPT];
        let count = self.cable.read(&mut room)?;
        // Bytes that the library couldn't read for so long are no reply.
        if self.got.len() >= MOST_KEPT {
            self.got.clear();
        }
        self.got.extend_from_slice(&room[..count]);
        if self.is_asked {
            while self.got.first().copied().is_some_and(|byte| self.take_byte(till, byte)) {
                self.got.remove(0);
            }
        } else {
            while !self.got.is_empty() && self.take_first(till) {}
        }
        Ok(count > 0)
    }

    /// Reads what has come.
    fn receive(&mut self, till: &mut DriverTill<'_>) -> Result<(), Lost> {
        self.begin_look();
        for _ in 0..MOST_READS {
            if !(self.cable.wait(false, Duration::ZERO).reading && self.read_some(till)?) {
                break;
            }
        }
        Ok(())
    }

    /// Sends what there is room for.
    fn write_some(&mut self) -> Result<(), Lost> {
        self.out_sent += self.cable.write(&self.out[self.out_sent..])?;
        Ok(())
    }

    /// Sends what goes out without an order, as far as there is room for it now.
    fn send_control(&mut self) -> Result<(), Lost> {
        self.fill(None);
        if self.out_sent < self.out.len() && self.cable.wait(true, Duration::ZERO).writing {
            self.write_some()?;
        }
        Ok(())
    }

    fn is_reached(&self, until: Until) -> bool {
        let is_stopped = self.is_stopped();
        let job = |kind: Kind| self.orders[kind as usize].as_ref();
        match until {
            Until::Printed(kind) => is_stopped || job(kind).is_some_and(|job| job.is_done || job.is_torn),
            Until::Settled(kind) => is_stopped || job(kind).is_some_and(|job| job.is_done || !self.is_due(job.number)),
            Until::NoneDue => is_stopped || self.due.is_empty() || self.is_all_answered(),
            Until::Calm => self.calm > 0 || self.is_reached(Until::NoneDue),
            Until::Heard => is_stopped || !self.was_silent,
            Until::Known => !self.told.is_empty(),
        }
    }

    /// How long the order that is out may still take.
    fn time_left(&self) -> Duration {
        self.ends_at.saturating_duration_since(Instant::now())
    }

    /// Sends and reads until something is so, or the time is over. The order of a kind may be posted meanwhile.
    fn pump(&mut self, till: &mut DriverTill<'_>, until: Until, posting: Option<Kind>) -> Result<(), Lost> {
        while !self.is_reached(until) {
            let left = self.time_left();
            if left.is_zero() {
                // This process may have stood still. What has come meanwhile counts.
                self.receive(till)?;
                if self.time_left().is_zero() {
                    return Ok(());
                }
                continue;
            }
            self.ask_on();
            self.fill(posting);
            let ready = till.wait(&self.cable, self.out_sent < self.out.len(), left.min(OFTEN));
            self.begin_look();
            let is_any = ready.reading && self.read_some(till)?;
            self.watch(false);
            if ready.writing {
                self.write_some()?;
            } else if ready.reading && !is_any {
                till.rest(left.min(OFTEN));
            }
        }
        Ok(())
    }

    // The port.

    /// What is due counts for nothing.
    fn tear_due(&mut self) {
        let jobs: Vec<u64> = self.due.iter().map(|parcel| parcel.job).collect();
        jobs.into_iter().for_each(|job| self.tear(job));
    }

    /// What is due is lost.
    fn lose_due(&mut self) {
        for parcel in std::mem::take(&mut self.due) {
            if let Some(job) = self.job_of(parcel.job) {
                job.is_torn = true;
            }
        }
        (self.answers, self.again) = (0, 0);
    }

    /// Whether the printer has said nothing for a time.
    fn is_quiet(&self, time: Duration) -> bool {
        is_over(self.heard_at.max(Some(self.began_at)), time)
    }

    /// Whether a line may hold back a part of what is due for a printer that should say something. One that is asked
    /// may also be off and on again after it has told why it is offline, and then doesn't say so.
    fn is_held(&self) -> bool {
        self.is_any_due() && self.cable.holds_back() && (self.is_asked || !self.may_be_silent())
    }

    /// Whether something of any order is due, and counts.
    fn is_any_due(&self) -> bool {
        self.due.iter().any(|parcel| parcel.job != 0 && !parcel.is_torn)
    }

    /// Looks whether the printer has fallen silent while a line may hold something of a job back for it. It is asked
    /// before that counts as lost, and has time to answer, also if nobody has looked for long. At the end of an order
    /// that time is over.
    fn watch(&mut self, is_end: bool) {
        let longest = self.timeout.min(SILENT);
        if !self.is_held() || !self.is_quiet(longest / 2) {
            return;
        }
        let had_time = self.asked_at.is_some_and(|asked_at| asked_at.elapsed() >= longest / 2);
        if is_end || had_time && self.is_quiet(longest) {
            self.lose_held();
        } else if self.asked_at.is_none() {
            self.ask();
        }
    }

    /// Whether the printer may have been off since anybody looked, so that what it has acknowledged since is no whole
    /// line.
    fn may_have_been_off(&self) -> bool {
        if !(self.is_online() && self.is_held()) {
            return false;
        }
        let was_long = self.is_quiet(SILENT) && is_over(self.looked_at, self.timeout.min(SILENT) / 2);
        was_long || uptime().saturating_sub(self.looked_at_in_all) >= SILENT
    }

    /// Somebody looks what has come. If nobody has for long, as while this process stood still or the machine was
    /// suspended, the printer may have been off meanwhile.
    fn begin_look(&mut self) {
        if self.may_have_been_off() {
            self.lose_held();
        }
        (self.looked_at, self.looked_at_in_all) = (Some(Instant::now()), uptime());
    }

    /// Whether the printer was switched off and on again since it said that it is offline: it would have said by itself
    /// that it goes on before it acknowledged anything.
    fn was_reset(&self) -> bool {
        self.may_be_silent() && is_over(self.offline_at, STOPPING)
    }

    /// The printer may have lost its power, and a line holds back the rest of what is due, which the printer may still
    /// get and acknowledge. It is asked again whether it is there.
    fn lose_held(&mut self) {
        self.cable.discard();
        self.clear_out();
        if self.is_asked {
            // Acknowledgements without a number may still come, and mustn't count for anything else.
            self.tear_due();
        } else {
            self.lose_due();
        }
        self.was_silent = true;
        (self.asked_at, self.questioned_at) = (None, None);
        self.ask();
    }

    /// Nothing goes out any more of what was put out.
    fn clear_out(&mut self) {
        self.take_back();
        self.out.clear();
        self.out_sent = 0;
    }

    fn forget(&mut self) {
        self.clear_out();
        self.control.clear();
        self.got.clear();
        (self.is_there, self.was_silent, self.is_refreshing) = (false, false, false);
        self.asked_at = None;
        self.told.clear();
        (self.signs, self.hearing) = (Signs::default(), Signs::default());
        (self.is_late, self.questioned_at) = (false, None);
        if !matches!(self.cable.port, Port::Tcp(..)) {
            // A print server may pass the answers to an earlier connection on to this one.
            self.unanswered = 0;
        }
        self.status_left = 0;
        if self.is_asked {
            // Acknowledgements without a number may still come over another connection, and mustn't count for what is
            // sent over that. A marker of its own finds out which are lost.
            self.tear_due();
            self.stir();
            (self.answers, self.marked_at) = (0, None);
        }
    }

    /// The port was lost, with what wasn't sent. What was sent may still be acknowledged over the next one. What had
    /// come before a write failed counts, unless the port has kept back what it is about.
    fn lose(&mut self, till: &mut DriverTill<'_>) {
        let fault = self.cable.fault;
        if self.cable.is_open() && !self.cable.holds_back() {
            let _ = self.receive(till);
        }
        self.cable.fault = fault;
        self.cable.close();
        self.forget();
    }

    fn connect(&mut self, time: Duration) {
        let is_open = self.cable.open(time);
        self.tried_at = Some(Instant::now());
        if is_open {
            self.forget();
            self.put_start();
            self.ask();
        }
    }

    /// Opens the port, and waits for the printer's first status as long as for an order; unless that was done already.
    pub(crate) fn start(&mut self, till: &mut DriverTill<'_>) {
        if std::mem::replace(&mut self.is_begun, true) {
            return;
        }
        self.ends_at = end_after(self.timeout);
        self.connect(self.timeout);
        if self.cable.is_open() && self.pump(till, Until::Known, None).is_err() {
            self.lose(till);
        }
    }

    /// How long a printer may say nothing before it is asked. One that can't print, or isn't there, as far as is known,
    /// may be well again, and what it has said of that be lost: that doesn't wait for a long timeout.
    fn longest_quiet(&self) -> Duration {
        if self.is_there && !self.is_offline() {
            self.timeout
        } else {
            self.timeout.min(SILENT)
        }
    }

    /// Asks a printer that has said nothing for a time, and one that says that it can't print, for more. One on a
    /// network that doesn't answer is lost, unless something is due: the system might find that much later. One that
    /// may be silent is asked again, too, since it may have been off meanwhile, where the question was lost. It is off
    /// if it has answered before, though it was offline.
    fn look_after(&mut self) -> Result<(), Lost> {
        // As long as late answers come, no question is put.
        let paused = self.questioned_at.filter(|_| self.is_late).map(|at| at + APART);
        let is_silent = self.asked_at.is_some_and(|at| paused.map_or(at, |end| end.max(at)).elapsed() > self.timeout);
        if is_silent && (self.is_hearing || !self.may_be_silent()) {
            if self.cable.holds_back() && self.is_any_due() {
                self.lose_held();
            }
            self.cable.resume();
            self.is_there = false;
            self.told.clear();
            self.signs = Signs::default();
            let has_order = if self.is_asked { self.is_any_due() } else { !self.due.is_empty() };
            if matches!(self.cable.port, Port::Tcp(..)) && !has_order {
                self.cable.fault = Some(ETIMEDOUT);
                return Err(Lost);
            }
        }
        let most = self.longest_quiet();
        let is_heard = self.is_there && !self.was_silent && !is_over(self.heard_at, most);
        let is_lost = !self.is_asked && is_over(self.questioned_at, most);
        if !is_heard && !self.is_late && (self.asked_at.is_none() || is_silent || is_lost) {
            if self.is_idle() {
                if is_silent {
                    self.asked_at = None;
                }
                self.ask();
            } else if self.unanswered > 0 && self.cable.is_holding() {
                // A question that waits in the line already counts from now on.
                self.asked_at.get_or_insert_with(Instant::now);
            }
        }
        if self.is_stopped() && !self.is_refreshing && is_over(self.refreshed_at, self.pause) && self.is_idle() {
            self.is_refreshing = true;
            self.refreshed_at = Some(Instant::now());
            self.put_refresh();
        }
        self.ask_on();
        Ok(())
    }

    fn look(&mut self, till: &mut DriverTill<'_>) -> Result<(), Lost> {
        self.receive(till)?;
        self.watch(false);
        self.look_after()?;
        self.send_control()
    }

    /// Reads what has come and sends what is left, without waiting. A port that was lost is opened again.
    pub(crate) fn poll(&mut self, till: &mut DriverTill<'_>) {
        if !self.cable.is_open() {
            if self.cable.is_opening() || is_over(self.tried_at, self.pause) {
                self.connect(self.timeout.min(QUICKLY));
            }
        } else if self.look(till).is_err() {
            self.lose(till);
        }
    }

    // Orders.

    /// Waits for acknowledgements that are late, if they have no number, and finds out which are lost, by a marker. The
    /// printer does nothing between what is due and that, so that it answers both together, however late: if one answer
    /// comes alone, the other is lost. That doesn't depend on the timeout.
    fn give_up(&mut self, till: &mut DriverTill<'_>) -> Result<(), Lost> {
        if !self.is_asked || self.due.is_empty() {
            return Ok(());
        }
        if self.answers > 0 {
            // Nobody may have looked for long.
            self.stir();
            self.ends_at = self.ends_at.max(end_after(SILENT));
        }
        self.pump(till, Until::Calm, None)?;
        if self.calm > 0 && !self.is_reached(Until::NoneDue) {
            self.put_marker();
        }
        self.pump(till, Until::NoneDue, None)?;
        if !self.due.is_empty() && self.is_all_answered() {
            self.lose_due();
            self.ends_at = end_after(self.timeout);
        }
        Ok(())
    }

    fn new_job(&mut self, bytes: Vec<u8>, is_once: bool) -> Job {
        self.jobs += 1;
        Job { number: self.jobs, bytes, is_once, ..Job::default() }
    }

    /// Asks once more in place of a marker that isn't answered and may be lost. Its answer may come all the same, so
    /// that it is counted.
    fn put_marker_again(&mut self) {
        if self.calm > 0 && is_over(self.marked_at, self.timeout.max(SILENT)) && self.is_idle() {
            self.control.extend_from_slice(&self.end);
            self.again += 1;
            self.marked_at = Some(Instant::now());
            self.stir();
        }
    }

    /// Asks for an acknowledgement of all that was sent before.
    fn put_marker(&mut self) {
        if self.due.back().is_some_and(|last| last.job == 0) {
            // Answers without a number are counted: that of the last one comes, and serves again.
            if self.is_asked {
                self.put_marker_again();
                return;
            }
            // One that nobody has answered yet is of no use any more.
            self.due.pop_back();
        }
        self.marked_at = Some(Instant::now());
        let parcel =
            Parcel { number: 0, job: 0, from: 0, to: 0, is_last: false, is_torn: false, is_once: false, place: 0 };
        self.send(&[], parcel);
    }

    /// The number of the order of these bytes that has failed, which is in its place then.
    fn find_failed(&mut self, bytes: &[u8], kind: Kind) -> Option<u64> {
        let other = if kind == Kind::Paper { Kind::Waiting } else { Kind::Paper };
        let number = |order: &Option<Job>| order.as_ref().filter(|job| job.bytes == bytes).map(|job| job.number);
        if let Some(found) = number(&self.orders[kind as usize]) {
            return Some(found);
        }
        self.forget_order(kind);
        let found = number(&self.orders[other as usize])?;
        self.orders.swap(kind as usize, other as usize);
        Some(found)
    }

    /// Takes up the order that is out: the one that failed if it is the same, where that one has come to.
    fn take_up(&mut self, till: &mut DriverTill<'_>, bytes: Vec<u8>, kind: Kind) -> Result<(), Lost> {
        self.give_up(till)?;
        let failed = if kind == Kind::Pulse { None } else { self.find_failed(&bytes, kind) };
        let Some(number) = failed else {
            self.orders[kind as usize] = Some(self.new_job(bytes, kind != Kind::Pulse));
            return Ok(());
        };
        if self.is_due(number) {
            // What was sent before is printed or lost once this is acknowledged.
            self.put_marker();
            self.pump(till, Until::Settled(kind), None)?;
        }
        if !self.is_due(number) {
            if self.current(kind).sent > self.current(kind).done {
                // Some of it was lost, and the printer may have begun a line.
                self.put_start();
            }
            let job = self.current(kind);
            (job.sent, job.is_all_sent, job.is_torn) = (job.done, job.is_done, false);
        }
        Ok(())
    }

    /// Sends the order, as far as it wasn't. The printer may have fallen silent since that was found out.
    fn post(&mut self, till: &mut DriverTill<'_>, kind: Kind) -> Result<(), Lost> {
        let (number, is_done) = (self.current(kind).number, self.current(kind).is_done);
        let is_hindered = self.is_stopped() || self.is_doubtful() || self.is_due(number);
        if is_done || is_hindered || Instant::now() >= self.ends_at {
            return Ok(());
        }
        self.fill(Some(kind));
        if self.out_sent < self.out.len() {
            self.write_some()?;
        }
        self.pump(till, Until::Printed(kind), Some(kind))
    }

    /// Whether a printer is silent for which a line would hold an order back.
    fn is_doubtful(&self) -> bool {
        self.cable.holds_back() && self.was_silent
    }

    /// Waits until such a printer answers.
    fn await_answer(&mut self, till: &mut DriverTill<'_>) -> Result<(), Lost> {
        if !self.is_doubtful() {
            return Ok(());
        }
        // What was asked before may be lost.
        self.ask();
        self.pump(till, Until::Heard, None)
    }

    /// Takes the next order as a new one, though it is the same as the one that failed. If that was printed after it
    /// had failed, nobody has asked for it again.
    pub(crate) fn forget_failed(&mut self) {
        self.forget_order(Kind::Paper);
        self.forget_order(Kind::Waiting);
    }

    fn forget_order(&mut self, kind: Kind) {
        let failed = self.orders[kind as usize].take();
        self.late += u64::from(failed.is_some_and(|job| job.is_done && !job.bytes.is_empty()));
    }

    /// Sends the order that is out, and returns whether the printer acknowledged it, each piece of it within the
    /// timeout. If an order failed and the next one is the same, it goes on with what isn't acknowledged, unless it
    /// is a pulse. Output that waits has a next one of its own.
    pub(crate) fn carry_out(&mut self, till: &mut DriverTill<'_>, settings: &WireSettings, kind: Kind) -> bool {
        if self.may_have_been_off() {
            self.lose_held();
        }
        (self.began_at, self.ends_at) = (Instant::now(), end_after(self.timeout));
        let size = if self.is_asked { QUESTION_SIZE } else { JOB_SIZE };
        let asked = if self.is_asked { OrderEnd::Paper } else { OrderEnd::Job(0) };
        if !self.is_online() {
            return false;
        }
        let Ok(mut bytes) = till.order_bytes(settings, false, asked) else { return false };
        if bytes.len() < size {
            return false;
        }
        self.end = bytes.split_off(bytes.len() - size);
        // What puts nothing on the paper, such as a text without a line's end, gives up no order that failed.
        let kind = if bytes.is_empty() { Kind::Pulse } else { kind };
        let done = self
            .receive(till)
            .and_then(|()| self.await_answer(till))
            .and_then(|()| self.take_up(till, bytes, kind))
            .and_then(|()| self.post(till, kind));
        if done.is_err() {
            self.lose(till);
            return false;
        }
        if self.current(kind).is_done {
            if kind != Kind::Pulse {
                self.lines += self.current(kind).bytes.iter().filter(|byte| **byte == b'\n').count() as u64;
                self.orders[kind as usize] = None;
            }
            return true;
        }
        self.take_back();
        self.watch(true);
        // The next look asks. What is asked now may be lost, and that look may come long after the printer is back.
        self.was_silent |= !self.is_stopped();
        false
    }
}

/// Where the piece of an order ends that begins here: behind a line feed, a pulse, a feed or a cut.
fn piece_end(bytes: &[u8], mut at: usize) -> usize {
    while at < bytes.len() {
        let byte = |place: usize| bytes.get(at + place).copied();
        let (size, is_end) = match (bytes[at], byte(1)) {
            (b'\n', _) => (1, true),
            (0x1b, Some(b'p')) => (5, true),
            (0x1b, Some(b'd')) => (3, true),
            (0x1b, _) => (3, false),
            (0x1d, _) => (if matches!(byte(2), Some(b'A' | b'B')) { 4 } else { 3 }, true),
            _ => (1, false),
        };
        at += size;
        if is_end {
            break;
        }
    }
    at.min(bytes.len())
}

#[cfg(test)]
mod tests {
    use super::piece_end;

    #[test]
    fn pieces_end_behind_their_commands() {
        let order = b"\x1ba\x0aOne\n\x1ba\x02\x1bE\x01T\x1bE\0wo\n\x1dVA\n\x1bp\0\n\n\x1bd\n\x1dV\0rest";
        let (mut ends, mut at) = (Vec::new(), 0);
        while at < order.len() {
            at = piece_end(order, at);
            ends.push(at);
        }
        assert_eq!(ends, [7, 20, 24, 29, 32, 35, 39]);
        assert_eq!(piece_end(b"\x1b", 0), 1);
    }
}
