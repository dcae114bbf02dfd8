//! What a till does: files of totals, errors, replies, keys, controls that are handed out again, threads, and drivers.
use kijolvar::standard::{Category, DrawerStatus, ScrollDirection, State, PTR_CP_FULLCUT};
use kijolvar::standard::{DisplayAttribute, ErrorLocus, ErrorReply, ExtendedCode, PrinterStation, ResultCode};
use kijolvar::standard::{PowerNotify, PowerStatus};
use kijolvar::{backup, check, devices, files, migrate, StatusUpdate, Till, Totals, Value, Work, BUILT_PROFILE};
use kijolvar::{Actor, Asked, CashDrawer, Cause, Error, Event, Events, HardTotals, Order, PosPrinter};
use kijolvar::{DisplaySettings, Driver, DriverTill, EscPosPrinter, EscPosSettings, Port, Scan, SerialDisplay};
use kijolvar::{ErrorEvent, Key};
use kijolvar::{Property, Scanner, SerialSettings, WedgeScanner, WireSettings};
use std::cell::RefCell;
use std::fs::File;
use std::io::{ErrorKind, Read, Write};
use std::net::TcpListener;
use std::os::fd::{AsRawFd, RawFd};
use std::os::unix::fs::MetadataExt;
use std::os::unix::net::UnixStream;
use std::panic::{catch_unwind, AssertUnwindSafe};
use std::path::PathBuf;
use std::sync::atomic::{AtomicBool, AtomicU32, Ordering};
use std::sync::mpsc::{channel, Sender};
use std::sync::Arc;
use std::thread::spawn;
use std::time::{Duration, Instant};

fn till() -> Till {
    Till::open(BUILT_PROFILE, Totals::Memory).unwrap()
}

/// A path in a folder of its own, which is removed at the end.
struct Place(PathBuf);

impl Place {
    fn new(name: &str) -> Place {
        let folder = std::env::temp_dir().join(format!("kijolvar-{}-{name}", std::process::id()));
        std::fs::create_dir_all(&folder).unwrap();
        Place(folder)
    }

    fn file(&self) -> PathBuf {
        self.0.join("totals")
    }
}

impl Drop for Place {
    fn drop(&mut self) {
        let _ = std::fs::remove_dir_all(&self.0);
    }
}

fn system_kind(error: &Error) -> Option<ErrorKind> {
    match error.cause() {
        Cause::System(cause) => Some(cause.kind()),
        _ => None,
    }
}

#[test]
fn errors_go_anywhere() {
    fn goes<T: std::error::Error + Send + Sync + 'static>() {}
    fn moves<T: Send>() {}
    fn is_shown<T: std::fmt::Debug>() {}
    goes::<Error>();
    is_shown::<(Till, Actor, DriverTill<'_>, Events<'_, Event>, PosPrinter<'_>, EscPosPrinter)>();
    moves::<Till>();
    moves::<Actor>();
    moves::<kijolvar::Key<CashDrawer<'static>>>();
}

#[test]
fn an_empty_profile_has_no_devices() {
    let place = Place::new("none");
    assert_eq!(devices("").unwrap(), []);
    for totals in [Totals::Memory, Totals::create_new(place.file())] {
        let till = Till::open("", totals).unwrap();
        assert_eq!(till.cash_drawer("d1").err().and_then(|fault| fault.code()), Some(ResultCode::NoExist));
    }
}

#[test]
fn the_built_profile_has_its_text() {
    // With a line feed more it is a text as any other.
    let text = format!("{BUILT_PROFILE}\n");
    assert_eq!(devices(&text).unwrap(), devices(BUILT_PROFILE).unwrap());
    let said = |profile: &str| {
        let till = Till::open(profile, Totals::Memory).unwrap();
        let mut lines = String::from("new r POSPrinter\nopen r r1\nclaim r 0\nset r DeviceEnabled true\n");
        for _ in 0..6 {
            lines += "get r RecNearEnd\ncall r printNormal 2 610a\n";
        }
        till.carry_out(&(lines + "detach d1\nattach d1 2\nattach d1 1\nshow p1\nshow r1\n")).unwrap()
    };
    assert_eq!(said(&text), said(BUILT_PROFILE));
}

#[test]
fn totals_stay_in_their_file() {
    let place = Place::new("stay");
    let missing = Till::open(BUILT_PROFILE, Totals::existing(place.file())).unwrap_err();
    assert_eq!(system_kind(&missing), Some(ErrorKind::NotFound));
    assert!(missing.to_string().starts_with("Till::open: the file of the totals isn't there; "), "{missing}");
    let unnamed = Till::open(BUILT_PROFILE, Totals::create("/proc/totals")).unwrap_err();
    assert_eq!(system_kind(&unnamed), Some(ErrorKind::Unsupported));
    assert!(unnamed.to_string().ends_with("by pos_console format --disk FILE"), "{unnamed}");
    let refused = Till::open("nonsense", Totals::create(place.file())).unwrap_err();
    let Cause::BadProfile(mistake) = refused.cause() else { panic!("{refused}") };
    assert!(mistake.reason.starts_with("not TOML: ") && mistake.place == Some((1, 9)), "{mistake}");
    assert!(!place.file().exists());
    for round in 1..=3u8 {
        let till = Till::open(BUILT_PROFILE, Totals::create(place.file())).unwrap();
        let in_use = Till::open(BUILT_PROFILE, Totals::existing(place.file())).unwrap_err();
        assert_eq!(system_kind(&in_use), Some(ErrorKind::WouldBlock));
        let taken = Till::open(BUILT_PROFILE, Totals::create_new(place.file())).unwrap_err();
        assert_eq!(system_kind(&taken), Some(ErrorKind::AlreadyExists));
        assert_eq!(taken.to_string(), "Till::open: the file of the totals is there already");
        let totals = till.hard_totals("t1").unwrap().enabled().unwrap();
        let handle = if round == 1 { totals.create("DAY", 1, false).unwrap() } else { totals.find("DAY").unwrap().0 };
        assert_eq!(totals.read(handle, 0, 1).unwrap(), [round - 1]);
        totals.begin_trans().unwrap();
        totals.write(handle, 0, [99]).unwrap();
        totals.rollback().unwrap();
        totals.write(handle, 0, [round]).unwrap();
    }
    std::fs::write(place.file(), "short").unwrap();
    let short = Till::open(BUILT_PROFILE, Totals::existing(place.file())).unwrap_err();
    assert!(matches!(short.cause(), Cause::TooSmall));
    a_forked_process_writes_nothing();
    a_lock_ends_with_its_call_or_till();
}

fn a_forked_process_writes_nothing() {
    let place = Place::new("forked");
    let till = Till::open(BUILT_PROFILE, Totals::create(place.file())).unwrap();
    let totals = till.hard_totals("t1").unwrap().enabled().unwrap();
    let day = totals.create("DAY", 1, false).unwrap();
    let bytes = || std::fs::read(place.file()).unwrap_or_default();
    let before = bytes();
    assert!(system::is_so_forked(|| {
        let failed = totals.write(day, 0, [7]).is_err_and(|error| {
            let Cause::DiskFailed(Some(fault)) = error.cause() else { return false };
            let said = error.to_string();
            said.starts_with("write: the totals file failed (another process has opened the till): close the till; ")
                && said.ends_with("read docs/reference/trouble.md, \"After a failed sync\"")
                && fault.to_string() == "another process has opened the till"
        });
        let fails = totals.write(day, 0, [8]).is_err_and(|error| matches!(error.cause(), Cause::DiskFailed(None)));
        // SAFETY: the process ends before it would drop them again.
        unsafe {
            drop(std::ptr::read(&totals));
            drop(std::ptr::read(&till));
        }
        failed && fails && bytes() == before
    }));
    let in_use = Till::open(BUILT_PROFILE, Totals::existing(place.file())).unwrap_err();
    assert_eq!(system_kind(&in_use), Some(ErrorKind::WouldBlock));
    totals.write(day, 0, [9]).unwrap();
    drop(totals);
    drop(till);
    let till = Till::open(BUILT_PROFILE, Totals::existing(place.file())).unwrap();
    assert_eq!(till.hard_totals("t1").unwrap().enabled().unwrap().read(day, 0, 1).unwrap(), [9]);
    let till = self::till();
    let totals = till.hard_totals("t1").unwrap().enabled().unwrap();
    assert!(system::is_so_forked(|| totals.create("DAY", 1, false).is_ok()));
    totals.create("DAY", 1, false).unwrap();
}

#[test]
fn a_path_with_a_slash_behind_it_names_no_file() {
    let place = Place::new("slash");
    for end in ["", "."] {
        let refused = Till::open(BUILT_PROFILE, Totals::create(place.file().join(end))).unwrap_err();
        assert_eq!(system_kind(&refused), Some(ErrorKind::NotFound));
        assert!(!place.file().exists());
    }
}

#[test]
fn a_device_is_as_long_as_it_can_be_read() {
    // It doesn't say how long it is, and its bytes are all 0.
    drop(Till::open(BUILT_PROFILE, Totals::existing("/dev/zero")).unwrap());
    assert!(matches!(migrate("/dev/zero").unwrap_err().cause(), Cause::Unformatted));
}

#[test]
fn a_line_in_place_of_totals_is_not_waited_for_and_becomes_no_terminal() {
    let (_device, path) = system::terminal();
    assert!(system::is_so_forked(|| {
        system::leave_terminal();
        let refused = Till::open(BUILT_PROFILE, Totals::existing(&path));
        refused.is_err_and(|error| system_kind(&error) == Some(ErrorKind::NotSeekable)) && !system::has_terminal()
    }));
    let place = Place::new("unwaited");
    drop(Till::open(BUILT_PROFILE, Totals::create(place.file())).unwrap());
    let _till = Till::open(BUILT_PROFILE, Totals::existing(place.file())).unwrap();
    assert_eq!(system::waits_at(&place.file()), Some(false));
}

#[test]
fn a_new_file_has_all_its_room() {
    let place = Place::new("room");
    drop(Till::open(BUILT_PROFILE, Totals::create(place.file())).unwrap());
    let file = std::fs::metadata(place.file()).unwrap();
    assert!(file.blocks() * 512 >= file.len(), "{} blocks of {} bytes", file.blocks(), file.len());
}

fn a_lock_ends_with_its_call_or_till() {
    let place = Place::new("lock");
    system::with_lingering(|| {
        let taken = Till::open(BUILT_PROFILE, Totals::create_new(place.file())).unwrap();
        assert_eq!(system_kind(&check(place.file()).unwrap_err()), Some(ErrorKind::WouldBlock));
        drop(taken);
        check(place.file()).unwrap();
        migrate(place.file()).unwrap();
        assert!(matches!(migrate(place.file()).unwrap_err().cause(), Cause::Moved));
        let refused = Till::open("nonsense", Totals::existing(place.file())).unwrap_err();
        assert!(matches!(refused.cause(), Cause::BadProfile(_)));
        let till = Till::open(BUILT_PROFILE, Totals::existing(place.file())).unwrap();
        assert!(system::is_so_forked(|| {
            // SAFETY: the process ends before it would drop it again.
            unsafe { drop(std::ptr::read(&till)) };
            true
        }));
        let in_use = Till::open(BUILT_PROFILE, Totals::existing(place.file())).unwrap_err();
        assert_eq!(system_kind(&in_use), Some(ErrorKind::WouldBlock));
    });
}

#[test]
fn a_file_is_copied_while_a_till_has_it() {
    let place = Place::new("copied");
    let (copy, part) = (place.file().with_extension("copy"), place.file().with_extension("copy.part"));
    let kind = |done: Result<(), Error>| system_kind(&done.unwrap_err());
    assert_eq!(kind(backup(place.file(), &copy)), Some(ErrorKind::NotFound));
    let till = Till::open(BUILT_PROFILE, Totals::create_new(place.file())).unwrap();
    let totals = till.hard_totals("t1").unwrap().enabled().unwrap();
    let handle = totals.create("DAY", 2, false).unwrap();
    totals.write(handle, 0, [1, 0xff]).unwrap();
    backup(place.file(), &copy).unwrap();
    assert_eq!(std::fs::read(&copy).unwrap(), std::fs::read(place.file()).unwrap());
    assert_eq!(std::fs::metadata(&copy).unwrap().mode() & 0o777, 0o600);
    totals.write(handle, 0, [2, 0]).unwrap();
    assert_eq!(kind(backup(place.file(), &copy)), Some(ErrorKind::AlreadyExists));
    assert_eq!(files(&copy).unwrap().files, [(b"DAY".to_vec(), vec![1, 0xff])]);
    std::fs::remove_file(&copy).unwrap();
    // A crash has left it.
    std::fs::write(&part, "").unwrap();
    let error = backup(place.file(), &copy).unwrap_err();
    assert_eq!(system_kind(&error), Some(ErrorKind::AlreadyExists));
    assert!(error.to_string().contains("with .part at its end: remove that"), "{error}");
    std::fs::remove_file(&part).unwrap();
    assert_eq!(kind(backup(place.file(), "/nowhere/at/all")), Some(ErrorKind::NotFound));
    drop(totals);
    drop(till);
    let mut bytes = std::fs::read(place.file()).unwrap();
    let slot = files(place.file()).unwrap().slot as usize;
    bytes[slot + 9..slot + 17].fill(0xff);
    for (found, is_wanted) in [
        (bytes, (|cause| matches!(cause, Cause::Damaged(Some(_)))) as fn(&Cause) -> bool),
        (vec![0; 327_680], |cause| matches!(cause, Cause::Unformatted)),
        (b"short".to_vec(), |cause| matches!(cause, Cause::TooSmall)),
    ] {
        std::fs::write(place.file(), found).unwrap();
        let error = backup(place.file(), &copy).unwrap_err();
        assert!(is_wanted(error.cause()), "{error}");
    }
    assert!(!copy.exists() && !part.exists());
}

/// As on a FAT stick: an empty file takes the name of a copy first, and is replaced.
#[test]
fn a_file_is_copied_where_a_file_has_one_name() {
    let [eperm, eio, eacces, enospc, enosys, eopnotsupp] = [1, 5, 13, 28, 38, 95];
    let (place, stick) = (Place::new("linked"), Place::new("stick"));
    let (copy, folder) = (stick.file(), std::fs::canonicalize(&stick.0).unwrap());
    let names = || -> Vec<_> { std::fs::read_dir(&stick.0).unwrap().map(|found| found.unwrap().file_name()).collect() };
    let backs_up = || backup(place.file(), &copy);
    drop(Till::open(BUILT_PROFILE, Totals::create_new(place.file())).unwrap());
    for fault in [eperm, eacces, eopnotsupp, enosys] {
        let ((done, synced), renamed) = system::with_name_faults(fault, 0, || system::with_sync_fault(0, backs_up));
        done.unwrap();
        // It is synced before it replaces an empty file, and its folder after that.
        assert_eq!((renamed, synced), (vec![(1, Some(0))], vec![folder.join("totals.part"), folder.clone()]));
        assert!(std::fs::read(&copy).unwrap() == std::fs::read(place.file()).unwrap());
        assert_eq!((std::fs::metadata(&copy).unwrap().mode() & 0o777, names()), (0o600, vec!["totals".into()]));
        std::fs::write(&copy, "kept").unwrap();
        let (refused, renamed) = system::with_name_faults(fault, 0, || backs_up().unwrap_err());
        assert_eq!((system_kind(&refused), renamed), (Some(ErrorKind::AlreadyExists), vec![]));
        assert_eq!((std::fs::read(&copy).unwrap(), names()), (b"kept".to_vec(), vec!["totals".into()]));
        std::fs::remove_file(&copy).unwrap();
    }
    for (link, rename, said) in [(eperm, eio, "Input/output error"), (enospc, 0, "No space left on device")] {
        let (refused, renamed) = system::with_name_faults(link, rename, || backs_up().unwrap_err());
        assert!(refused.to_string().starts_with(&format!("backup: {said}")), "{refused}");
        assert_eq!((renamed.len(), names()), (usize::from(rename != 0), vec![]));
    }
    let creates = || Till::open(BUILT_PROFILE, Totals::create_new(&copy)).unwrap_err();
    let (refused, renamed) = system::with_name_faults(eperm, 0, creates);
    assert_eq!((system_kind(&refused), renamed), (Some(ErrorKind::PermissionDenied), vec![]));
    assert_eq!(names(), Vec::<std::ffi::OsString>::new());
}

#[test]
fn files_are_told_and_moved() {
    let place = Place::new("told");
    let till = Till::open(BUILT_PROFILE, Totals::create_new(place.file())).unwrap();
    let totals = till.hard_totals("t1").unwrap().enabled().unwrap();
    let handle = totals.create("DAY", 2, false).unwrap();
    totals.write(handle, 0, [1, 0xff]).unwrap();
    assert_eq!(system_kind(&files(place.file()).unwrap_err()), Some(ErrorKind::WouldBlock));
    drop(totals);
    drop(till);
    let held = vec![(b"DAY".to_vec(), vec![1, 0xff])];
    let found = files(place.file()).unwrap();
    assert_eq!((found.layout, &found.files), (1, &held));
    migrate(place.file()).unwrap();
    let found = files(place.file()).unwrap();
    assert_eq!((found.layout, found.sequence, &found.files), (2, 1, &held));
    assert!(matches!(migrate(place.file()).unwrap_err().cause(), Cause::Moved));
    let mut bytes = std::fs::read(place.file()).unwrap();
    bytes[found.slot as usize + 9..found.slot as usize + 17].fill(0xff);
    std::fs::write(place.file(), bytes).unwrap();
    let damaged = check(place.file()).unwrap_err();
    let Cause::Damaged(Some((at, rule))) = damaged.cause() else { panic!("{damaged}") };
    assert_eq!((*at, rule.as_str()), (found.slot + 9, "the length of the current body is above the longest"));
    assert!(matches!(migrate(place.file()).unwrap_err().cause(), Cause::Damaged(None)));
    std::fs::write(place.file(), vec![0; 327_680]).unwrap();
    assert!(matches!(check(place.file()).unwrap_err().cause(), Cause::Unformatted));
    std::fs::write(place.file(), "short").unwrap();
    assert!(matches!(migrate(place.file()).unwrap_err().cause(), Cause::TooSmall));
    what_is_told_is_synced();
    a_pipe_is_not_waited_for();
}

fn what_is_told_is_synced() {
    let place = Place::new("synced");
    drop(Till::open(BUILT_PROFILE, Totals::create(place.file())).unwrap());
    const EINVAL: i32 = 22;
    const EROFS: i32 = 30;
    for fault in [0, EINVAL, EROFS] {
        let (found, synced) = system::with_sync_fault(fault, || check(place.file()));
        assert_eq!((found.is_ok(), synced.len()), (true, 1));
    }
    let (failed, _) = system::with_sync_fault(5, || check(place.file()).unwrap_err());
    assert!(matches!(failed.cause(), Cause::System(fault) if fault.raw_os_error() == Some(5)));
    // The name that a killed creation may have left without a sync is where a link leads.
    let (link, folder) = (Place::new("link"), std::fs::canonicalize(&place.0).unwrap());
    std::os::unix::fs::symlink(place.file(), link.file()).unwrap();
    let (till, synced) = system::with_sync_fault(0, || Till::open(BUILT_PROFILE, Totals::existing(link.file())));
    drop(till.unwrap());
    assert_eq!(synced, [folder.join("totals"), folder]);
    let (failed, _) = system::with_sync_fault(EINVAL, || Till::open(BUILT_PROFILE, Totals::existing(place.file())));
    let said = "Till::open: its folder can't be opened and synced: Invalid argument (os error 22)";
    assert_eq!(failed.unwrap_err().to_string(), said);
}

fn a_pipe_is_not_waited_for() {
    let place = Place::new("pipe");
    system::make_pipe(&place.file());
    let (done, waiting) = channel();
    spawn({
        let path = place.file();
        move || done.send(check(path))
    });
    let pipe = waiting.recv_timeout(Duration::from_secs(10)).unwrap().unwrap_err();
    assert_eq!(system_kind(&pipe), Some(ErrorKind::NotSeekable));
    assert_eq!(system_kind(&check(&place.0).unwrap_err()), Some(ErrorKind::IsADirectory));
    assert!(matches!(check("/dev/null").unwrap_err().cause(), Cause::TooSmall));
}

#[test]
fn errors_say_what_and_why() {
    let till = till();
    let printer = PosPrinter::new(&till).unwrap();
    let closed = printer.print_normal(PrinterStation::Receipt, "a").unwrap_err();
    assert_eq!((closed.call(), closed.code(), closed.extended()), ("printNormal", Some(ResultCode::Closed), None));
    assert_eq!(closed.to_string(), "printNormal: E_CLOSED: The control is closed.");
    assert_eq!(closed.reason(), None);
    printer.open("r1").unwrap();
    let unclaimed = printer.set_device_enabled(true).unwrap_err();
    assert_eq!(unclaimed.code(), Some(ResultCode::NotClaimed));
    let reason = "The control hasn't claimed the device, which is an exclusive-use device.";
    assert_eq!(unclaimed.reason(), Some(reason));
    assert_eq!(unclaimed.to_string(), format!("DeviceEnabled: E_NOTCLAIMED: {reason}"));
    // Reading what the category hasn't is refused for another reason than setting it to what is out of its range.
    assert_eq!(printer.get(Property::CursorRow).unwrap_err().reason(), None);
    assert_eq!(printer.set(Property::CursorRow, Value::Number(9)).unwrap_err().reason(), None);
    assert_eq!(printer.rec_line_chars().unwrap_err().call(), "RecLineChars");
    let printer = printer.enabled().unwrap();
    till.input_cover("r1", true).unwrap();
    let open = printer.cut_paper(100).unwrap_err();
    assert_eq!((open.code(), open.extended()), (Some(ResultCode::Extended), Some(ExtendedCode::PrinterCoverOpen)));
    let totals = till.hard_totals("t1").unwrap().enabled().unwrap();
    let full = totals.create("BIG", 9000, false).unwrap_err();
    assert_eq!(full.extended(), Some(ExtendedCode::TotalsNoRoom));
    assert_eq!(till.cash_drawer("t1").unwrap_err().code(), Some(ResultCode::NoExist));
    assert!(matches!(till.show("d\n1").unwrap_err().cause(), Cause::BadArgument));
    assert!(matches!(till.show_drawer("r1").unwrap_err().cause(), Cause::WrongKind));
    assert!(matches!(till.attach("d1", 9).unwrap_err().cause(), Cause::BadSpare));
    let long = vec![b'a'; 80_000];
    assert!(matches!(printer.print_normal(PrinterStation::Receipt, &long).unwrap_err().cause(), Cause::BadArgument));
    till.input_cover("r1", false).unwrap();
    let long = printer.print_normal(PrinterStation::Receipt, &long[..69_000]).unwrap_err();
    assert_eq!(long.code(), Some(ResultCode::Illegal));
}

#[test]
fn properties_by_name() {
    let till = till();
    let display = till.line_display("p1").unwrap().enabled().unwrap();
    for property in Property::ALL {
        assert_eq!(Property::from_name(property.name()), Some(property));
    }
    assert_eq!(display.get(Property::Columns).unwrap(), Value::Number(4));
    assert_eq!(display.get(Property::CursorUpdate).unwrap(), Value::Truth(true));
    assert_eq!(display.get(Property::ScanData).unwrap_err().code(), Some(ResultCode::Illegal));
    display.set(Property::CursorColumn, Value::Number(2)).unwrap();
    display.display_text("ab", DisplayAttribute::Blink).unwrap();
    let view = till.show_display("p1").unwrap();
    assert_eq!(
        (view.characters.as_slice(), view.attributes.as_slice()),
        (&b"  ab    "[..], &[0, 0, 1, 1, 0, 0, 0, 0][..])
    );
    let scanner = till.scanner("s1").unwrap();
    assert_eq!(scanner.get(Property::ScanData).unwrap(), Value::Bytes(Vec::new()));
}

#[test]
fn a_reply_decides() {
    let till = till();
    let printer = till.pos_printer("r1").unwrap().enabled().unwrap();
    printer.set_async_mode(true).unwrap();
    let fails = || {
        printer.print_normal(PrinterStation::Receipt, "a\n").unwrap();
        till.input_cover("r1", true).unwrap();
        assert!(matches!(
            till.work("r1").unwrap(),
            Work::Failed { extended: Some(ExtendedCode::PrinterCoverOpen), .. }
        ));
        assert_eq!(printer.state().unwrap(), State::Error);
    };
    fails();
    printer.pump(|_| Some(ErrorReply::Clear)).unwrap();
    assert_eq!(printer.state().unwrap(), State::Idle);
    fails();
    let mut errors = 0;
    for event in printer.events() {
        if let Event::Error(error) = event.unwrap() {
            assert_eq!((error.code, error.locus), (ResultCode::Extended, ErrorLocus::Output));
            printer.reply_to(error, ErrorReply::Retry).unwrap();
            errors += 1;
        }
    }
    till.input_cover("r1", false).unwrap();
    assert!(matches!(till.work("r1").unwrap(), Work::Done { .. }));
    assert_eq!((errors, till.work("r1").unwrap()), (1, Work::Idle));
    assert!(printer.events().any(|event| matches!(event, Ok(Event::OutputComplete { output_id: 2 }))));
    let scanner = till.scanner("s1").unwrap().enabled().unwrap();
    till.input_scan("s1", 104, "a", "a").unwrap();
    till.input_scan_fault("s1").unwrap();
    scanner.set_data_event_enabled(true).unwrap();
    scanner.pump(|_| Some(ErrorReply::Clear)).unwrap();
    assert_eq!((scanner.data_count().unwrap(), scanner.state().unwrap()), (0, State::Idle));
}

#[test]
fn the_next_event_is_of_any_control() {
    let till = till();
    let first = till.cash_drawer("d1").unwrap().enabled().unwrap();
    till.carry_out("new raw CashDrawer\nopen raw d1\nset raw DeviceEnabled true").unwrap();
    let scanner = till.scanner("s1").unwrap().enabled().unwrap();
    let last = till.cash_drawer("d1").unwrap().enabled().unwrap();
    let next = || till.next_event().unwrap().map(|(name, _)| name);
    assert_eq!(next(), None);
    till.input_drawer("d1", true).unwrap();
    first.set_freeze_events(true).unwrap();
    till.input_scan("s1", 104, "a", "a").unwrap();
    assert_eq!((next().as_deref(), next()), (Some(last.name()), None));
    till.input_scan_fault("s1").unwrap();
    scanner.set_data_event_enabled(true).unwrap();
    let Some((name, Event::Error(error))) = till.next_event().unwrap() else { panic!("no ErrorEvent") };
    assert_eq!((name.as_str(), error.locus), (scanner.name(), ErrorLocus::InputData));
    first.set_freeze_events(false).unwrap();
    assert_eq!(next().as_deref(), Some(first.name()));
    let all: Vec<_> = till.events().map(|event| event.unwrap()).collect();
    assert_eq!(all, [(scanner.name().to_string(), Event::Data)]);
    assert_eq!(till.carry_out("deliver raw").unwrap(), "event StatusUpdateEvent 1\n");
    assert_eq!(next(), None);
    all_events_come_in_turn();
}

fn all_events_come_in_turn() {
    let till = till();
    let first = till.cash_drawer("d1").unwrap().enabled().unwrap();
    till.carry_out("new raw CashDrawer\nopen raw d1\nset raw DeviceEnabled true").unwrap();
    let second = till.cash_drawer("d1").unwrap().enabled().unwrap();
    for is_open in [true, false] {
        till.input_drawer("d1", is_open).unwrap();
    }
    let mut events = till.events();
    let mut next = || events.next().map(|event| event.unwrap().0);
    for name in [first.name(), second.name(), first.name(), second.name()] {
        assert_eq!(next().as_deref(), Some(name));
    }
    assert_eq!((next(), next()), (None, None));
    let scanner = till.scanner("s1").unwrap().enabled().unwrap();
    scanner.set_data_event_enabled(true).unwrap();
    drop(second);
    till.input_scan("s1", 104, "a", "a").unwrap();
    till.input_drawer("d1", true).unwrap();
    // What makes another event each time keeps no other back.
    for (is_open, name) in [(false, first.name()), (true, scanner.name()), (false, first.name())] {
        assert_eq!(next().as_deref(), Some(name));
        till.input_drawer("d1", is_open).unwrap();
    }
}

#[test]
fn orders_come_once_and_in_order() {
    let till = till();
    for device in ["d1", "p1", "r1"] {
        till.host(device).unwrap();
    }
    assert!(matches!(till.host("t1").unwrap_err().cause(), Cause::NoDevice));
    till.cash_drawer("d1").unwrap().enabled().unwrap().open_drawer().unwrap();
    let display = till.line_display("p1").unwrap().enabled().unwrap();
    display.display_text_at(1, 4, "", DisplayAttribute::Reverse).unwrap();
    display.scroll_text(ScrollDirection::Left, 1).unwrap();
    display.clear_text().unwrap();
    let printer = till.pos_printer("r1").unwrap().enabled().unwrap();
    printer.print_normal(PrinterStation::Receipt, [0x1b, b'|', b'b', b'C', b'a', b'\n']).unwrap();
    printer.cut_paper(PTR_CP_FULLCUT).unwrap();
    let device = |name: &str| name.to_string();
    let wanted = [
        Order::OpenDrawer { device: device("d1") },
        Order::DisplayTextAt { device: device("p1"), row: 1, column: 4, text: Vec::new(), attribute: 2 },
        Order::ScrollText { device: device("p1"), direction: 3, units: 1 },
        Order::ClearText { device: device("p1") },
        Order::Print { device: device("r1"), data: b"\x1b|bCa\n".to_vec() },
        Order::CutPaper { device: device("r1"), percentage: 100 },
    ];
    for order in wanted {
        assert_eq!(till.next_order().unwrap(), Some(order));
    }
    assert_eq!(till.next_order().unwrap(), None);
}

#[test]
fn replies_are_lines() {
    let (till, settings) = (till(), WireSettings::default());
    let open = [0x41, 0x38, 0, 0, 0, 0x10, 0];
    let reply = till.reply("r1", &settings, Asked::Nothing, &open).unwrap();
    assert_eq!((reply.used, reply.skipped), (5, 1));
    assert_eq!(reply.lines[0], "input r1 cover open");
    let begun = till.reply("r1", &settings, Asked::Nothing, &open[5..]).unwrap();
    assert_eq!((begun.used, begun.skipped, begun.lines), (0, 0, Vec::new()));
    let job = till.reply("d1", &settings, Asked::Nothing, b"7\"@@@E\0").unwrap();
    assert_eq!(job.lines, ["job 5"]);
    let pin = till.reply("d1", &settings, Asked::DrawerInOrder, &[1]).unwrap();
    assert_eq!(pin.lines, ["input d1 open", "status pin high"]);
    let cause = |device: &str, settings: WireSettings| match till.reply(device, &settings, Asked::Nothing, &open) {
        Err(error) => error.to_string(),
        Ok(reply) => panic!("{reply:?}"),
    };
    assert_eq!(cause("p1", settings), "reply: there is no device of the name that has orders, or replies");
    let narrow = WireSettings { width: 7, ..settings };
    assert_eq!(cause("r1", narrow), "reply: a setting of the hardware is out of its range");
    assert_eq!(till.carry_out("show r1").unwrap(), "ok closed 5 -:-\n");
}

#[test]
fn controls_are_handed_out_again() {
    let till = till();
    for _ in 0..5000 {
        till.cash_drawer("d1").unwrap().enabled().unwrap().open_drawer().unwrap();
        assert!(till.scanner("d1").is_err());
    }
    let named = Scanner::named(&till, "gun").unwrap();
    assert!(matches!(HardTotals::named(&till, "gun").unwrap_err().cause(), Cause::NameInUse));
    drop(named);
    assert_eq!(Scanner::named(&till, "gun").unwrap().name(), "gun");
    let (other, third) = (Scanner::new(&till).unwrap(), Scanner::new(&till).unwrap());
    let gun = Scanner::named(&till, "gun").unwrap();
    assert!(Scanner::named(&till, "gun").is_err());
    let chosen = other.name().to_string();
    drop((other, third, gun));
    // A name that the till made up may be chosen too.
    drop(Scanner::named(&till, &chosen).unwrap());
    let others = [Scanner::new(&till).unwrap(), Scanner::new(&till).unwrap()];
    assert!(others.iter().all(|other| other.name() != "gun" && other.name() != chosen));
    assert_eq!(Scanner::named(&till, &chosen).unwrap().name(), chosen);
    a_control_is_handed_out_only_when_it_is_closed();
}

#[test]
fn a_control_knows_on_which_device_it_is_open() {
    let till = till();
    let drawer = CashDrawer::new(&till).unwrap();
    assert_eq!(drawer.device(), None);
    assert!(drawer.open("d9").is_err() && drawer.device().is_none());
    drawer.open("d1").unwrap();
    assert_eq!(drawer.device().as_deref(), Some("d1"));
    assert!(drawer.open("d9").is_err());
    assert_eq!(drawer.device().as_deref(), Some("d1"));
    drawer.close().unwrap();
    assert_eq!(drawer.device(), None);
    drawer.open("d1").unwrap();
    till.carry_out(format!("close {}", drawer.name())).unwrap();
    assert!(drawer.close().is_err() && drawer.device().is_none());
    drawer.open("d1").unwrap();
    let key = drawer.into_key();
    let kept = CashDrawer::of(&till, &key).unwrap();
    assert_eq!(kept.device().as_deref(), Some("d1"));
    key.discard(&till).unwrap();
    assert_eq!(kept.device(), None);
    let again = CashDrawer::new(&till).unwrap();
    assert_eq!((again.name(), again.device()), (kept.name(), None));
    again.open("d1").unwrap();
    // It isn't the one that was discarded.
    assert_eq!((again.device().as_deref(), kept.device()), (Some("d1"), None));
}

fn a_control_is_handed_out_only_when_it_is_closed() {
    let till = till();
    // Without memory, lines of a till with a driver aren't carried out.
    till.drive("r1", Paper).unwrap();
    let drops = || {
        let printer = till.pos_printer("r1").unwrap().enabled().unwrap();
        let name = printer.name().to_string();
        system::without_memory(|| drop(printer));
        assert_eq!(till.carry_out(format!("get {name} Claimed")).unwrap(), "ok true\n");
        name
    };
    let name = drops();
    let refused = system::without_memory(|| PosPrinter::new(&till).map(|_| ()).unwrap_err());
    assert!(matches!(refused.cause(), Cause::NoMemory));
    let printer = till.pos_printer("r1").unwrap().enabled().unwrap();
    assert_eq!(printer.name(), name);
    drop(printer);
    let other = PosPrinter::named(&till, "other").unwrap();
    other.open("r1").unwrap();
    drops();
    drop(other.enabled().unwrap());
    let name = drops();
    assert!(till.next_event().unwrap().is_none());
    assert_eq!(till.carry_out(format!("get {name} Claimed")).unwrap(), "err 101\n");
}

#[test]
fn keys_are_of_one_till() {
    let (till, other) = (till(), till());
    let key = till.cash_drawer("d1").unwrap().enabled().unwrap().into_key();
    CashDrawer::of(&till, &key).unwrap().open_drawer().unwrap();
    assert!(CashDrawer::of(&till, &key).unwrap().drawer_opened().unwrap());
    assert!(matches!(CashDrawer::of(&other, &key).unwrap_err().cause(), Cause::OtherTill));
    assert!(matches!(key.clone().discard(&other).unwrap_err().cause(), Cause::OtherTill));
    let events: Vec<_> = till.events().collect::<Result<_, _>>().unwrap();
    assert!(matches!(events[..], [(_, Event::StatusUpdate(StatusUpdate::Drawer(_)))]));
    let (kept, stale) = (CashDrawer::of(&till, &key).unwrap(), key.clone());
    till.input_drawer("d1", false).unwrap();
    let mut keys = vec![key];
    let pumped = kept.pump(|_| {
        keys.pop().unwrap().discard(&till).unwrap();
        None
    });
    assert!(matches!(pumped.unwrap_err().cause(), Cause::Discarded));
    let again = till.cash_drawer("d1").unwrap().enabled().unwrap();
    assert_eq!(again.name(), kept.name());
    assert!(matches!(kept.open_drawer().unwrap_err().cause(), Cause::Discarded));
    assert!(matches!(kept.next_event().unwrap_err().cause(), Cause::Discarded));
    assert!(matches!(CashDrawer::of(&till, &stale).unwrap_err().cause(), Cause::Discarded));
    assert!(matches!(CashDrawer::of(&till, &kept.into_key()).unwrap_err().cause(), Cause::Discarded));
    assert!(matches!(stale.discard(&till).unwrap_err().cause(), Cause::Discarded));
    assert!(again.device_enabled().unwrap());
    for _ in 0..5000 {
        till.cash_drawer("d1").unwrap().into_key().discard(&till).unwrap();
    }
    let (key, _claimed) = (till.scanner("s1").unwrap().into_key(), till.scanner("s1").unwrap().enabled().unwrap());
    let keyed = || Scanner::of(&till, &key).unwrap();
    assert_eq!(keyed().enabled().unwrap_err().code(), Some(ResultCode::Timeout));
    assert_eq!(keyed().state().unwrap(), State::Idle);
}

#[test]
fn an_actor_serves_several_threads() {
    let (actor, thread) = Actor::start(till()).unwrap();
    let totals = actor
        .run(|till| {
            let totals = till.hard_totals("t1")?.enabled()?;
            totals.create("SUM", 8, false)?;
            Ok(totals.into_key())
        })
        .unwrap();
    std::thread::scope(|scope| {
        for _ in 0..4 {
            let (actor, totals) = (actor.clone(), totals.clone());
            scope.spawn(move || {
                for _ in 0..50 {
                    let totals = totals.clone();
                    let add = move |till: &Till| {
                        let totals = HardTotals::of(till, &totals)?;
                        let sum = totals.read(1, 0, 8)?.iter().fold(0u64, |sum, byte| sum << 8 | u64::from(*byte));
                        totals.write(1, 0, (sum + 1).to_be_bytes())
                    };
                    actor.run(add).unwrap();
                }
            });
        }
    });
    let sum = actor.run(move |till| HardTotals::of(till, &totals)?.read(1, 0, 8)).unwrap();
    assert_eq!(sum, 200u64.to_be_bytes());
    let ended = actor.run(|_| -> Result<(), Error> { panic!("on purpose") }).unwrap_err();
    assert!(matches!(ended.cause(), Cause::ActorEnded));
    assert!(thread.join().is_err());
    assert!(matches!(actor.run(|_| Ok(())).unwrap_err().cause(), Cause::ActorEnded));
}

#[test]
fn an_actor_serves_its_devices_and_other_threads() {
    let (till, count) = (till(), Arc::new(AtomicU32::new(0)));
    till.drive("s1", Polled(Arc::clone(&count), Codes::of(&[]))).unwrap();
    let (actor, thread) = Actor::start(till).unwrap();
    let (looking, is_over) = (actor.clone(), Arc::new(AtomicBool::new(false)));
    let looker = spawn({
        let is_over = Arc::clone(&is_over);
        move || {
            let (mut found, mut longest) = (0, Duration::ZERO);
            while !is_over.load(Ordering::Relaxed) {
                let began = Instant::now();
                found += u32::from(looking.run_devices(Duration::from_secs(1)).unwrap());
                longest = longest.max(began.elapsed());
            }
            (found, longest)
        }
    });
    let began = Instant::now();
    for _ in 0..20 {
        actor.run(|till| till.show("d1").map(|_| ())).unwrap();
    }
    // If each waited for a whole call of the looker, they would take 20 seconds.
    assert!(began.elapsed() < Duration::from_secs(10), "{:?}", began.elapsed());
    std::thread::sleep(Duration::from_millis(1200));
    is_over.store(true, Ordering::Relaxed);
    let (found, longest) = looker.join().unwrap();
    // The device is on at first, and a call that finds nothing takes its time.
    assert!(found <= 1 && longest >= Duration::from_secs(1), "{found} {longest:?}");
    assert!(count.load(Ordering::Relaxed) >= 10, "{count:?}");
    actor.run(|till| till.input_drawer("d1", true)).unwrap();
    let inside = actor.clone();
    let waits = actor.run(move |_| inside.run_devices(Duration::ZERO)).unwrap_err();
    assert!(matches!(waits.cause(), Cause::InsideActor));
    drop(actor);
    thread.join().unwrap();
}

#[test]
fn an_actor_finds_what_there_is_to_do() {
    let till = till();
    till.drive("s1", Codes::of(&["4006381"])).unwrap();
    let (actor, thread) = Actor::start(till).unwrap();
    let began = Instant::now();
    assert!(actor.run_devices(Duration::from_secs(60)).unwrap());
    assert!(began.elapsed() < Duration::from_secs(30));
    drop(actor);
    thread.join().unwrap();
}

/// A scanner at whose file something has come, and which finds its codes at the last of so many looks.
struct Restless(UnixStream, u32, Codes);

impl Driver for Restless {
    fn category(&self) -> Category {
        Category::Scanner
    }

    fn poll(&mut self, _: &mut DriverTill<'_>) {
        self.1 -= 1;
    }

    fn scans(&mut self) -> Vec<Scan> {
        if self.1 == 0 {
            self.2.scans()
        } else {
            Vec::new()
        }
    }

    fn file(&self) -> Option<RawFd> {
        Some(self.0.as_raw_fd())
    }
}

#[test]
fn an_actor_looks_at_once_at_what_has_come() {
    let till = till();
    let (file, mut other) = UnixStream::pair().unwrap();
    other.write_all(b"x").unwrap();
    till.drive("s1", Restless(file, 1000, Codes::of(&["4006381"]))).unwrap();
    let (actor, thread) = Actor::start(till).unwrap();
    // A look each 20 ms would take twice as long.
    assert!(actor.run_devices(Duration::from_secs(10)).unwrap());
    drop(actor);
    thread.join().unwrap();
}

/// Why work in a transaction ends.
#[derive(Debug)]
enum Stop {
    OfItsOwn,
    Refused(Error),
}

impl From<Error> for Stop {
    fn from(error: Error) -> Stop {
        Stop::Refused(error)
    }
}

#[test]
fn a_transaction_ends_in_any_case() {
    let till = till();
    let totals = till.hard_totals("t1").unwrap().enabled().unwrap();
    let day = totals.create("DAY", 1, false).unwrap();
    let is_open = || totals.begin_trans().map(|()| totals.rollback().unwrap()).is_err();
    let number = || totals.read(day, 0, 1).unwrap()[0];
    let before = totals.transaction(|totals| {
        let before = totals.read(day, 0, 1)?;
        totals.write(day, 0, [1])?;
        Ok::<_, Error>(before)
    });
    assert_eq!((before.unwrap(), number(), is_open()), (vec![0], 1, false));
    let refused = totals.transaction(|totals| {
        totals.write(day, 0, [2])?;
        totals.write(day, 9, [2])
    });
    assert_eq!((refused.unwrap_err().call(), number(), is_open()), ("write", 1, false));
    let stopped = totals.transaction(|totals| {
        totals.write(day, 0, [3])?;
        Err::<(), _>(Stop::OfItsOwn)
    });
    assert!(matches!(stopped, Err(Stop::OfItsOwn)) && number() == 1 && !is_open());
    let panicked = catch_unwind(AssertUnwindSafe(|| {
        totals.transaction(|totals| -> Result<(), Error> {
            totals.write(day, 0, [4])?;
            panic!("on purpose")
        })
    }));
    assert!(panicked.is_err() && number() == 1 && !is_open());
    // Another control deletes the file meanwhile: the commit is refused.
    let other = till.hard_totals("t1").unwrap().enabled().unwrap();
    let uncommitted = totals.transaction(|totals| {
        totals.write(day, 0, [5])?;
        other.delete("DAY").map_err(Stop::Refused)
    });
    let Err(Stop::Refused(error)) = uncommitted else { panic!("{uncommitted:?}") };
    assert_eq!((error.call(), error.code()), ("commitTrans", Some(ResultCode::NoExist)));
    assert!(!is_open());
    totals.begin_trans().unwrap();
    let begun = totals.transaction(|_| -> Result<(), Error> { panic!("it isn't called") }).unwrap_err();
    assert_eq!((begun.call(), begun.code()), ("beginTrans", Some(ResultCode::Illegal)));
    totals.rollback().unwrap();
    a_transaction_ends_whatever_becomes_of_its_control();
    a_transaction_ends_once_there_is_memory();
}

fn a_transaction_ends_whatever_becomes_of_its_control() {
    /// What work does with its control, and with another one.
    type Deed = fn(&HardTotals<'_>, &HardTotals<'_>) -> Result<(), Error>;
    // What a commit is then, and whether the control is enabled still.
    let deeds: [(Deed, ResultCode, bool); 5] = [
        (|totals, _| totals.set_device_enabled(false), ResultCode::Disabled, false),
        (|_, other| other.claim(None), ResultCode::Claimed, true),
        (|totals, other| other.claim(None).and_then(|()| totals.set_device_enabled(false)), ResultCode::Claimed, false),
        (|totals, _| totals.close(), ResultCode::Closed, false),
        (|totals, _| totals.close().and_then(|()| totals.open("t1")), ResultCode::Disabled, false),
    ];
    let till = till();
    let totals = till.hard_totals("t1").unwrap().enabled().unwrap();
    let other = till.hard_totals("t1").unwrap();
    let day = totals.create("DAY", 1, false).unwrap();
    for (deed, code, is_enabled) in deeds {
        for ending in ["commit", "error", "panic"] {
            let work = |totals: &HardTotals<'_>| {
                totals.write(day, 0, [1])?;
                deed(totals, &other)?;
                match ending {
                    "commit" => Ok(()),
                    "error" => Err(Stop::OfItsOwn),
                    _ => panic!("on purpose"),
                }
            };
            match catch_unwind(AssertUnwindSafe(|| totals.transaction(work))) {
                Ok(Err(Stop::Refused(error))) => {
                    assert_eq!((ending, error.call(), error.code()), ("commit", "commitTrans", Some(code)));
                }
                Ok(Err(Stop::OfItsOwn)) => assert_eq!(ending, "error"),
                ended => assert!(ending == "panic" && ended.is_err()),
            }
            assert_eq!(totals.device_enabled().unwrap_or(false), is_enabled);
            let _ = (other.release(), totals.open("t1"));
            totals.set_device_enabled(true).unwrap();
            assert!(!totals.transaction_in_progress().unwrap(), "{code} {ending}");
            assert_eq!(totals.read(day, 0, 1).unwrap(), [0]);
        }
    }
    totals.write(day, 0, [2]).unwrap();
    assert_eq!(totals.read(day, 0, 1).unwrap(), [2]);
}

fn a_transaction_ends_once_there_is_memory() {
    let till = till();
    // Without memory, lines of a till with a driver aren't carried out.
    till.drive("r1", Paper).unwrap();
    let totals = till.hard_totals("t1").unwrap().enabled().unwrap();
    let day = totals.create("DAY", 1, false).unwrap();
    let writes = |number: u8| {
        let unended = totals.transaction(|totals| {
            totals.write(day, 0, [number])?;
            system::limit_memory(0, u32::MAX);
            totals.write(day, 0, [number])
        });
        let refused = totals.write(day, 0, [number]);
        system::give_memory();
        for error in [unended.unwrap_err(), refused.unwrap_err()] {
            assert!(error.call() == "write" && matches!(error.cause(), Cause::NoMemory), "{error}");
        }
    };
    writes(1);
    totals.write(day, 0, [2]).unwrap();
    assert_eq!((totals.read(day, 0, 1).unwrap(), totals.transaction_in_progress().unwrap()), (vec![2], false));
    writes(3);
    totals.transaction(|totals| totals.write(day, 0, [4])).unwrap();
    assert_eq!(totals.read(day, 0, 1).unwrap(), [4]);
}

fn an_actor_may_get_no_thread() {
    let place = Place::new("actor");
    let till = Till::open(BUILT_PROFILE, Totals::create(place.file())).unwrap();
    let refused = system::without_threads(|| Actor::start(till).map(|_| ()).unwrap_err());
    assert!(matches!(refused.cause(), Cause::NoMemory));
    // The till is dropped, and its file may be used.
    check(place.file()).unwrap();
}

#[test]
fn an_actor_does_not_wait_for_itself() {
    let (actor, thread) = Actor::start(till()).unwrap();
    let inside = actor.clone();
    let waits = actor.run(move |_| inside.run(|_| Ok(()))).unwrap_err();
    assert!(matches!(waits.cause(), Cause::InsideActor));
    actor.run(|till| till.input_drawer("d1", true)).unwrap();
    drop(actor);
    thread.join().unwrap();
    an_actor_may_get_no_thread();
}

#[test]
fn a_device_may_have_the_name_of_a_key() {
    let device = |name: &str, rest: &str| format!("[[device]]\nname = \"{name}\"\ncategory = {rest}\n");
    for (display, printer) in [("rows", "chars"), ("columns", "near"), ("LineDisplay", "POSPrinter")] {
        let profile = device(display, "\"LineDisplay\"\nrows = 2\ncolumns = 20")
            + &device(printer, "\"POSPrinter\"\nchars = 42\nlines = 500\nnear = 9");
        let found = kijolvar::devices(&profile).unwrap();
        assert_eq!((found[0].name.as_str(), found[0].rows, found[0].columns), (display, 2, 20));
        assert_eq!((found[1].name.as_str(), found[1].chars, found[1].near), (printer, 42, 9));
    }
}

#[test]
fn a_profile_may_be_nested_on_any_thread() {
    let begun = format!("{{a{} = ", ".a".repeat(79));
    let deep = format!("x = {}1{}", begun.repeat(79), "}".repeat(79));
    let opens = move || {
        let refused = Till::open(&deep, Totals::Memory).unwrap_err();
        matches!(refused.cause(), Cause::BadProfile(_)) && kijolvar::devices(&deep).is_err()
    };
    let thread = std::thread::Builder::new().stack_size(256 << 10).spawn(opens).unwrap();
    assert!(thread.join().unwrap());
}

/// A scanner that has read codes.
struct Codes(Vec<Scan>);

impl Codes {
    fn of(codes: &[&str]) -> Codes {
        let scan = |code: &&str| Scan { kind: 104, data: code.as_bytes().to_vec(), label: code.as_bytes().to_vec() };
        Codes(codes.iter().map(scan).collect())
    }
}

impl Driver for Codes {
    fn category(&self) -> Category {
        Category::Scanner
    }

    fn scans(&mut self) -> Vec<Scan> {
        std::mem::take(&mut self.0)
    }
}

/// A drawer of which something happens that can't happen at a drawer.
struct Wrong;

impl Driver for Wrong {
    fn category(&self) -> Category {
        Category::CashDrawer
    }

    fn happened(&mut self, _: &mut DriverTill<'_>) -> Vec<String> {
        vec!["cover open".to_string()]
    }
}

#[test]
fn scans_outlast_what_fails_beside_them() {
    let till = till();
    let scanner = till.scanner("s1").unwrap().enabled().unwrap();
    scanner.set_data_event_enabled(true).unwrap();
    till.drive("s1", Codes::of(&["4006381"])).unwrap();
    till.drive("d1", Wrong).unwrap();
    assert!(matches!(till.run_devices(Duration::ZERO).unwrap_err().cause(), Cause::BadInput));
    assert_eq!(scanner.events().map(Result::unwrap).collect::<Vec<_>>(), [Event::Data]);
    assert_eq!(scanner.scan_data().unwrap(), b"4006381");
}

/// A drawer of which something is said once, behind an order, that can't happen at a drawer.
struct WrongOnce(bool);

impl Driver for WrongOnce {
    fn category(&self) -> Category {
        Category::CashDrawer
    }

    fn carry_out(&mut self, _: &mut DriverTill<'_>, _: &Order) -> bool {
        self.0 = true;
        true
    }

    fn happened(&mut self, _: &mut DriverTill<'_>) -> Vec<String> {
        Vec::from_iter(std::mem::take(&mut self.0).then(|| "cover open".to_string()))
    }
}

#[test]
fn what_is_refused_behind_an_order_is_said() {
    let till = till();
    till.drive("d1", WrongOnce(false)).unwrap();
    till.cash_drawer("d1").unwrap().enabled().unwrap().open_drawer().unwrap();
    assert!(matches!(till.run_devices(Duration::ZERO).unwrap_err().cause(), Cause::BadInput));
    assert!(!till.run_devices(Duration::ZERO).unwrap());
}

#[test]
fn a_scan_that_is_refused_leaves_the_next() {
    let till = till();
    let scanner = till.scanner("s1").unwrap().enabled().unwrap();
    scanner.set_data_event_enabled(true).unwrap();
    let mut codes = Codes::of(&["refused", "4006381"]);
    codes.0[0].kind = 1000;
    till.drive("s1", codes).unwrap();
    assert!(till.run_devices(Duration::ZERO).is_err());
    assert!(till.run_devices(Duration::ZERO).unwrap());
    assert_eq!(scanner.events().map(Result::unwrap).collect::<Vec<_>>(), [Event::Data]);
    assert_eq!(scanner.scan_data().unwrap(), b"4006381");
}

/// A scanner that was lost just after it had read codes.
struct Lost(Codes);

impl Driver for Lost {
    fn category(&self) -> Category {
        Category::Scanner
    }

    fn is_online(&self) -> bool {
        false
    }

    fn scans(&mut self) -> Vec<Scan> {
        self.0.scans()
    }
}

#[test]
fn scans_are_taken_before_their_scanner_is_off() {
    let till = till();
    let scanner = till.scanner("s1").unwrap();
    scanner.claim(Some(Duration::ZERO)).unwrap();
    scanner.set_power_notify(PowerNotify::Enabled).unwrap();
    scanner.set_device_enabled(true).unwrap();
    scanner.set_data_event_enabled(true).unwrap();
    let events = || scanner.events().map(Result::unwrap).collect::<Vec<_>>();
    let power = |status| Event::StatusUpdate(StatusUpdate::Power(status));
    till.drive("s1", Lost(Codes::of(&["4006381"]))).unwrap();
    assert_eq!(events(), [power(PowerStatus::Online), power(PowerStatus::OffOffline)]);
    assert!(till.run_devices(Duration::ZERO).unwrap());
    assert_eq!(events(), [power(PowerStatus::Online), Event::Data, power(PowerStatus::OffOffline)]);
    assert_eq!(scanner.scan_data().unwrap(), b"4006381");
    assert!(!till.run_devices(Duration::ZERO).unwrap());
}

#[test]
fn what_no_device_can_have_is_refused() {
    let till = till();
    let refused = |driven: Result<(), Error>| assert!(matches!(driven.unwrap_err().cause(), Cause::BadSettings));
    refused(till.drive("s1", WedgeScanner::open("/dev/input/none").with_kind(1000)));
    refused(till.drive("p1", SerialDisplay::open("tcp:192.168.1.9:91OO", DisplaySettings::default())));
    // No order succeeds in no time, and each has to end.
    let too_long = Duration::from_secs(2_147_484);
    for timeout in [Duration::ZERO, too_long, Duration::MAX] {
        let printer = EscPosPrinter::open("/dev/none", EscPosSettings { timeout, ..EscPosSettings::default() });
        refused(till.drive("d1", printer.drawer()));
        refused(till.drive("r1", printer));
        let settings = DisplaySettings { timeout, ..DisplaySettings::default() };
        refused(till.drive("p1", SerialDisplay::open("/dev/none", settings)));
    }
    for pause in [too_long, Duration::MAX] {
        let printer = EscPosPrinter::open("/dev/none", EscPosSettings { pause, ..EscPosSettings::default() });
        refused(till.drive("r1", printer));
        let settings = DisplaySettings { pause, ..DisplaySettings::default() };
        refused(till.drive("p1", SerialDisplay::open("/dev/none", settings)));
        refused(till.drive("s1", WedgeScanner::open("/dev/input/none").with_pause(pause)));
    }
    let undriven = till.driver_state("s1").unwrap_err();
    assert_eq!(undriven.to_string(), "driver_state: the device has no driver");
    till.drive("s1", WedgeScanner::open("/dev/input/none").with_kind(999)).unwrap();
    let state = till.driver_state("s1").unwrap();
    assert_eq!((state.is_online, state.port_error), (false, Some(2)));
    let profile = "[[device]]\nname = \"d1\"\ncategory = \"CashDrawer\"\nflaky = [1, 1]\n";
    let flaky = Till::open(profile, Totals::Memory).unwrap().drive("d1", Wrong).unwrap_err();
    assert!(matches!(flaky.cause(), Cause::NoDevice) && flaky.to_string().ends_with(" has `flaky`"), "{flaky}");
}

#[test]
fn a_display_that_takes_too_long_is_lost() {
    let (till, timeout) = (till(), Duration::from_nanos(1));
    let settings = DisplaySettings { timeout, ..DisplaySettings::default() };
    till.drive("p1", SerialDisplay::open("/dev/null", settings)).unwrap();
    let display = till.line_display("p1").unwrap().enabled().unwrap();
    assert!(till.driver_state("p1").unwrap().is_online);
    let offline = display.display_text("4.50", DisplayAttribute::Normal).unwrap_err();
    assert_eq!(offline.code(), Some(ResultCode::Offline));
    let state = till.driver_state("p1").unwrap();
    assert_eq!((state.is_online, state.port_error), (false, Some(110)));
}

/// A drawer that isn't there, whose port had this error, and is open or not.
struct Away(Option<bool>);

impl Driver for Away {
    fn category(&self) -> Category {
        Category::CashDrawer
    }

    fn is_online(&self) -> bool {
        false
    }

    fn port_error(&self) -> Option<i32> {
        Some(19)
    }

    fn is_port_open(&self) -> bool {
        self.0.unwrap_or_else(|| self.is_online())
    }
}

#[test]
fn a_device_that_is_off_says_why_its_port_is_not_open() {
    let (till, place) = (till(), Place::new("offline"));
    let settings = DisplaySettings { pause: Duration::ZERO, ..DisplaySettings::default() };
    till.drive("p1", SerialDisplay::open(place.file().as_path(), settings)).unwrap();
    let display = till.line_display("p1").unwrap().enabled().unwrap();
    let refused = || {
        let error = display.display_text("4.50", DisplayAttribute::Normal).unwrap_err();
        assert_eq!((error.code(), error.reason()), (Some(ResultCode::Offline), Some("The display is off.")));
        let number = error.port_error().and_then(|fault| fault.raw_os_error());
        assert_eq!(std::error::Error::source(&error).is_some(), number.is_some());
        (error.to_string(), number)
    };
    let said = |why: &str| format!("displayText: E_OFFLINE: The display is off{why}.");
    assert_eq!(refused(), (said(": No such file or directory"), Some(2)));
    std::fs::create_dir(place.file()).unwrap();
    till.run_devices(Duration::ZERO).unwrap();
    assert_eq!(refused(), (said(": Is a directory"), Some(21)));
    std::fs::remove_dir(place.file()).unwrap();
    std::os::unix::fs::symlink("/dev/null", place.file()).unwrap();
    assert!(till.run_devices(Duration::ZERO).unwrap());
    display.display_text("4.50", DisplayAttribute::Normal).unwrap();
    // What the port had before is no reason any more.
    till.input_power("p1", false).unwrap();
    assert_eq!(refused(), (said(""), None));
    assert_eq!(till.driver_state("p1").unwrap().port_error, Some(21));
}

#[test]
fn a_driver_says_whether_its_port_is_open() {
    for (is_port_open, has_reason, lines) in [
        (None, true, "show d1"),
        (Some(false), true, "show d1"),
        (Some(true), false, "show d1"),
        (None, false, "# open d1"),
    ] {
        let till = till();
        till.drive("d1", Away(is_port_open)).unwrap();
        let drawer = till.cash_drawer("d1").unwrap().enabled().unwrap();
        // A line may have opened the control on another device.
        till.carry_out(lines).unwrap();
        let said = drawer.open_drawer().unwrap_err().to_string();
        let reason = if has_reason { ": No such device" } else { "" };
        assert_eq!(said, format!("openDrawer: E_OFFLINE: The drawer is off{reason}."), "{is_port_open:?} {lines}");
    }
}

/// What a driver has come by: its till, and controls of it. It drops one and discards the key of another within its
/// next order.
struct Met {
    till: &'static Till,
    drawer: CashDrawer<'static>,
    totals: HardTotals<'static>,
    event: ErrorEvent,
    given_back: Option<(Scanner<'static>, Key<PosPrinter<'static>>)>,
    count: u32,
}

thread_local! {
    static MET: RefCell<Option<Met>> = const { RefCell::new(None) };
}

impl Met {
    /// Makes each call that a till and its controls have, which has to be refused.
    fn calls(&mut self) {
        let (till, drawer, totals) = (self.till, &self.drawer, &self.totals);
        let (settings, key) = (WireSettings::default(), CashDrawer::named(till, "new"));
        let refused = [
            key.err(),
            till.carry_out("show d1").err(),
            till.next_event().err(),
            till.events().next().unwrap().err(),
            till.cash_drawer("d1").err(),
            till.input_drawer("d1", true).err(),
            till.work("r1").err(),
            till.show_drawer("d1").err(),
            till.attach("d1", 1).err(),
            till.detach("d1").err(),
            till.host("d1").err(),
            till.tear_off("r1").err(),
            till.next_order().err(),
            till.drive("s1", Codes::of(&[])).err(),
            till.run_devices(Duration::ZERO).err(),
            till.driver_state("d1").err(),
            till.reply("r1", &settings, Asked::Nothing, &[]).err(),
            drawer.open_drawer().err(),
            drawer.next_event().err(),
            drawer.close().err(),
            drawer.open("d1").err(),
            drawer.reply_to(self.event, ErrorReply::Clear).err(),
            drawer.pump(|_| None).err(),
            totals.transaction(|_| Ok::<_, Error>(())).err(),
        ];
        for (place, error) in refused.into_iter().enumerate() {
            let error = error.unwrap_or_else(|| panic!("{place}"));
            assert!(matches!(error.cause(), Cause::InCall), "{error}");
            assert!(error
                .to_string()
                .ends_with(": a driver can't call its till, so make this one once that has returned"));
        }
        assert_eq!((drawer.device().as_deref(), totals.device().as_deref()), (Some("d1"), Some("t1")));
        if let Some((scanner, key)) = self.given_back.take() {
            drop(scanner);
            key.clone().discard(till).unwrap();
            assert!(matches!(PosPrinter::of(till, &key).unwrap_err().cause(), Cause::Discarded));
        }
        self.count += 1;
    }
}

/// A drawer whose driver calls its till whenever that asks something.
struct Calling;

impl Calling {
    fn calls() {
        MET.with_borrow_mut(|met| met.iter_mut().for_each(Met::calls));
    }
}

impl Driver for Calling {
    fn category(&self) -> Category {
        Category::CashDrawer
    }

    fn is_online(&self) -> bool {
        Calling::calls();
        true
    }

    fn carry_out(&mut self, _: &mut DriverTill<'_>, _: &Order) -> bool {
        Calling::calls();
        true
    }

    fn happened(&mut self, _: &mut DriverTill<'_>) -> Vec<String> {
        Calling::calls();
        Vec::new()
    }

    fn poll(&mut self, _: &mut DriverTill<'_>) {
        Calling::calls();
    }
}

/// An ErrorEvent of a printer of the till.
fn error_event(till: &Till) -> ErrorEvent {
    let printer = till.pos_printer("r1").unwrap().enabled().unwrap();
    printer.set_async_mode(true).unwrap();
    printer.print_normal(PrinterStation::Receipt, "Bread\n").unwrap();
    till.input_cover("r1", true).unwrap();
    till.work("r1").unwrap();
    let found = printer.events().find_map(|event| match event {
        Ok(Event::Error(error)) => Some(error),
        _ => None,
    });
    till.input_cover("r1", false).unwrap();
    printer.clear_output().unwrap();
    found.unwrap()
}

#[test]
fn a_driver_can_not_call_its_till() {
    let till: &'static Till = Box::leak(Box::new(till()));
    let event = error_event(till);
    till.drive("d1", Calling).unwrap();
    let (drawer, totals) = (till.cash_drawer("d1").unwrap(), till.hard_totals("t1").unwrap().enabled().unwrap());
    let scanner = till.scanner("s1").unwrap().enabled().unwrap();
    let key = till.pos_printer("r1").unwrap().enabled().unwrap().into_key();
    let own = till.cash_drawer("d1").unwrap().enabled().unwrap();
    MET.set(Some(Met { till, drawer, totals, event, given_back: Some((scanner, key)), count: 0 }));
    // The order is done, and so is what was given back within it.
    own.open_drawer().unwrap();
    assert!(own.drawer_opened().unwrap());
    till.run_devices(Duration::ZERO).unwrap();
    assert!(till.driver_state("d1").unwrap().is_online);
    let Met { drawer, totals, count, .. } = MET.take().unwrap();
    assert!(count >= 5, "{count}");
    drop((till.scanner("s1").unwrap().enabled().unwrap(), till.pos_printer("r1").unwrap().enabled().unwrap()));
    // The controls that were refused work on.
    drawer.enabled().unwrap().open_drawer().unwrap();
    assert_eq!(totals.number_of_files().unwrap(), 0);
}

#[test]
fn an_order_of_a_display_is_done_once_its_bytes_have_left() {
    let (_device, path) = system::terminal();
    // A terminal says what it holds, and another device takes more once it holds nothing.
    for (path, held, takes) in [(path, 3, u32::MAX), ("/dev/null".into(), 0, 1)] {
        let (till, timeout) = (till(), Duration::from_millis(200));
        let settings = DisplaySettings { timeout, ..DisplaySettings::default() };
        till.drive("p1", SerialDisplay::open(Port::File(path), settings)).unwrap();
        let display = till.line_display("p1").unwrap().enabled().unwrap();
        display.display_text("4.50", DisplayAttribute::Normal).unwrap();
        system::hold(held);
        system::fill_after(takes);
        let offline = display.display_text("5.40", DisplayAttribute::Normal).unwrap_err();
        system::hold(0);
        system::fill_after(u32::MAX);
        assert_eq!(offline.code(), Some(ResultCode::Offline));
        let state = till.driver_state("p1").unwrap();
        assert_eq!((state.is_online, state.port_error), (false, Some(110)));
    }
}

/// A drawer that counts how often it is opened, and whose driver fails the first time.
struct Counted(Arc<AtomicU32>);

impl Driver for Counted {
    fn category(&self) -> Category {
        Category::CashDrawer
    }

    fn carry_out(&mut self, _: &mut DriverTill<'_>, _: &Order) -> bool {
        assert!(self.0.fetch_add(1, Ordering::Relaxed) > 0, "on purpose");
        true
    }
}

#[test]
fn a_driver_that_panics_fails_one_order() {
    let (till, count) = (till(), Arc::new(AtomicU32::new(0)));
    till.drive("d1", Counted(Arc::clone(&count))).unwrap();
    let drawer = till.cash_drawer("d1").unwrap().enabled().unwrap();
    assert!(catch_unwind(AssertUnwindSafe(|| drawer.open_drawer())).is_err());
    assert!(!drawer.drawer_opened().unwrap());
    assert!(till.driver_state("d1").unwrap().is_online);
    drawer.open_drawer().unwrap();
    assert!(drawer.drawer_opened().unwrap());
    assert_eq!(count.load(Ordering::Relaxed), 2);
}

#[test]
fn a_driver_may_be_chosen_by_the_program() {
    let count = Arc::new(AtomicU32::new(1));
    let chosen = |is_counted: bool| -> Box<dyn Driver> {
        if is_counted {
            Box::new(Counted(Arc::clone(&count)))
        } else {
            Box::new(Wrong)
        }
    };
    for (is_counted, wanted) in [(true, None), (false, Some(ResultCode::Failure))] {
        let till = till();
        till.drive("d1", chosen(is_counted)).unwrap();
        let opened = till.cash_drawer("d1").unwrap().enabled().unwrap().open_drawer();
        assert_eq!(opened.err().and_then(|error| error.code()), wanted);
    }
    assert_eq!(count.load(Ordering::Relaxed), 2);
}

/// A device that does no order, and of which words are said once it was given one.
struct Failing {
    category: Category,
    words: Vec<String>,
    has_order: bool,
    /// How many bytes the library gets at a time from an order on, and how often more are refused.
    limit: (usize, u32),
}

impl Failing {
    fn new(category: Category, words: &[&str], limit: (usize, u32)) -> Failing {
        Failing { category, words: words.iter().map(|words| words.to_string()).collect(), has_order: false, limit }
    }
}

impl Driver for Failing {
    fn category(&self) -> Category {
        self.category
    }

    fn carry_out(&mut self, _: &mut DriverTill<'_>, _: &Order) -> bool {
        system::limit_memory(self.limit.0, self.limit.1);
        self.has_order = true;
        false
    }

    fn happened(&mut self, _: &mut DriverTill<'_>) -> Vec<String> {
        if self.has_order {
            std::mem::take(&mut self.words)
        } else {
            Vec::new()
        }
    }
}

#[test]
fn what_is_not_taken_is_told_again_in_its_order() {
    let words = ["open", "closed"].repeat(300);
    // The longest answer before it, and whether there is memory for events.
    for (answer, has_events) in [("", true), ("show p1\n", true), ("show p1\n", false)] {
        let till = till();
        let drawer = till.cash_drawer("d1").unwrap().enabled().unwrap();
        for is_open in [true, false].repeat(if has_events { 300 } else { 0 }) {
            till.input_drawer("d1", is_open).unwrap();
        }
        assert!(drawer.events().all(|event| event.is_ok()));
        till.carry_out(answer.repeat(20)).unwrap();
        till.drive("d1", Failing::new(Category::CashDrawer, &words, (0, u32::MAX))).unwrap();
        let lost = drawer.open_drawer().unwrap_err();
        system::give_memory();
        assert!(matches!(lost.cause(), Cause::NoAnswer), "{lost}");
        assert!(till.run_devices(Duration::ZERO).unwrap());
        let events: Vec<_> = drawer.events().collect::<Result<_, _>>().unwrap();
        let status = |is_open| if is_open { DrawerStatus::Open } else { DrawerStatus::Closed };
        let wanted = [true, false].repeat(300).into_iter().map(status).map(StatusUpdate::Drawer);
        assert_eq!(events, wanted.map(Event::StatusUpdate).collect::<Vec<_>>());
        assert!(!till.run_devices(Duration::ZERO).unwrap());
    }
    what_comes_behind_want_of_memory_is_told_again_too();
    a_call_that_is_not_begun_has_no_part_in_an_answer();
}

fn what_comes_behind_want_of_memory_is_told_again_too() {
    // With some of these events there is no room for one more.
    for count in 0..9 {
        let till = till();
        let drawer = till.cash_drawer("d1").unwrap().enabled().unwrap();
        (0..count).for_each(|place| till.input_drawer("d1", place % 2 == 0).unwrap());
        till.drive("d1", Failing::new(Category::CashDrawer, &["open", "closed", "open"], (0, 1))).unwrap();
        assert!(drawer.open_drawer().is_err());
        system::give_memory();
        till.run_devices(Duration::ZERO).unwrap();
        assert!(till.show_drawer("d1").unwrap(), "{count}");
    }
}

/// The answer before it was cut.
fn a_call_that_is_not_begun_has_no_part_in_an_answer() {
    let till = till();
    till.input_paper("r1", 1000).unwrap();
    let printer = till.pos_printer("r1").unwrap().enabled().unwrap();
    printer.print_normal(PrinterStation::Receipt, "a\n".repeat(50)).unwrap();
    till.drive("d1", Wrong).unwrap();
    system::limit_memory(5000, u32::MAX);
    let cut = till.carry_out("show r1\n".repeat(100)).unwrap_err();
    let refused = system::without_memory(|| till.show("d1").unwrap_err());
    assert!(matches!((cut.cause(), refused.cause()), (Cause::NoAnswer, Cause::NoMemory)), "{cut} {refused}");
}

#[test]
fn what_a_driver_says_may_have_line_ends() {
    for has_order in [false, true] {
        let till = till();
        let printer = till.pos_printer("r1").unwrap().enabled().unwrap();
        let words = ["cover open\n", "", "\n", " ", "cover closed\ncover open\r\n\npaper 3"];
        let driver = Failing::new(Category::PosPrinter, &words, (0, 0));
        till.drive("r1", Failing { has_order: !has_order, ..driver }).unwrap();
        let failed = printer.print_normal(PrinterStation::Receipt, "a\n").unwrap_err();
        assert_eq!(failed.extended(), Some(ExtendedCode::PrinterCoverOpen), "{failed}");
        assert_eq!(till.show_printer("r1").unwrap().lines, 3);
        assert!(!till.run_devices(Duration::ZERO).unwrap());
    }
}

#[test]
fn a_device_that_was_off_is_on_with_its_driver() {
    let till = till();
    till.input_power("d1", false).unwrap();
    till.drive("d1", Counted(Arc::new(AtomicU32::new(1)))).unwrap();
    till.cash_drawer("d1").unwrap().enabled().unwrap().open_drawer().unwrap();
}

#[test]
fn a_hosted_device_may_be_driven() {
    let (till, count) = (till(), Arc::new(AtomicU32::new(1)));
    let drawer = till.cash_drawer("d1").unwrap().enabled().unwrap();
    till.host("d1").unwrap();
    drawer.open_drawer().unwrap();
    till.drive("d1", Counted(Arc::clone(&count))).unwrap();
    drawer.open_drawer().unwrap();
    assert_eq!(count.load(Ordering::Relaxed), 2);
    assert_eq!(till.next_order().unwrap(), Some(Order::OpenDrawer { device: "d1".to_string() }));
    assert_eq!(till.next_order().unwrap(), None);
}

/// A drawer whose driver panics at its second and its fourth call. With the sixth it was opened.
struct Trips(u32);

impl Trips {
    fn step(&mut self) -> bool {
        self.0 += 1;
        assert!(self.0 != 2 && self.0 != 4, "on purpose");
        self.0 == 6
    }
}

impl Driver for Trips {
    fn category(&self) -> Category {
        Category::CashDrawer
    }

    fn poll(&mut self, _: &mut DriverTill<'_>) {
        self.step();
    }

    fn happened(&mut self, _: &mut DriverTill<'_>) -> Vec<String> {
        Vec::from_iter(self.step().then(|| "open".to_string()))
    }
}

#[test]
fn a_driver_that_panics_stays() {
    let till = till();
    till.drive("d1", Trips(0)).unwrap();
    for _ in 0..2 {
        assert!(catch_unwind(AssertUnwindSafe(|| till.run_devices(Duration::ZERO))).is_err());
    }
    assert!(till.run_devices(Duration::ZERO).unwrap());
    assert!(till.show_drawer("d1").unwrap());
    what_was_said_outlasts_a_panic();
}

/// A drawer whose driver says what is left of these at each look, and panics at the last.
struct Spoken(Vec<&'static str>);

impl Driver for Spoken {
    fn category(&self) -> Category {
        Category::CashDrawer
    }

    fn happened(&mut self, _: &mut DriverTill<'_>) -> Vec<String> {
        let words = self.0.pop().unwrap_or_default();
        assert!(words.is_empty() || !self.0.is_empty(), "on purpose");
        vec![words.to_string()]
    }
}

fn what_was_said_outlasts_a_panic() {
    let till = till();
    let drawer = till.cash_drawer("d1").unwrap().enabled().unwrap();
    till.drive("d1", Spoken(vec!["panic", "open", ""])).unwrap();
    let kept = system::without_memory(|| till.run_devices(Duration::ZERO).unwrap_err());
    assert!(matches!(kept.cause(), Cause::NoMemory));
    assert!(catch_unwind(AssertUnwindSafe(|| drawer.open_drawer())).is_err());
    assert!(till.run_devices(Duration::ZERO).unwrap());
    assert!(till.show_drawer("d1").unwrap());
}

#[test]
fn a_spare_has_the_driver_of_its_device() {
    for is_line in [false, true] {
        let (till, count) = (till(), Arc::new(AtomicU32::new(1)));
        till.drive("d1", Counted(Arc::clone(&count))).unwrap();
        if is_line {
            assert_eq!(till.carry_out("detach d1\n attach  d1 1\r\n").unwrap(), "ok\nok\n");
        } else {
            till.detach("d1").unwrap();
            till.attach("d1", 1).unwrap();
        }
        till.cash_drawer("d1").unwrap().enabled().unwrap().open_drawer().unwrap();
        assert_eq!(count.load(Ordering::Relaxed), 2);
    }
}

#[test]
fn a_spare_has_the_driver_from_the_next_line_on() {
    let (till, count) = (till(), Arc::new(AtomicU32::new(1)));
    till.drive("d1", Counted(Arc::clone(&count))).unwrap();
    let lines = "attach d1 1\ndetach d1\nattach d1 9\nattach d1 1\n\nnew d CashDrawer\nopen d d1\n\
                 set d DeviceEnabled true\ncall d openDrawer\nattach d1 1";
    let answers = "refused InUse\nok\nbad spare\nok\nok\nok\nok\nok\nbad spare\n";
    assert_eq!(till.carry_out(lines).unwrap(), answers);
    assert_eq!(count.load(Ordering::Relaxed), 2);
}

#[test]
fn output_that_is_refused_is_not_tried_all_the_time() {
    let till = till();
    till.drive("r1", Paper).unwrap();
    let printer = till.pos_printer("r1").unwrap().enabled().unwrap();
    printer.set_async_mode(true).unwrap();
    printer.print_normal(PrinterStation::Receipt, "a\n").unwrap();
    till.input_cover("r1", true).unwrap();
    let (began, mut errors) = (Instant::now(), 0);
    while began.elapsed() < Duration::from_millis(250) {
        till.run_devices(Duration::from_secs(1)).unwrap();
        errors += printer.events().filter(|event| matches!(event, Ok(Event::Error(_)))).count();
    }
    assert!((1..=4).contains(&errors), "{errors}");
    till.input_cover("r1", false).unwrap();
    assert!(till.run_devices(Duration::from_secs(1)).unwrap());
    assert!(printer.events().any(|event| matches!(event, Ok(Event::OutputComplete { .. }))));
}

/// A printer that prints everything.
struct Paper;

impl Driver for Paper {
    fn category(&self) -> Category {
        Category::PosPrinter
    }

    fn carry_out(&mut self, _: &mut DriverTill<'_>, _: &Order) -> bool {
        true
    }
}

/// A printer that prints nothing, and counts how often its output was given up.
struct GivenUp(Arc<AtomicU32>);

impl Driver for GivenUp {
    fn category(&self) -> Category {
        Category::PosPrinter
    }

    fn given_up(&mut self) {
        self.0.fetch_add(1, Ordering::Relaxed);
    }
}

#[test]
fn a_driver_knows_that_output_is_given_up() {
    let (till, count) = (till(), Arc::new(AtomicU32::new(0)));
    till.drive("r1", GivenUp(Arc::clone(&count))).unwrap();
    let given_up = || count.swap(0, Ordering::Relaxed);
    let printer = till.pos_printer("r1").unwrap().enabled().unwrap();
    printer.clear_output().unwrap();
    assert_eq!(given_up(), 1);
    printer.set_async_mode(true).unwrap();
    for (reply, wanted) in [(ErrorReply::Retry, 0), (ErrorReply::Clear, 1)] {
        for is_at_once in [false, true] {
            printer.print_normal(PrinterStation::Receipt, "a\n").unwrap();
            assert!(matches!(till.work("r1").unwrap(), Work::Failed { .. }));
            if is_at_once {
                while printer.next_event_replied(reply).unwrap().is_some() {}
            } else {
                printer.pump(|_| Some(reply)).unwrap();
            }
            assert_eq!(given_up(), wanted, "{reply:?} {is_at_once}");
        }
    }
    printer.release().unwrap();
    assert!(printer.release().is_err() && printer.clear_output().is_err());
    drop(printer);
    till.pos_printer("r1").unwrap().into_key().discard(&till).unwrap();
    assert_eq!(given_up(), 0);
    let begun = "new r POSPrinter\nopen r r1\nclaim r 0\nset r DeviceEnabled true\n";
    let lines = " call  r clearOutput \r\nrelease r\nrelease r\nclose r\nclose r\ncall r clearInput\ndeliver r clear\n";
    let answers = "ok\nok\nok\nok\nok\nok\nerr 106\nok\nerr 101\nerr 101\nnone\n";
    assert_eq!(till.carry_out(begun.to_string() + lines).unwrap(), answers);
    assert_eq!(given_up(), 1);
}

#[test]
fn a_host_that_says_nothing_keeps_no_other_device_waiting() {
    let (silent, _queue) = system::silent();
    let (till, port) = (till(), format!("tcp:{}", silent.local_addr().unwrap()));
    let settings = DisplaySettings { timeout: Duration::from_millis(10), pause: Duration::ZERO, ..Default::default() };
    till.drive("p1", SerialDisplay::open(port, settings)).unwrap();
    let (mut looks, end) = (0, Instant::now() + Duration::from_secs(10));
    while looks < 200 && Instant::now() < end {
        till.run_devices(Duration::ZERO).unwrap();
        looks += 1;
    }
    // If each waited for the host, these would take 50 seconds.
    assert_eq!(looks, 200);
    assert!(!till.driver_state("p1").unwrap().is_online);
}

#[test]
fn a_port_that_opens_late_is_found() {
    let listener = TcpListener::bind("127.0.0.1:0").unwrap();
    let (till, port) = (till(), format!("tcp:{}", listener.local_addr().unwrap()));
    // It isn't waited for at first, nor tried a second time.
    let timeout = Duration::from_nanos(1);
    let settings = DisplaySettings { timeout, pause: Duration::from_secs(1000), ..Default::default() };
    till.drive("p1", SerialDisplay::open(port, settings)).unwrap();
    let end = Instant::now() + Duration::from_secs(10);
    while !till.driver_state("p1").unwrap().is_online && Instant::now() < end {
        till.run_devices(Duration::from_millis(10)).unwrap();
    }
    assert!(till.driver_state("p1").unwrap().is_online);
}

#[test]
fn a_connection_that_leads_to_itself_is_none() {
    const ECONNREFUSED: i32 = 111;
    let (till, port) = (till(), Port::from(system::leads_to_itself()));
    till.drive("p1", SerialDisplay::open(port, DisplaySettings::default())).unwrap();
    let state = till.driver_state("p1").unwrap();
    assert_eq!((state.is_online, state.port_error), (false, Some(ECONNREFUSED)));
}

#[test]
fn a_port_that_is_closed_is_so_in_all_processes() {
    let listener = TcpListener::bind("127.0.0.1:0").unwrap();
    let till = till();
    let port = format!("tcp:{}", listener.local_addr().unwrap());
    till.drive("p1", SerialDisplay::open(port, DisplaySettings::default())).unwrap();
    let (mut stream, _) = listener.accept().unwrap();
    stream.set_read_timeout(Some(Duration::from_secs(5))).unwrap();
    till.drive("s1", WedgeScanner::open(Port::Keys("/dev/ptmx".into()))).unwrap();
    assert_eq!(system::grabs(), [1]);
    let _lingering = system::Lingering::fork();
    // A process that was forked closes nothing of this one.
    assert!(system::is_so_forked(|| {
        // SAFETY: the process ends before it would drop it again.
        unsafe { drop(std::ptr::read(&till)) };
        system::grabs().is_empty()
    }));
    till.line_display("p1").unwrap().enabled().unwrap().display_text("A", DisplayAttribute::Normal).unwrap();
    drop(till);
    let mut got = Vec::new();
    stream.read_to_end(&mut got).expect("the connection ends");
    assert!(got.contains(&b'A'));
    assert_eq!(system::grabs(), [0]);
}

#[test]
fn what_is_no_device_is_no_port() {
    const ENODEV: i32 = 19;
    const EISDIR: i32 = 21;
    let place = Place::new("no-port");
    let (file, pipe) = (place.0.join("file"), place.0.join("pipe"));
    File::create(&file).unwrap();
    system::make_pipe(&pipe);
    // Without it the pipe would be at its end.
    let _writes = File::options().read(true).write(true).open(&pipe).unwrap();
    let ports = [
        (Port::from(&file), Some(ENODEV)),
        (Port::Keys(file), Some(ENODEV)),
        (Port::from(&place.0), Some(EISDIR)),
        (Port::Keys(place.0.clone()), Some(ENODEV)),
        (Port::from(&pipe), Some(ENODEV)),
        (Port::Serial(pipe.clone(), SerialSettings::default()), Some(ENODEV)),
        (Port::Keys(pipe), None),
    ];
    for (port, fault) in ports {
        let (till, name) = (till(), format!("{port:?}"));
        till.drive("s1", WedgeScanner::open(port)).unwrap();
        let state = till.driver_state("s1").unwrap();
        assert_eq!((state.is_online, state.port_error), (fault.is_none(), fault), "{name}");
    }
}

#[test]
fn what_a_line_has_not_sent_is_dropped_as_it_is_closed() {
    for held in [0, 3] {
        let ((_device, path), till) = (system::terminal(), till());
        till.drive("p1", SerialDisplay::open(Port::Line(path), DisplaySettings::default())).unwrap();
        system::hold(held);
        system::drops();
        drop(till);
        system::hold(0);
        assert_eq!(system::drops(), u32::from(held > 0));
    }
}

/// How often a printer is asked whether it is there, by what has come over its line so far.
fn questions(device: &mut File) -> usize {
    let (mut room, mut found) = ([0; 4096], Vec::new());
    while let Ok(count) = device.read(&mut room) {
        found.extend_from_slice(&room[..count]);
    }
    found.windows(3).filter(|bytes| bytes == b"\x10\x04\x01").count()
}

#[test]
fn questions_do_not_pile_up_in_a_line() {
    for is_asked in [false, true] {
        let (mut device, path) = system::terminal();
        let till = till();
        let settings = EscPosSettings { timeout: Duration::from_millis(50), is_asked, ..EscPosSettings::default() };
        till.drive("r1", EscPosPrinter::open(Port::Serial(path, SerialSettings::default()), settings)).unwrap();
        let mut runs = |time| {
            let end = Instant::now() + Duration::from_millis(time);
            while Instant::now() < end {
                till.run_devices(Duration::from_millis(10)).unwrap();
            }
            questions(&mut device)
        };
        // The printer is off, which is asked again and again.
        let (mut count, end) = (runs(0), Instant::now() + Duration::from_secs(10));
        while count < 3 && Instant::now() < end {
            count += runs(50);
        }
        assert!(count >= 3, "{count} {is_asked}");
        // The line holds the last question back, which may be on its way to the other end still.
        system::hold(3);
        runs(100);
        let count = runs(500);
        assert!(count <= 1, "{count} {is_asked}");
        system::hold(0);
        let (mut count, end) = (0, Instant::now() + Duration::from_secs(10));
        while count == 0 && Instant::now() < end {
            count = runs(50);
        }
        assert!(count > 0, "{is_asked}");
    }
}

#[test]
fn a_driven_printer_may_be_detached() {
    let till = till();
    till.drive("r1", Paper).unwrap();
    // The till takes the paper away only after these lines.
    let lines = "new r POSPrinter\nopen r r1\nclaim r 0\nset r DeviceEnabled true\ninput r1 paper 1000\n".to_string()
        + &"call r printNormal 2 410a\n".repeat(600)
        + "close r\ndetach r1\n";
    assert_eq!(till.carry_out(lines).unwrap(), "ok\n".repeat(607));
    assert!(!till.run_devices(Duration::ZERO).unwrap());
}

#[test]
fn a_wait_for_devices_may_have_no_end() {
    let (till, timeout) = (till(), Duration::from_secs(2_147_483));
    till.drive("s1", Codes::of(&["4006381"])).unwrap();
    // Nothing listens at this port.
    let settings = EscPosSettings { timeout, pause: timeout, ..EscPosSettings::default() };
    till.drive("r1", EscPosPrinter::open("tcp:127.0.0.1:1", settings)).unwrap();
    let settings = DisplaySettings { timeout, pause: timeout, ..DisplaySettings::default() };
    till.drive("p1", SerialDisplay::open("/dev/null", settings)).unwrap();
    let display = till.line_display("p1").unwrap().enabled().unwrap();
    display.display_text("4.50", DisplayAttribute::Normal).unwrap();
    assert!(till.run_devices(Duration::MAX).unwrap());
}

/// A scanner at which memory runs out as soon as a printer has got a line.
struct Starving(Arc<AtomicU32>, Arc<AtomicBool>);

impl Driver for Starving {
    fn category(&self) -> Category {
        Category::Scanner
    }

    fn read_ahead(&mut self) -> Option<RawFd> {
        if self.0.load(Ordering::Relaxed) == 1 && !self.1.swap(true, Ordering::Relaxed) {
            system::limit_memory(0, u32::MAX);
        }
        None
    }
}

/// A printer that is asked. It counts its lines, and acknowledges them once memory is short.
fn print_asked(listener: TcpListener, lines: Arc<AtomicU32>, is_short: Arc<AtomicBool>) {
    let (mut stream, _) = listener.accept().unwrap();
    let (mut got, mut room) = (Vec::new(), [0; 256]);
    while let Ok(count @ 1..) = stream.read(&mut room) {
        got.extend_from_slice(&room[..count]);
        let mut at = 0;
        while got.len() - at >= 3 || got[at..].ends_with(b"\n") {
            let answer = match &got[at..] {
                [b'\n', ..] => {
                    lines.fetch_add(1, Ordering::Relaxed);
                    None
                }
                [0x10, 0x04, ..] => Some(0x12),
                [0x1d, b'r', ..] => Some(0),
                _ => None,
            };
            while answer == Some(0) && !is_short.load(Ordering::Relaxed) {
                std::thread::sleep(Duration::from_millis(1));
            }
            at += if answer.is_some() { 3 } else { 1 };
            if answer.is_some_and(|byte| stream.write_all(&[byte]).is_err()) {
                return;
            }
        }
        got.drain(..at);
    }
}

#[test]
fn an_answer_without_a_number_outlasts_want_of_memory() {
    let (till, listener) = (till(), TcpListener::bind("127.0.0.1:0").unwrap());
    let (lines, is_short) = (Arc::new(AtomicU32::new(0)), Arc::new(AtomicBool::new(false)));
    let port = format!("tcp:{}", listener.local_addr().unwrap());
    spawn({
        let (lines, is_short) = (Arc::clone(&lines), Arc::clone(&is_short));
        move || print_asked(listener, lines, is_short)
    });
    till.drive("s1", Starving(Arc::clone(&lines), is_short)).unwrap();
    let settings = EscPosSettings { is_asked: true, timeout: Duration::from_secs(1), ..EscPosSettings::default() };
    till.drive("r1", EscPosPrinter::open(port, settings)).unwrap();
    let printer = till.pos_printer("r1").unwrap().enabled().unwrap();
    let print = || printer.print_normal(PrinterStation::Receipt, "Bread\n");
    assert!(print().is_err());
    system::give_memory();
    let end = Instant::now() + Duration::from_secs(20);
    while print().is_err() && Instant::now() < end {
        till.run_devices(Duration::ZERO).unwrap();
    }
    assert_eq!(lines.load(Ordering::Relaxed), 1);
}

#[test]
fn a_claim_may_have_no_end() {
    let till = till();
    let scanner = till.scanner("s1").unwrap();
    for timeout in [None, Some(Duration::MAX), Some(Duration::from_secs(1_000_000_000_000_000))] {
        scanner.claim(timeout).unwrap();
    }
    let error = till.scanner("s1").unwrap().claim(Some(Duration::MAX)).unwrap_err();
    assert_eq!(error.code(), Some(ResultCode::Timeout));
}

#[test]
fn a_device_that_sends_on_and_on_holds_nothing_up() {
    let listener = TcpListener::bind("127.0.0.1:0").unwrap();
    let port = format!("tcp:{}", listener.local_addr().unwrap());
    spawn(move || {
        for mut stream in listener.incoming().flatten() {
            spawn(move || while stream.write_all(&[b'x'; 65_536]).is_ok() {});
        }
    });
    let (done, waiting) = channel();
    spawn(move || {
        let till = till();
        let settings = EscPosSettings { timeout: Duration::from_millis(100), ..EscPosSettings::default() };
        till.drive("r1", EscPosPrinter::open(&port[..], settings)).unwrap();
        till.drive("s1", WedgeScanner::open(&port[..])).unwrap();
        let _ = done.send(till.run_devices(Duration::from_millis(100)).is_ok());
    });
    assert_eq!(waiting.recv_timeout(Duration::from_secs(10)), Ok(true));
}

/// A scanner whose driver counts how often it looks at it, and finds its codes the third time.
struct Polled(Arc<AtomicU32>, Codes);

impl Driver for Polled {
    fn category(&self) -> Category {
        Category::Scanner
    }

    fn poll(&mut self, _: &mut DriverTill<'_>) {
        self.0.fetch_add(1, Ordering::Relaxed);
    }

    fn scans(&mut self) -> Vec<Scan> {
        if self.0.load(Ordering::Relaxed) == 3 {
            self.1.scans()
        } else {
            Vec::new()
        }
    }
}

#[test]
fn a_port_that_gives_nothing_is_not_read_all_the_time() {
    let (till, count) = (till(), Arc::new(AtomicU32::new(0)));
    till.drive("s1", Polled(Arc::clone(&count), Codes::of(&[]))).unwrap();
    till.drive("p1", SerialDisplay::open("/dev/null", DisplaySettings::default())).unwrap();
    assert!(!till.run_devices(Duration::from_millis(300)).unwrap());
    let count = count.load(Ordering::Relaxed);
    assert!(count <= 5, "{count}");
}

/// A printer that notes at each order how often a scanner was looked at.
struct Noted(Arc<AtomicU32>, Sender<u32>);

impl Driver for Noted {
    fn category(&self) -> Category {
        Category::PosPrinter
    }

    fn carry_out(&mut self, _: &mut DriverTill<'_>, _: &Order) -> bool {
        self.1.send(self.0.load(Ordering::Relaxed)).is_ok()
    }
}

#[test]
fn a_call_prints_one_request_and_looks_at_scanners() {
    let (till, count, (note, noted)) = (till(), Arc::new(AtomicU32::new(0)), channel());
    till.drive("s1", Polled(Arc::clone(&count), Codes::of(&["4006381"]))).unwrap();
    till.drive("r1", Noted(count, note)).unwrap();
    let scanner = till.scanner("s1").unwrap().enabled().unwrap();
    scanner.set_data_event_enabled(true).unwrap();
    let printer = till.pos_printer("r1").unwrap().enabled().unwrap();
    printer.set_async_mode(true).unwrap();
    for _ in 0..3 {
        printer.print_normal(PrinterStation::Receipt, "a\n").unwrap();
    }
    for looks in 1..=3 {
        assert!(till.run_devices(Duration::ZERO).unwrap());
        assert_eq!(noted.try_iter().collect::<Vec<_>>(), [looks]);
    }
    assert_eq!(scanner.events().map(Result::unwrap).collect::<Vec<_>>(), [Event::Data]);
}

/// A scanner whose bytes would be lost if nobody read them soon, and how many it has read.
struct Hasty(UnixStream, Arc<AtomicU32>);

impl Driver for Hasty {
    fn category(&self) -> Category {
        Category::Scanner
    }

    fn read_ahead(&mut self) -> Option<RawFd> {
        let count = self.0.read(&mut [0; 16]).unwrap_or(0);
        self.1.fetch_add(count as u32, Ordering::Relaxed);
        Some(self.0.as_raw_fd())
    }
}

#[test]
fn a_driver_reads_ahead_while_another_device_is_waited_for() {
    let (mut device, stream) = UnixStream::pair().unwrap();
    stream.set_nonblocking(true).unwrap();
    let (till, read) = (till(), Arc::new(AtomicU32::new(0)));
    till.drive("s1", Hasty(stream, Arc::clone(&read))).unwrap();
    let listener = TcpListener::bind("127.0.0.1:0").unwrap();
    let port = format!("tcp:{}", listener.local_addr().unwrap());
    let printer = spawn(move || {
        let _stream = listener.accept().unwrap();
        device.write_all(b"4006381").unwrap();
        let began = Instant::now();
        while read.load(Ordering::Relaxed) < 7 && began.elapsed() < Duration::from_secs(10) {
            std::thread::sleep(Duration::from_millis(1));
        }
        read.load(Ordering::Relaxed)
    });
    // The call waits for the printer's first status, which never comes.
    let settings = EscPosSettings { timeout: Duration::from_secs(60), ..EscPosSettings::default() };
    till.drive("r1", EscPosPrinter::open(port, settings)).unwrap();
    assert_eq!(printer.join().unwrap(), 7);
}

#[test]
fn a_till_without_drivers_waits() {
    let (till, began, timeout) = (till(), Instant::now(), Duration::from_millis(30));
    assert!(!till.run_devices(timeout).unwrap());
    assert!(began.elapsed() >= timeout);
}

/// What the tests have of the system beside Rust's library. A function that the crate calls is in place of the
/// system's.
mod system {
    use std::cell::{Cell, RefCell};
    use std::ffi::{c_char, c_int, c_long, c_short, c_uint, c_ulong, c_void, CStr, CString, OsStr};
    use std::fs::{File, OpenOptions};
    use std::net::{SocketAddr, TcpListener, TcpStream};
    use std::os::fd::AsRawFd;
    use std::os::unix::ffi::OsStrExt;
    use std::os::unix::fs::OpenOptionsExt;
    use std::path::{Path, PathBuf};
    use std::sync::atomic::{AtomicU16, Ordering};
    use std::time::Duration;

    extern "C" {
        fn listen(file: c_int, count: c_int) -> c_int;
        fn fork() -> c_int;
        fn waitpid(process: c_int, status: *mut c_int, options: c_int) -> c_int;
        fn kill(process: c_int, signal: c_int) -> c_int;
        fn pause() -> c_int;
        fn setsid() -> c_int;
        fn mkfifo(path: *const c_char, mode: c_uint) -> c_int;
        fn _exit(status: c_int) -> !;
        fn syscall(number: c_long, ...) -> c_long;
        fn __errno_location() -> *mut c_int;
        fn malloc(size: usize) -> *mut c_void;
        fn realloc(at: *mut c_void, size: usize) -> *mut c_void;
        fn free(at: *mut c_void);
        fn dlsym(library: *mut c_void, name: *const c_char) -> *mut c_void;
    }

    /// A function of the system that begins a thread.
    type Begin = unsafe extern "C" fn(
        *mut c_ulong,
        *const c_void,
        extern "C" fn(*mut c_void) -> *mut c_void,
        *mut c_void,
    ) -> c_int;

    /// Linux's numbers, on x86-64.
    const SYS_POLL: c_long = 7;
    const SYS_IOCTL: c_long = 16;
    const SYS_CONNECT: c_long = 42;
    const SYS_BIND: c_long = 49;
    const AF_INET: u16 = 2;
    const EVIOCGRAB: c_ulong = 0x4004_4590;
    const POLLOUT: c_short = 4;
    const TCFLSH: c_ulong = 0x540b;
    const TCOFLUSH: usize = 1;
    const TIOCOUTQ: c_ulong = 0x5411;
    const TIOCSPTLCK: c_ulong = 0x4004_5431;
    const TIOCGPTN: c_ulong = 0x8004_5430;
    const O_NONBLOCK: c_int = 0o4000;
    const O_NOCTTY: c_int = 0o400;
    const SYS_FLOCK: c_long = 73;
    const SYS_FSYNC: c_long = 74;
    const SYS_RENAME: c_long = 82;
    const SYS_LINKAT: c_long = 265;
    const LOCK_UN: c_int = 8;
    const SIGKILL: c_int = 9;
    const EAGAIN: c_int = 11;
    /// The functions behind those of this program.
    const RTLD_NEXT: isize = -1;

    thread_local! {
        static LINGERS: Cell<bool> = const { Cell::new(false) };
        static LINGERING: RefCell<Vec<c_int>> = const { RefCell::new(Vec::new()) };
        static GRABS: RefCell<Vec<usize>> = const { RefCell::new(Vec::new()) };
        static HELD: Cell<c_int> = const { Cell::new(0) };
        static DROPS: Cell<u32> = const { Cell::new(0) };
        static TAKES: Cell<u32> = const { Cell::new(u32::MAX) };
        static SYNCED: RefCell<Vec<PathBuf>> = const { RefCell::new(Vec::new()) };
        static SYNC_FAULT: Cell<c_int> = const { Cell::new(0) };
        static LINK_FAULT: Cell<c_int> = const { Cell::new(0) };
        static RENAME_FAULT: Cell<c_int> = const { Cell::new(0) };
        static RENAMED: RefCell<Vec<(usize, Option<u64>)>> = const { RefCell::new(Vec::new()) };
        static LIMIT: Cell<(usize, u32)> = const { Cell::new((0, 0)) };
        static HAS_THREADS: Cell<bool> = const { Cell::new(true) };
    }

    /// The number of a TCP port that leads to itself.
    static ITS_OWN: AtomicU16 = AtomicU16::new(0);

    /// Whether a process that is forked finds something so. It panics nowhere, since it has this thread alone.
    pub fn is_so_forked(finds: impl FnOnce() -> bool) -> bool {
        // SAFETY: the forked process ends here, and this one waits for it.
        unsafe {
            let child = fork();
            if child == 0 {
                _exit(i32::from(!finds()));
            }
            let mut status = -1;
            waitpid(child, &mut status, 0) == child && status == 0
        }
    }

    /// Locks a file or unlocks it. In [`with_lingering`] a process is forked behind a lock, and has the file too.
    ///
    /// # Safety
    ///
    /// As the system's.
    #[no_mangle]
    pub unsafe extern "C" fn flock(file: c_int, operation: c_int) -> c_int {
        // SAFETY: the file is the caller's, and the forked process does nothing until it is ended.
        unsafe {
            let done = syscall(SYS_FLOCK, file, operation) as c_int;
            if done == 0 && operation & LOCK_UN == 0 && LINGERS.get() {
                linger();
            }
            done
        }
    }

    /// Forks a process that has all files of this one, until it is ended.
    fn linger() {
        // SAFETY: the forked process does nothing.
        let child = unsafe { fork() };
        if child == 0 {
            loop {
                // SAFETY: it takes nothing.
                unsafe { pause() };
            }
        }
        LINGERING.with_borrow_mut(|list| list.push(child));
    }

    /// The processes that were forked, which end with this.
    pub struct Lingering;

    impl Lingering {
        /// Forks one, which has all files that are open now.
        pub fn fork() -> Lingering {
            linger();
            Lingering
        }
    }

    impl Drop for Lingering {
        fn drop(&mut self) {
            LINGERS.set(false);
            for child in LINGERING.take() {
                // SAFETY: this process has forked it, and nobody has waited for it.
                unsafe {
                    kill(child, SIGKILL);
                    waitpid(child, &mut 0, 0);
                }
            }
        }
    }

    /// Asks the driver of a file for something, and notes whether a keyboard is grabbed, and how often a line drops
    /// what it hasn't sent. A pseudo terminal doesn't say how much it holds.
    ///
    /// # Safety
    ///
    /// As the system's.
    #[no_mangle]
    pub unsafe extern "C" fn ioctl(file: c_int, request: c_ulong, argument: *mut c_void) -> c_int {
        if request == EVIOCGRAB {
            GRABS.with_borrow_mut(|list| list.push(argument.addr()));
        }
        if request == TCFLSH && argument.addr() == TCOFLUSH {
            DROPS.set(DROPS.get() + 1);
        }
        if request == TIOCOUTQ && HELD.get() > 0 {
            // SAFETY: the place is the caller's.
            unsafe { *argument.cast() = HELD.get() };
            return 0;
        }
        // SAFETY: the file and the argument are the caller's.
        unsafe { syscall(SYS_IOCTL, file, request, argument) as c_int }
    }

    /// Makes each line hold so many bytes.
    pub fn hold(count: c_int) {
        HELD.set(count);
    }

    /// What is waited for at a file, and what has happened there.
    #[repr(C)]
    pub struct Waiting {
        file: c_int,
        events: c_short,
        found: c_short,
    }

    /// Waits for files. After [`fill_after`] none takes bytes.
    ///
    /// # Safety
    ///
    /// As the system's.
    #[no_mangle]
    pub unsafe extern "C" fn poll(files: *mut Waiting, count: c_ulong, time: c_int) -> c_int {
        // SAFETY: the files are the caller's.
        let (mut ready, files) = unsafe {
            (syscall(SYS_POLL, files, count, time) as c_int, std::slice::from_raw_parts_mut(files, count as usize))
        };
        for file in files.iter_mut().filter(|file| file.found & POLLOUT != 0) {
            if TAKES.get() == 0 {
                ready -= c_int::from(file.found == POLLOUT);
                file.found &= !POLLOUT;
            } else {
                TAKES.set(TAKES.get() - 1);
            }
        }
        ready
    }

    /// Makes devices say so often more that they take bytes, and no more from then on.
    pub fn fill_after(count: u32) {
        TAKES.set(count);
    }

    /// How often what a line hasn't sent was dropped since the last time.
    pub fn drops() -> u32 {
        DROPS.take()
    }

    /// A TCP port that says nothing to who connects to it, since its queue is full.
    pub fn silent() -> (TcpListener, Vec<TcpStream>) {
        let (listener, mut queue) = (TcpListener::bind("127.0.0.1:0").unwrap(), Vec::new());
        let address = listener.local_addr().unwrap();
        // SAFETY: the socket is open.
        assert_eq!(unsafe { listen(listener.as_raw_fd(), 0) }, 0);
        while let Ok(stream) = TcpStream::connect_timeout(&address, Duration::from_millis(500)) {
            queue.push(stream);
        }
        (listener, queue)
    }

    /// The beginning of an address of IPv4, as Linux has it.
    #[repr(C)]
    pub struct Address {
        family: u16,
        number: [u8; 2],
    }

    /// Connects to an address. A connection to that of [`leads_to_itself`] is from there.
    ///
    /// # Safety
    ///
    /// As the system's.
    #[no_mangle]
    pub unsafe extern "C" fn connect(file: c_int, address: *const Address, size: c_uint) -> c_int {
        // SAFETY: the file and the address are the caller's.
        unsafe {
            if (*address).family == AF_INET && (*address).number == ITS_OWN.load(Ordering::Relaxed).to_be_bytes() {
                assert_eq!(syscall(SYS_BIND, file, address, size), 0);
            }
            syscall(SYS_CONNECT, file, address, size) as c_int
        }
    }

    /// An address at which nobody listens. Who connects to it has a connection that leads to itself.
    pub fn leads_to_itself() -> SocketAddr {
        let address = TcpListener::bind("127.0.0.1:0").unwrap().local_addr().unwrap();
        ITS_OWN.store(address.port(), Ordering::Relaxed);
        address
    }

    /// A pseudo terminal: one end, and the path of the other.
    pub fn terminal() -> (File, PathBuf) {
        let mut options = OpenOptions::new();
        let file = options.read(true).write(true).custom_flags(O_NONBLOCK | O_NOCTTY).open("/dev/ptmx").unwrap();
        let (mut number, mut unlocked): (c_int, c_int) = (0, 0);
        // SAFETY: the file is open, and the numbers are lent for the calls.
        let failed = unsafe {
            ioctl(file.as_raw_fd(), TIOCSPTLCK, (&raw mut unlocked).cast())
                | ioctl(file.as_raw_fd(), TIOCGPTN, (&raw mut number).cast())
        };
        assert_eq!(failed, 0);
        (file, format!("/dev/pts/{number}").into())
    }

    /// Leaves the terminal of this process, if it has one.
    pub fn leave_terminal() {
        // SAFETY: it takes nothing.
        unsafe { setsid() };
    }

    /// Whether this process has a terminal.
    pub fn has_terminal() -> bool {
        File::open("/dev/tty").is_ok()
    }

    /// Whether this process waits where it reads a file or writes it, if it has the file open.
    pub fn waits_at(path: &Path) -> Option<bool> {
        let path = std::fs::canonicalize(path).unwrap();
        let mut files = std::fs::read_dir("/proc/self/fd").unwrap().flatten();
        let file = files.find(|file| std::fs::read_link(file.path()).is_ok_and(|found| found == path))?;
        let said = std::fs::read_to_string(Path::new("/proc/self/fdinfo").join(file.file_name())).unwrap();
        let flags = said.lines().find_map(|line| line.strip_prefix("flags:")).unwrap();
        Some(c_int::from_str_radix(flags.trim(), 8).unwrap() & O_NONBLOCK == 0)
    }

    /// What was asked of keyboards since the last time: 1 grabs one, and 0 ends that.
    pub fn grabs() -> Vec<usize> {
        GRABS.take()
    }

    /// Does something. From each lock of a file on, a process that was forked has the file too, as one has that is
    /// about to run a program.
    pub fn with_lingering<R>(does: impl FnOnce() -> R) -> R {
        let _lingering = Lingering;
        LINGERS.set(true);
        does()
    }

    /// Syncs a file, and notes its path.
    ///
    /// # Safety
    ///
    /// As the system's.
    #[no_mangle]
    pub unsafe extern "C" fn fsync(file: c_int) -> c_int {
        let path = std::fs::read_link(format!("/proc/self/fd/{file}"));
        SYNCED.with_borrow_mut(|list| list.extend(path));
        // SAFETY: the file is the caller's, and the number of the fault is this thread's.
        unsafe {
            if SYNC_FAULT.get() == 0 {
                return syscall(SYS_FSYNC, file) as c_int;
            }
            *__errno_location() = SYNC_FAULT.get();
            -1
        }
    }

    /// Does something, and returns what was synced. Each sync fails with the system's number of a fault, if that isn't
    /// 0.
    pub fn with_sync_fault<R>(fault: c_int, does: impl FnOnce() -> R) -> (R, Vec<PathBuf>) {
        SYNCED.take();
        SYNC_FAULT.set(fault);
        let found = does();
        SYNC_FAULT.set(0);
        (found, SYNCED.take())
    }

    /// Gives a file a second name.
    ///
    /// # Safety
    ///
    /// As the system's.
    #[no_mangle]
    pub unsafe extern "C" fn linkat(
        from: c_int,
        old: *const c_char,
        to: c_int,
        new: *const c_char,
        flags: c_int,
    ) -> c_int {
        // SAFETY: the texts are the caller's, and the number of the fault is this thread's.
        unsafe {
            if LINK_FAULT.get() == 0 {
                return syscall(SYS_LINKAT, from, old, to, new, flags) as c_int;
            }
            *__errno_location() = LINK_FAULT.get();
            -1
        }
    }

    /// Renames a file. It notes how many syncs were before, and how long a file is that it replaces.
    ///
    /// # Safety
    ///
    /// As the system's.
    #[no_mangle]
    pub unsafe extern "C" fn rename(old: *const c_char, new: *const c_char) -> c_int {
        // SAFETY: the texts are the caller's, and the number of the fault is this thread's.
        unsafe {
            let replaced = std::fs::metadata(OsStr::from_bytes(CStr::from_ptr(new).to_bytes()));
            let found = (SYNCED.with_borrow(Vec::len), replaced.ok().map(|file| file.len()));
            RENAMED.with_borrow_mut(|list| list.push(found));
            if RENAME_FAULT.get() == 0 {
                return syscall(SYS_RENAME, old, new) as c_int;
            }
            *__errno_location() = RENAME_FAULT.get();
            -1
        }
    }

    /// Does something, and returns what was renamed. Linking and renaming fail with the system's number of a fault
    /// each, if that isn't 0.
    pub fn with_name_faults<R>(link: c_int, rename: c_int, does: impl FnOnce() -> R) -> (R, Vec<(usize, Option<u64>)>) {
        RENAMED.take();
        LINK_FAULT.set(link);
        RENAME_FAULT.set(rename);
        let found = does();
        LINK_FAULT.set(0);
        RENAME_FAULT.set(0);
        (found, RENAMED.take())
    }

    /// Makes a pipe with a name.
    pub fn make_pipe(path: &Path) {
        let path = CString::new(path.as_os_str().as_bytes()).unwrap();
        // SAFETY: it is a text that ends in a 0 byte, lent for the call.
        assert_eq!(unsafe { mkfifo(path.as_ptr(), 0o600) }, 0);
    }

    /// What the heap of the library answers: whether there is memory, and where; else any place but null.
    #[repr(C)]
    pub struct Tried {
        is_there: bool,
        at: *mut c_void,
    }

    fn tried(size: usize, find: impl FnOnce(usize) -> *mut c_void) -> Tried {
        let (most, count) = LIMIT.get();
        let is_refused = size > most && count > 0;
        LIMIT.set((most, count - u32::from(is_refused)));
        let found = if is_refused { std::ptr::null_mut() } else { find(size) };
        let is_there = !found.is_null();
        Tried { is_there, at: if is_there { found } else { std::ptr::dangling_mut::<u64>().cast() } }
    }

    /// Allocates for the library.
    ///
    /// # Safety
    ///
    /// As `malloc`.
    #[no_mangle]
    pub unsafe extern "C" fn rattle_alloc(size: usize, align: usize) -> Tried {
        // SAFETY: the size isn't 0.
        tried(if size != 0 { size } else { align }, |size| unsafe { malloc(size) })
    }

    /// Allocates again for the library.
    ///
    /// # Safety
    ///
    /// As `realloc`.
    #[no_mangle]
    pub unsafe extern "C" fn rattle_realloc(at: *mut c_void, _kept: usize, size: usize, align: usize) -> Tried {
        // SAFETY: the library has the place from here.
        tried(if size != 0 { size } else { align }, |size| unsafe { realloc(at, size) })
    }

    /// Frees for the library.
    ///
    /// # Safety
    ///
    /// As `free`.
    #[no_mangle]
    pub unsafe extern "C" fn rattle_dealloc(at: *mut c_void) {
        // SAFETY: the library has the place from here.
        unsafe { free(at) }
    }

    /// Gives the library at most so many bytes at a time from now on, until it was refused more so often.
    pub fn limit_memory(most: usize, count: u32) {
        LIMIT.set((most, count));
    }

    /// Gives the library all memory from now on.
    pub fn give_memory() {
        limit_memory(0, 0);
    }

    /// Does something while the library gets no memory.
    pub fn without_memory<R>(does: impl FnOnce() -> R) -> R {
        limit_memory(0, u32::MAX);
        let found = does();
        give_memory();
        found
    }

    /// Begins a thread, as the system does.
    ///
    /// # Safety
    ///
    /// As the system's.
    #[no_mangle]
    pub unsafe extern "C" fn pthread_create(
        thread: *mut c_ulong,
        attributes: *const c_void,
        run: extern "C" fn(*mut c_void) -> *mut c_void,
        with: *mut c_void,
    ) -> c_int {
        if !HAS_THREADS.get() {
            return EAGAIN;
        }
        // SAFETY: the system has the function, which takes what this takes.
        unsafe {
            let begin = dlsym(std::ptr::without_provenance_mut(RTLD_NEXT as usize), c"pthread_create".as_ptr());
            std::mem::transmute::<*mut c_void, Begin>(begin)(thread, attributes, run, with)
        }
    }

    /// Does something while the system gives no thread.
    pub fn without_threads<R>(does: impl FnOnce() -> R) -> R {
        HAS_THREADS.set(false);
        let found = does();
        HAS_THREADS.set(true);
        found
    }
}
