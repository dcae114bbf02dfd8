//! The file of a till's totals: opened or created, and locked. And copies of such files.
use crate::error::Cause;
use crate::ports::{EINVAL, O_NOCTTY, O_NONBLOCK};
use crate::raw::{kijolvar_format_file, linkat, AT_FDCWD, AT_SYMLINK_FOLLOW, O_TMPFILE};
use crate::standard::library::DISK_LENGTH;
use crate::till::Inner;
use std::ffi::{c_int, CString, OsStr};
use std::fs::{self, File, OpenOptions};
use std::io::{self, ErrorKind};
use std::ops::Deref;
use std::os::fd::AsRawFd;
use std::os::unix::ffi::OsStrExt;
use std::os::unix::fs::{FileExt, MetadataExt, OpenOptionsExt};
use std::path::{Path, PathBuf};
use std::process;

/// Where a till has its totals.
#[derive(Debug, Clone, PartialEq, Eq)]
#[non_exhaustive]
pub enum Totals {
    /// In memory: they end with the till.
    Memory,
    /// In the file of this path, which has to be there.
    Existing(PathBuf),
    /// In the file of this path, which is created if it is missing.
    Create(PathBuf),
    /// In a new file of this path, which must not be there.
    CreateNew(PathBuf),
}

impl Totals {
    /// Returns the totals in the file of a path, which has to be there.
    pub fn existing(path: impl Into<PathBuf>) -> Totals {
        Totals::Existing(path.into())
    }

    /// Returns the totals in the file of a path, which is created if it is missing.
    pub fn create(path: impl Into<PathBuf>) -> Totals {
        Totals::Create(path.into())
    }

    /// Returns the totals in a new file of a path.
    pub fn create_new(path: impl Into<PathBuf>) -> Totals {
        Totals::CreateNew(path.into())
    }

    /// Opens or creates the file for a till over the profile, and locks it against every other till.
    pub(crate) fn open(&self, profile: &str) -> Result<Option<LockedFile>, Cause> {
        match self {
            Totals::Memory => Ok(None),
            Totals::Existing(path) => open_existing(path).map(Some).map_err(Cause::System),
            Totals::CreateNew(path) => create_new(path, profile).map(Some),
            Totals::Create(path) => match open_existing(path) {
                Err(cause) if cause.kind() == ErrorKind::NotFound => match create_new(path, profile) {
                    // Another till created it in between.
                    Err(Cause::System(cause)) if cause.kind() == ErrorKind::AlreadyExists => {
                        open_existing(path).map(Some).map_err(Cause::System)
                    }
                    created => created.map(Some),
                },
                opened => opened.map(Some).map_err(Cause::System),
            },
        }
    }
}

/// A file that is locked against every other till, and the process that has locked it.
pub(crate) struct LockedFile {
    file: File,
    process: u32,
}

impl LockedFile {
    /// Locks a file.
    fn new(file: File) -> io::Result<LockedFile> {
        file.try_lock()?;
        Ok(LockedFile { file, process: process::id() })
    }

    /// Locks a file that is only read.
    fn shared(file: File) -> io::Result<LockedFile> {
        file.try_lock_shared()?;
        Ok(LockedFile { file, process: process::id() })
    }

    /// Whether this process has locked the file. One that was forked has it too, but the file isn't its own.
    pub(crate) fn is_own(&self) -> bool {
        self.process == process::id()
    }
}

impl Drop for LockedFile {
    /// Unlocks the file. A process that was forked meanwhile has it too, and would keep it locked; but it doesn't
    /// unlock it itself.
    fn drop(&mut self) {
        if self.is_own() {
            let _ = self.file.unlock();
        }
    }
}

impl Deref for LockedFile {
    type Target = File;

    fn deref(&self) -> &File {
        &self.file
    }
}

/// The folder that a path is in, and the name that the path's file has there: none if a slash is behind it, which names
/// no file.
fn folder_of(path: &Path) -> io::Result<(&Path, CString)> {
    let path = path.as_os_str().as_bytes();
    let (folder, name) = path.split_at(path.iter().rposition(|byte| *byte == b'/').map_or(0, |slash| slash + 1));
    let folder = if folder.is_empty() { b"." } else { folder };
    Ok((Path::new(OsStr::from_bytes(folder)), CString::new(name)?))
}

/// How often a file is opened in whose place a program puts another one before it is locked.
const MOST_TURNS: u32 = 10;

/// Checks that a path still names an open file. If it names another one, this one counts as in use.
fn check_name(file: &File, path: &Path) -> io::Result<()> {
    let (opened, named) = (file.metadata()?, fs::metadata(path)?);
    if (opened.dev(), opened.ino()) == (named.dev(), named.ino()) {
        Ok(())
    } else {
        Err(ErrorKind::WouldBlock.into())
    }
}

/// Opens a file that is there, and locks it. A program may have put another file in its place before it was locked, as
/// `kijolvar restore --replace` does: then that one is opened. A path that leads to a serial line isn't waited for, and
/// that isn't this process's terminal from then on.
fn open_locked(path: &Path) -> io::Result<LockedFile> {
    let mut options = OpenOptions::new();
    options.read(true).write(true).custom_flags(O_NONBLOCK | O_NOCTTY);
    let mut turn = 1;
    loop {
        let file = LockedFile::new(options.open(path)?)?;
        match check_name(&file, path) {
            Err(_) if turn < MOST_TURNS => turn += 1,
            checked => return checked.map(|()| file),
        }
    }
}

/// The system's number of a fault: the file system is only read.
const EROFS: c_int = 30;

/// Syncs a file before it is read: what a till wrote last before it was killed may be in memory alone, and not stay. A
/// file system that can't sync can't be written.
fn sync_first(file: &File) -> io::Result<()> {
    match file.sync_all() {
        Err(fault) if !matches!(fault.raw_os_error(), Some(EINVAL | EROFS)) => Err(fault),
        _ => Ok(()),
    }
}

/// Syncs the folder that a path is in. The file may be writable where its folder can't be read.
fn sync_folder(path: &Path) -> io::Result<()> {
    let synced = File::open(folder_of(path)?.0).and_then(|folder| folder.sync_all());
    synced.map_err(|fault| io::Error::new(fault.kind(), format!("its folder can't be opened and synced: {fault}")))
}

/// Opens a file that is there, locks it, and syncs it. Its folder is synced too, since a creation that was killed may
/// have named the file and not synced its name. If the path is a link's, that is where the link leads.
pub(crate) fn open_existing(path: &Path) -> io::Result<LockedFile> {
    let file = open_locked(path)?;
    sync_first(&file)?;
    sync_folder(&fs::canonicalize(path)?)?;
    Ok(file)
}

/// The bytes of a file that no till has open, as many as totals have. It is synced first. A pipe isn't waited for.
pub(crate) fn read_file(path: &Path) -> io::Result<Vec<u8>> {
    let file = LockedFile::shared(OpenOptions::new().read(true).custom_flags(O_NONBLOCK).open(path)?)?;
    sync_first(&file)?;
    read_whole(&file)
}

/// The bytes of an open file, as many as totals have. A device doesn't say how long it is.
pub(crate) fn read_whole(file: &File) -> io::Result<Vec<u8>> {
    let (mut bytes, mut count) = (vec![0; DISK_LENGTH as usize], 0);
    loop {
        match file.read_at(&mut bytes[count..], count as u64) {
            Ok(0) => break,
            Ok(more) => count += more,
            Err(fault) if fault.kind() == ErrorKind::Interrupted => {}
            Err(fault) => return Err(fault),
        }
    }
    bytes.truncate(count);
    Ok(bytes)
}

/// How often a file is read again that changes from one reading to the next.
const MOST_READINGS: u32 = 1000;

/// The bytes of a file that a till may be writing. It has had them at a moment, since two readings gave them, one right
/// after the other. `WouldBlock` if it changes each time.
pub(crate) fn read_steady(path: &Path) -> io::Result<Vec<u8>> {
    let file = OpenOptions::new().read(true).custom_flags(O_NONBLOCK).open(path)?;
    let mut before = read_whole(&file)?;
    for _ in 0..MOST_READINGS {
        let found = read_whole(&file)?;
        if found == before {
            return Ok(found);
        }
        before = found;
    }
    Err(ErrorKind::WouldBlock.into())
}

/// Whether a second name was refused as it is where a file has one name, such as on a FAT stick.
fn has_one_name(fault: &io::Error) -> bool {
    matches!(fault.kind(), ErrorKind::PermissionDenied | ErrorKind::Unsupported)
}

/// Gives a file a name that isn't in use, in place of its own. An empty file takes that first, so that nothing which
/// has it is replaced; it is removed again if the renaming fails.
fn take_name(part: &Path, path: &Path) -> io::Result<()> {
    OpenOptions::new().write(true).create_new(true).mode(0o600).open(path)?;
    fs::rename(part, path).inspect_err(|_| {
        let _ = fs::remove_file(path);
    })
}

/// Gives a file a name that isn't in use, and takes its own away. Where a file has one name, it gets the new one in
/// place of that.
fn link_part(part: &Path, path: &Path) -> io::Result<()> {
    match fs::hard_link(part, path) {
        Err(fault) if has_one_name(&fault) => take_name(part, path).inspect_err(|_| {
            let _ = fs::remove_file(part);
        }),
        linked => {
            let removed = fs::remove_file(part);
            linked.and(removed)
        }
    }
}

/// Makes a file with these bytes, for its owner alone, at a path where nothing is. It appears whole or not at all: it
/// is written beside that, with .part at its end, and synced before it gets its name. Where a file has one name, as on
/// a FAT stick, a crash may leave an empty file.
pub(crate) fn put_new(path: &Path, bytes: &[u8]) -> io::Result<()> {
    let mut part = path.to_path_buf().into_os_string();
    part.push(".part");
    let part = Path::new(&part);
    let file = OpenOptions::new().write(true).create_new(true).mode(0o600).open(part)?;
    if let Err(fault) = file.write_all_at(bytes, 0).and_then(|()| file.sync_all()) {
        let _ = fs::remove_file(part);
        return Err(fault);
    }
    link_part(part, path)?;
    sync_folder(path)
}

/// Creates a file of totals without files, and locks it. It gets its name when it is whole and synced, which never
/// replaces anything, so a crash leaves nothing or all of it. A profile that is refused creates nothing.
fn create_new(path: &Path, profile: &str) -> Result<LockedFile, Cause> {
    let (folder, name) = folder_of(path).map_err(Cause::System)?;
    let file = unnamed(folder).map_err(Cause::System)?;
    let mut till = Inner::over_file(profile, file, vec![0; DISK_LENGTH as usize], kijolvar_format_file)?;
    till.settle().map_err(Cause::of_file)?;
    let file = till.into_file().ok_or(Cause::DiskFailed(None))?;
    give_name(&file, folder, &name).map_err(Cause::System)?;
    Ok(file)
}

/// A locked file without a name, of zero bytes, as long as a disk. They are written, so that the file has all its room
/// from now on, but on Btrfs, which puts each change in a new place.
fn unnamed(folder: &Path) -> io::Result<LockedFile> {
    let file = OpenOptions::new().read(true).write(true).custom_flags(O_TMPFILE).mode(0o600).open(folder)?;
    let file = LockedFile::new(file)?;
    file.write_all_at(&vec![0; DISK_LENGTH as usize], 0)?;
    Ok(file)
}

/// Gives the file its name, and syncs the folder.
fn give_name(file: &File, folder: &Path, name: &CString) -> io::Result<()> {
    let unnamed = CString::new(format!("/proc/self/fd/{}", file.as_raw_fd()))?;
    let folder = File::open(folder)?;
    // SAFETY: both are texts that end in a 0 byte, lent for the call.
    let linked = unsafe { linkat(AT_FDCWD, unnamed.as_ptr(), folder.as_raw_fd(), name.as_ptr(), AT_SYMLINK_FOLLOW) };
    if linked != 0 {
        return Err(io::Error::last_os_error());
    }
    folder.sync_all()
}
