//! New files under names of their own, which take their places when they are whole; and what killed runs left of such.

use std::ffi::{OsStr, OsString};
use std::fs::{self, File, OpenOptions};
use std::io::{ErrorKind, Write};
use std::os::unix::ffi::OsStrExt;
use std::os::unix::fs::{fchown, MetadataExt, OpenOptionsExt, PermissionsExt};
use std::path::{Path, PathBuf};

use crate::done;
use crate::failure::{note, Failure};
use crate::files::{directory_of, is_one_file, sync_directory, with_ending, PIECE_BYTES};
use crate::sys::{self, Signals};

/// How many backups or temporary files of one file may stand side by side.
pub const MOST_NAMES: u32 = 1_000;

/// The attribute that holds a file's access list.
const ACCESS_LIST: &[u8] = b"system.posix_acl_access";

/// A file that goes away again unless it takes its place.
pub struct Fresh {
    pub path: PathBuf,
    /// Locked as long as the run goes on; none for a second name.
    file: Option<File>,
}

/// Why a file did not get a name.
pub enum Unnamed {
    /// There is one of this name.
    Taken(PathBuf, Fresh),
    Failed(Failure),
}

impl From<Unnamed> for Failure {
    fn from(unnamed: Unnamed) -> Failure {
        match unnamed {
            Unnamed::Taken(path, _) => Failure::file("write", &path, "it exists already"),
            Unnamed::Failed(failure) => failure,
        }
    }
}

impl Fresh {
    /// The bytes under a name of their own beside the path, with the rights that a function gives.
    pub fn write(
        beside: &Path,
        bytes: &[u8],
        private: bool,
        rights: impl Fn(&File) -> std::io::Result<()>,
    ) -> Result<Fresh, Failure> {
        let cannot = |error: std::io::Error| Failure::file("write", beside, error);
        let (fresh, file) = Fresh::create(beside, private)?;
        let mut to = &file;
        for piece in bytes.chunks(PIECE_BYTES) {
            unless_stopped()?;
            to.write_all(piece).map_err(cannot)?;
        }
        rights(&file)
            .and_then(|()| file.sync_all())
            .map_err(cannot)?;
        let path = fresh.stay();
        Ok(Fresh {
            path,
            file: Some(file),
        })
    }

    /// A new file; a private one nobody else reads before it has its own rights. A run that was broken off may have left a
    /// name behind, and its process number may come again.
    fn create(beside: &Path, private: bool) -> Result<(Fresh, File), Failure> {
        for number in 0..MOST_NAMES {
            let Some(path) = own_name(beside, number, NEW) else {
                return Err(Failure::file("write", beside, "it has no file name"));
            };
            let mut options = OpenOptions::new();
            let mode = if private { 0o600 } else { 0o666 };
            match options.write(true).create_new(true).mode(mode).open(&path) {
                Err(error) if error.kind() == ErrorKind::AlreadyExists => continue,
                Err(error) => return Err(Failure::file("write", beside, error)),
                Ok(file) => {
                    // Another run may take it for one that was left behind, until it is locked.
                    let is_locked = sys::lock(&file).unwrap_or(true);
                    let is_named = file.metadata().is_ok_and(|found| found.nlink() > 0);
                    if is_locked && is_named {
                        return Ok((Fresh { path, file: None }, file));
                    }
                }
            }
        }
        let why = "there are too many temporary files beside it";
        Err(Failure::file("write", beside, why))
    }

    /// A second name for a file, where the file system has such.
    pub fn second_name(path: &Path) -> Option<Fresh> {
        let mut names = (0..MOST_NAMES).map_while(|number| own_name(path, number, OLD));
        names
            .find(|name| match fs::hard_link(path, name) {
                Err(error) => error.kind() != ErrorKind::AlreadyExists,
                Ok(()) => true,
            })
            .filter(|name| name.exists())
            .map(|path| Fresh { path, file: None })
    }

    /// Renames it, over what stands there.
    pub fn take_the_place_of(mut self, path: &Path) -> Result<Option<File>, Failure> {
        fs::rename(&self.path, path).map_err(|error| Failure::file("write", path, error))?;
        let file = self.file.take();
        self.stay();
        Ok(file)
    }

    /// Renames it, if no file has the name; and stays one that may go away again.
    pub fn take_the_name(self, path: &Path) -> Result<Fresh, Unnamed> {
        let failed = |error| Unnamed::Failed(Failure::file("write", path, error));
        match fs::hard_link(&self.path, path) {
            Ok(()) => {
                let _ = fs::remove_file(&self.path);
            }
            Err(error) if error.kind() == ErrorKind::AlreadyExists => {
                return Err(Unnamed::Taken(path.to_path_buf(), self));
            }
            // The file system has no second names.
            Err(_) if fs::symlink_metadata(path).is_ok() => {
                return Err(Unnamed::Taken(path.to_path_buf(), self));
            }
            Err(_) => fs::rename(&self.path, path).map_err(failed)?,
        }
        let mut named = self;
        named.path = path.to_path_buf();
        Ok(named)
    }

    /// An old file takes its place again, because another process opened it for writing at the last moment.
    pub fn put_back(self, path: &Path, backup: Fresh) -> Failure {
        let second = self.stay();
        match fs::rename(&second, path).map(|()| sync_directory(path)) {
            Ok(_) => {
                done::clear();
                let why = "another process opened it for writing at the last moment; all is as it was";
                Failure::file("replace", path, why)
            }
            Err(error) => Failure::Done(format!(
                "{} is replaced, but another process writes to the old file, {}, and it cannot be put back: {error}; the bytes before are in {}",
                path.display(),
                second.display(),
                backup.stay().display()
            )),
        }
    }

    /// Lets the file be, and gives its path.
    pub fn stay(mut self) -> PathBuf {
        std::mem::take(&mut self.path)
    }
}

impl Drop for Fresh {
    fn drop(&mut self) {
        if self.path != Path::new("") {
            // There is a failure to tell already.
            let _ = fs::remove_file(&self.path);
        }
    }
}

/// Fails if a signal has asked for an end.
pub fn unless_stopped() -> Result<(), Failure> {
    match Signals::caught() {
        None => Ok(()),
        Some(number) => Err(Failure::Stopped(number)),
    }
}

/// Gives a new file the mode of another, and its access list. Where the list cannot be kept, only the owner has rights.
pub fn give_rights(file: &File, like: &File) -> std::io::Result<()> {
    let mode = like.metadata()?.permissions();
    file.set_permissions(mode.clone())?;
    let lists = sys::attributes(like).unwrap_or_default();
    for (name, value) in lists {
        if name.as_bytes() == ACCESS_LIST && sys::set_attribute(file, &name, &value).is_err() {
            file.set_permissions(PermissionsExt::from_mode(mode.mode() & 0o700))?;
        }
    }
    Ok(())
}

/// Gives a new file all that another has beside its bytes: owner and group, mode, attributes and access list.
pub fn keep_all(file: &File, like: &File) -> std::io::Result<()> {
    let (own, found) = (file.metadata()?, like.metadata()?);
    if (own.uid(), own.gid()) != (found.uid(), found.gid()) {
        fchown(file, Some(found.uid()), Some(found.gid()))?;
    }
    file.set_permissions(found.permissions())?;
    let has = sys::attributes(file)?;
    for (name, value) in sys::attributes(like)? {
        if !has.iter().any(|it| (&it.0, &it.1) == (&name, &value)) {
            sys::set_attribute(file, &name, &value).map_err(|error| {
                let text = format!(
                    "cannot keep its attribute {}: {error}",
                    name.to_string_lossy()
                );
                std::io::Error::new(error.kind(), text)
            })?;
        }
    }
    Ok(())
}

pub fn backup_name(path: &Path, number: u32) -> PathBuf {
    match number {
        1 => with_ending(path, ".bak"),
        number => with_ending(path, &format!(".bak{number}")),
    }
}

/// What the name of a file of this command beside another ends with: a new file before it has its place, and an old one
/// that has just lost it.
const NEW: &str = "tmp";
const OLD: &str = "old";

fn own_name(beside: &Path, number: u32, ending: &str) -> Option<PathBuf> {
    let mut own = OsString::from(".");
    own.push(beside.file_name()?);
    own.push(format!(".{}-{number}.{ending}", std::process::id()));
    Some(directory_of(beside).join(own))
}

/// Whether a name is one that a run gives to its own files beside this one.
fn is_own_name(beside: &Path, name: &OsStr, ending: &str) -> bool {
    let Some(beside) = beside.file_name() else {
        return false;
    };
    let middle = name
        .as_bytes()
        .strip_prefix(b".")
        .and_then(|name| name.strip_prefix(beside.as_bytes()))
        .and_then(|name| name.strip_prefix(b"."))
        .and_then(|name| name.strip_suffix(ending.as_bytes()))
        .and_then(|name| name.strip_suffix(b"."));
    let mut parts = middle.unwrap_or_default().split(|byte| *byte == b'-');
    let mut digits = || {
        let part = parts.next().unwrap_or_default();
        !part.is_empty() && part.iter().all(u8::is_ascii_digit)
    };
    digits() && digits() && parts.next().is_none()
}

/// Removes what killed runs left beside a file, and tells it. Files of runs that still go on are locked. Old files are only
/// looked for under the lock of the page file, which is then given.
pub fn sweep(beside: &Path, held: Option<&File>) {
    let Ok(names) = fs::read_dir(directory_of(beside)) else {
        return;
    };
    for name in names.flatten().map(|found| found.file_name()) {
        let path = directory_of(beside).join(&name);
        let is_old = held.is_some() && is_own_name(beside, &name, OLD);
        let is_plain = fs::symlink_metadata(&path).is_ok_and(|found| found.is_file());
        if !is_plain || !(is_old || is_own_name(beside, &name, NEW)) {
            continue;
        }
        // One that is the held file itself cannot be locked again.
        let is_held = held.is_some_and(|held| is_one_file(&path, held));
        let file = File::open(&path);
        let is_left = |file: &File| sys::lock(file).unwrap_or(false);
        if !is_held && !file.as_ref().is_ok_and(is_left) {
            continue;
        }
        if is_old && !is_held && !is_in_backup(beside, &path) {
            note(format_args!(
                "{} is the old file of a run that was killed, and in no backup: look at it, then remove it",
                path.display()
            ));
        } else if fs::remove_file(&path).is_ok() {
            note(format_args!(
                "removed {}, which a run that was killed left behind",
                path.display()
            ));
        }
    }
}

/// Whether a backup has the bytes of an old file. None has them if another process wrote to it when it had lost its place.
fn is_in_backup(beside: &Path, old: &Path) -> bool {
    let Ok(bytes) = fs::read(old) else {
        return false;
    };
    (1..=MOST_NAMES)
        .map(|number| backup_name(beside, number))
        .take_while(|backup| backup.exists())
        .any(|backup| fs::read(backup).is_ok_and(|backup| backup == bytes))
}
