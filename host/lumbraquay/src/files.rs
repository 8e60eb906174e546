//! Files read whole up to a limit, and written so that no half-written one is ever seen under its name.

use std::ffi::OsString;
use std::fs::{self, File, Metadata};
use std::io::{ErrorKind, Read};
use std::os::fd::AsFd;
use std::os::unix::fs::MetadataExt;
use std::path::{Path, PathBuf};

use crate::done::Mark;
use crate::failure::Failure;
use crate::fresh::{give_rights, sweep, unless_stopped, Fresh};
use crate::memory;
use crate::slow::{self, Work};
use crate::sys::Signals;

/// How many bytes are written or compared at a time.
pub const PIECE_BYTES: usize = 1 << 16;

/// What a file holds.
pub struct Whole {
    pub bytes: Vec<u8>,
    /// How many bytes the file has; more than were read if it is over the limit.
    pub length: u64,
    pub seen: Seen,
}

/// The name that stands for standard input and output.
pub const STANDARD: &str = "-";

pub fn is_standard(path: &Path) -> bool {
    path == Path::new(STANDARD)
}

/// A file that was read, and how it stood then. It stays open.
pub struct Seen {
    pub path: PathBuf,
    pub file: File,
    pub stamp: Stamp,
}

/// What changes when a file is written or replaced.
#[derive(Clone, Copy, PartialEq, Eq)]
pub struct Stamp {
    device: u64,
    inode: u64,
    size: u64,
    written: (i64, i64),
    /// Of rights and names too.
    changed: (i64, i64),
}

impl Stamp {
    pub fn of(found: &Metadata) -> Stamp {
        Stamp {
            device: found.dev(),
            inode: found.ino(),
            size: found.size(),
            written: (found.mtime(), found.mtime_nsec()),
            changed: (found.ctime(), found.ctime_nsec()),
        }
    }

    pub fn is_same_file(&self, other: &Stamp) -> bool {
        (self.device, self.inode) == (other.device, other.inode)
    }

    pub fn is_unwritten(&self, other: &Stamp) -> bool {
        (self.size, self.written) == (other.size, other.written)
    }
}

impl Seen {
    pub fn open(path: &Path) -> Result<Seen, Failure> {
        let open = |error| Failure::file("open", path, error);
        let file = match is_standard(path) {
            true => std::io::stdin()
                .as_fd()
                .try_clone_to_owned()
                .map(File::from),
            false => File::open(path),
        };
        let file = file.map_err(open)?;
        let found = file.metadata().map_err(open)?;
        if found.is_dir() {
            return Err(Failure::file("read", path, "it is a directory"));
        }
        Ok(Seen {
            path: path.to_path_buf(),
            stamp: Stamp::of(&found),
            file,
        })
    }

    /// Reads the file. Of one that is over the limit no more are read than one byte past it, which the library refuses.
    pub fn read(self, limit: usize) -> Result<Whole, Failure> {
        self.read_on(&[], limit)
    }

    /// The same where the file's first bytes, as many as these are, tell the limit.
    pub fn read_by(
        self,
        front: usize,
        limit: impl FnOnce(&[u8]) -> usize,
    ) -> Result<Whole, Failure> {
        let mut bytes = memory::room(front)?;
        self.add(&mut bytes, front)?;
        let limit = limit(&bytes);
        self.read_on(&bytes, limit)
    }

    /// Reads on behind the first bytes.
    fn read_on(self, first: &[u8], limit: usize) -> Result<Whole, Failure> {
        let most = limit + 1;
        let size = usize::try_from(self.stamp.size).unwrap_or(usize::MAX);
        let mut bytes = memory::room(size.min(most).max(first.len()) + 1)?;
        bytes.extend_from_slice(first);
        self.add(&mut bytes, most.saturating_sub(first.len()))?;
        Ok(Whole {
            length: self.stamp.size.max(bytes.len() as u64),
            bytes,
            seen: self,
        })
    }

    /// Reads no more than so many bytes.
    fn add(&self, bytes: &mut Vec<u8>, most: usize) -> Result<(), Failure> {
        match memory::asking(|| (&self.file).take(most as u64).read_to_end(bytes)) {
            Ok(_) => Ok(()),
            Err(error) => Err(Failure::file("read", &self.path, error)),
        }
    }

    /// Fails unless the file, if it is a plain one, stands as it did when it was opened, under its name.
    pub fn must_be_as_read(&self) -> Result<(), Failure> {
        let cannot = |error| Failure::file("use", &self.path, error);
        let own = self.file.metadata().map_err(cannot)?;
        if !own.is_file() {
            return Ok(());
        }
        let is_named = is_standard(&self.path) || {
            let named = fs::metadata(&self.path).map_err(cannot)?;
            Stamp::of(&named) == self.stamp
        };
        if Stamp::of(&own) == self.stamp && is_named {
            return Ok(());
        }
        let why = "another process changed it after it was read; no file was changed";
        Err(Failure::file("use", &self.path, why))
    }
}

pub fn read(path: &Path, limit: usize) -> Result<Whole, Failure> {
    slow::at(Work::Reading);
    Seen::open(path)?.read(limit)
}

/// Fails if a new file may not be written under a name: one that exists is replaced only where that is allowed, and only
/// if it is a plain file.
pub fn check_new(path: &Path, replace: bool) -> Result<(), Failure> {
    let refuse = |why: &str| Err(Failure::file("write", path, why));
    match fs::symlink_metadata(path) {
        Err(error) if error.kind() == ErrorKind::NotFound => Ok(()),
        Err(error) => Err(Failure::file("write", path, error)),
        Ok(found) if found.is_dir() => refuse("it is a directory"),
        Ok(found) if !found.is_file() => refuse("it exists and is no plain file"),
        Ok(_) if !replace => refuse("it exists already; --force replaces it"),
        Ok(_) => Ok(()),
    }
}

/// Whether two paths lead to the same file.
pub fn is_same(one: &Path, other: &Path) -> bool {
    match (fs::canonicalize(one), fs::canonicalize(other)) {
        (Ok(one), Ok(other)) => one == other,
        _ => false,
    }
}

/// Writes a file, with the access rights of another if one is given: first under a name of its own in the same directory,
/// synced, then renamed, then the directory synced.
pub fn write_new(
    path: &Path,
    bytes: &[u8],
    like: Option<&Seen>,
    replace: bool,
) -> Result<(), Failure> {
    slow::at(Work::Writing);
    check_new(path, replace)?;
    sweep(path, None);
    let _signals = Signals::held();
    let fresh = Fresh::write(path, bytes, like.is_some(), |file| match like {
        Some(like) => give_rights(file, &like.file),
        None => Ok(()),
    })?;
    unless_stopped()?;
    // It may have come into being, or become something else, meanwhile.
    check_new(path, replace)?;
    let mark = Mark::new(format!("{} is written", path.display()));
    match replace {
        true => drop(fresh.take_the_place_of(path)?),
        false => drop(fresh.take_the_name(path)?.stay()),
    }
    mark.set();
    sync_directory(path).map_err(|failure| lasting(&failure, path, None))
}

/// The path with something added to its last name.
pub fn with_ending(path: &Path, ending: &str) -> PathBuf {
    let mut name = OsString::from(path);
    name.push(ending);
    PathBuf::from(name)
}

/// Makes the names in a file's directory last. Some file systems cannot; nothing more can be done there.
pub fn sync_directory(path: &Path) -> Result<(), Failure> {
    let directory = directory_of(path);
    let synced = File::open(directory).and_then(|directory| directory.sync_all());
    match synced {
        Err(error) if error.kind() == ErrorKind::InvalidInput => Ok(()),
        Err(error) => Err(Failure::file("sync", directory, error)),
        Ok(()) => Ok(()),
    }
}

/// A directory that could not be synced after a file took its place there.
pub fn lasting(failure: &Failure, path: &Path, backup: Option<&Path>) -> Failure {
    let backup = match backup {
        Some(backup) => format!(", the old bytes are in {}", backup.display()),
        None => String::new(),
    };
    Failure::Done(format!(
        "{}; {} is written{backup}, but its name may not outlast a power failure",
        failure.text(),
        path.display()
    ))
}

pub fn directory_of(path: &Path) -> &Path {
    match path.parent() {
        Some(parent) if parent != Path::new("") => parent,
        _ => Path::new("."),
    }
}

/// Whether a path leads to an open file.
pub fn is_one_file(path: &Path, file: &File) -> bool {
    match (fs::metadata(path), file.metadata()) {
        (Ok(one), Ok(other)) => Stamp::of(&one).is_same_file(&Stamp::of(&other)),
        _ => false,
    }
}

#[cfg(test)]
mod tests {
    use super::*;

    /// What another process does to a file after it was read is noticed.
    #[test]
    fn changes_are_noticed() {
        let path = std::env::temp_dir().join(format!("lumbraquay-seen-{}", std::process::id()));
        let other = with_ending(&path, "-other");
        let changes: [fn(&Path, &Path); 4] = [
            |path, _| fs::write(path, b"longer than before").unwrap(),
            |path, _| fs::write(path, b"other").unwrap(),
            |path, _| fs::remove_file(path).unwrap(),
            |path, other| fs::rename(other, path).unwrap(),
        ];
        for change in changes {
            fs::write(&path, b"bytes").unwrap();
            fs::write(&other, b"bytes").unwrap();
            let whole = read(&path, 10).ok().unwrap();
            assert_eq!(
                (whole.bytes.as_slice(), whole.length),
                (b"bytes".as_slice(), 5)
            );
            assert!(whole.seen.must_be_as_read().is_ok());
            // Times of writing may be coarse.
            std::thread::sleep(std::time::Duration::from_millis(20));
            change(&path, &other);
            assert!(whole.seen.must_be_as_read().is_err());
        }
        fs::remove_file(&path).unwrap();
    }
}
