//! A page file that is replaced in its place, and whatever another process may do to it meanwhile.

use std::fs;
use std::os::unix::fs::{FileExt, MetadataExt};
use std::path::{Path, PathBuf};

use crate::done::Mark;
use crate::failure::{note, Failure};
use crate::files::{is_one_file, lasting, sync_directory, Seen, Stamp, Whole, PIECE_BYTES};
use crate::fresh::{backup_name, keep_all, sweep, unless_stopped, Fresh, Unnamed, MOST_NAMES};
use crate::show;
use crate::slow::{self, Work};
use crate::sys::{self, Signals};

/// A page file that is to be replaced: locked, and watched for others that open it for writing.
pub struct Held {
    /// Where links lead to.
    path: PathBuf,
    /// How many other names it has.
    names: u64,
    leased: bool,
    seen: Seen,
}

impl Held {
    /// Takes the lock; one that another process holds is not waited for. What killed runs left behind is removed.
    pub fn take(path: &Path) -> Result<Held, Failure> {
        let cannot = |why: String| Failure::file("replace", path, why);
        slow::at(Work::Reading);
        let seen = Seen::open(path)?;
        if !seen.file.metadata().is_ok_and(|found| found.is_file()) {
            return Err(cannot("it is no plain file".to_string()));
        }
        match sys::lock(&seen.file) {
            Ok(true) => (),
            Ok(false) => return Err(cannot("another process holds its lock".to_string())),
            Err(error) => return Err(cannot(format!("it cannot be locked: {error}"))),
        }
        let leased = match sys::lease(&seen.file) {
            sys::Lease::Writer => {
                let why = "another process has it open for writing";
                return Err(cannot(why.to_string()));
            }
            lease => lease == sys::Lease::Taken,
        };
        let real = fs::canonicalize(path).map_err(|error| cannot(error.to_string()))?;
        if !is_one_file(&real, &seen.file) {
            // Another run put its own file in this place between opening and locking.
            return Err(cannot("another process replaces it".to_string()));
        }
        sweep(&real, Some(&seen.file));
        let found = seen.file.metadata();
        let found = found.map_err(|error| cannot(error.to_string()))?;
        Ok(Held {
            path: real.clone(),
            names: found.nlink().saturating_sub(1),
            leased,
            seen: Seen {
                path: real,
                stamp: Stamp::of(&found),
                ..seen
            },
        })
    }

    pub fn read(&self, limit: usize) -> Result<Whole, Failure> {
        let file = self.seen.file.try_clone();
        let file = file.map_err(|error| Failure::file("read", &self.path, error))?;
        let seen = Seen {
            path: self.path.clone(),
            stamp: self.seen.stamp,
            file,
        };
        seen.read(limit)
    }

    /// Fails if another process has written to the file, or wants to.
    fn must_be_alone(&self) -> Result<(), Failure> {
        self.seen.must_be_as_read()?;
        match self.is_alone() {
            true => Ok(()),
            false => {
                let why = "another process opens it for writing; no file was changed";
                Err(Failure::file("replace", &self.path, why))
            }
        }
    }

    /// Whether nobody else wants to write to it, as far as the system tells.
    fn is_alone(&self) -> bool {
        !self.leased || sys::is_leased(&self.seen.file)
    }

    /// Whether the file still holds these bytes; times of writing may be too coarse to tell.
    fn holds(&self, bytes: &[u8]) -> bool {
        let mut piece = [0; PIECE_BYTES];
        let mut pieces = bytes.chunks(PIECE_BYTES).enumerate();
        pieces.all(|(number, expected)| {
            let found = &mut piece[..expected.len()];
            let at = (number * PIECE_BYTES) as u64;
            self.seen.file.read_exact_at(found, at).is_ok() && found == expected
        })
    }

    /// Puts new bytes in the place of the old ones, of which a copy stays beside it. Gives the copy's path.
    /// Stops, with all as it was, if it or another file that was read has changed since.
    pub fn replace(&self, others: &[&Seen], old: &[u8], new: &[u8]) -> Result<PathBuf, Failure> {
        slow::at(Work::Writing);
        let path = &self.path;
        let _signals = Signals::held();
        let fresh = Fresh::write(path, new, true, |file| keep_all(file, &self.seen.file))?;
        let backup = self.back_up(old)?;
        sync_directory(path)?;
        others
            .iter()
            .try_for_each(|other| other.must_be_as_read())?;
        self.must_be_alone()?;
        if !self.holds(old) {
            let why = "another process changed it after it was read; no file was changed";
            return Err(Failure::file("replace", path, why));
        }
        unless_stopped()?;
        // The old file keeps a name until it is sure that nobody writes to it.
        let second = Fresh::second_name(path);
        let mark = Mark::new(format!(
            "{} is replaced by the new pages; {} has the {} bytes that were read from it",
            path.display(),
            backup.path.display(),
            old.len()
        ));
        let fresh = fresh.take_the_place_of(path)?;
        mark.set();
        let synced = sync_directory(path);
        let now = self.seen.file.metadata();
        let is_unwritten = now.is_ok_and(|now| Stamp::of(&now).is_unwritten(&self.seen.stamp));
        let second = match second {
            Some(second) if !is_unwritten || !self.is_alone() => {
                return Err(second.put_back(path, backup));
            }
            second => second,
        };
        // From here on the backup is all that is left of the old bytes.
        let backup = backup.stay();
        drop((second, fresh));
        if self.names > 0 {
            note(format_args!(
                "{} has {} more, which keep the old bytes",
                path.display(),
                show::count(self.names, "name", "names")
            ));
        }
        match synced {
            Ok(()) => Ok(backup),
            Err(failure) => Err(lasting(&failure, path, Some(&backup))),
        }
    }

    /// A copy under the first free backup name, with all that the file has beside its bytes.
    fn back_up(&self, old: &[u8]) -> Result<Fresh, Failure> {
        let path = &self.path;
        let mut copy = Fresh::write(path, old, true, |file| keep_all(file, &self.seen.file))?;
        for number in 1..=MOST_NAMES {
            copy = match copy.take_the_name(&backup_name(path, number)) {
                Ok(named) => return Ok(named),
                Err(Unnamed::Taken(_, copy)) => copy,
                Err(Unnamed::Failed(failure)) => return Err(failure),
            };
        }
        Err(Failure::file("back up", path, "there are too many backups"))
    }
}
