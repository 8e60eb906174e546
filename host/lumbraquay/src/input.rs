//! The two files that commands read, and the options that say how.

use std::io::Read as _;
use std::path::{Path, PathBuf};

use library::{
    refusal, SummaryStep, Verdict, LOG_HEAD_BYTES, LOG_LIMIT_BYTES, PAGE_BYTES, PAGE_LIMIT,
};

use crate::args::Parsed;
use crate::doublewrite::Doublewrite;
use crate::failure::Failure;
use crate::fault;
use crate::files::{self, Seen, Whole};
use crate::held::Held;
use crate::json::Json;
use crate::show;

/// A page file and its magic.
pub struct Pages {
    pub path: PathBuf,
    pub bytes: Vec<u8>,
    /// The file's length, of which no more bytes are read than the library would take and one.
    pub length: u64,
    pub magic: u64,
    magic_from: MagicFrom,
    pub seen: Seen,
    /// The bytes as they were read, where a repair has made others of them.
    unrepaired: Option<Vec<u8>>,
}

#[derive(Clone, Copy, PartialEq, Eq)]
enum MagicFrom {
    Given,
    Page0,
    Copy,
    Before,
}

impl Pages {
    /// Reads the page file that is the first thing a command takes.
    pub fn read(parsed: &Parsed) -> Result<Pages, Failure> {
        Pages::read_at(parsed, 0)
    }

    /// The same where a command takes it at an index.
    pub fn read_at(parsed: &Parsed, index: usize) -> Result<Pages, Failure> {
        let path = parsed.path(index);
        Pages::of(parsed, path, files::read(path, PAGE_BYTES * PAGE_LIMIT)?)
    }

    /// The same of the pages after a repair, which are judged by the magic of those before.
    pub fn read_after(parsed: &Parsed, index: usize, before: &Pages) -> Result<Pages, Failure> {
        let path = parsed.path(index);
        let whole = files::read(path, PAGE_BYTES * PAGE_LIMIT)?;
        Ok(Pages {
            magic_from: MagicFrom::Before,
            ..Pages::with_magic(path, whole, Some(before.magic))?
        })
    }

    /// The same of a page file that is held to be replaced.
    pub fn read_held(parsed: &Parsed, held: &Held) -> Result<Pages, Failure> {
        Pages::of(parsed, parsed.path(0), held.read(PAGE_BYTES * PAGE_LIMIT)?)
    }

    /// Reads the page file that an option names, if it is given; its magic is that of its page 0.
    pub fn chosen(parsed: &Parsed, option: &str) -> Result<Option<Pages>, Failure> {
        let Some(path) = parsed.chosen_path(option) else {
            return Ok(None);
        };
        if files::is_standard(path) && parsed.takes_standard() {
            return Err(parsed.wrong("only one file can be standard input".to_string()));
        }
        let whole = files::read(path, PAGE_BYTES * PAGE_LIMIT)?;
        Pages::with_magic(path, whole, None).map(Some)
    }

    fn of(parsed: &Parsed, path: &Path, whole: Whole) -> Result<Pages, Failure> {
        let given = parsed.chosen_number("--magic")?;
        let pages = Pages::with_magic(path, whole, given)?;
        parsed.magic.set(Some(pages.magic));
        Ok(pages)
    }

    fn with_magic(path: &Path, whole: Whole, given: Option<u64>) -> Result<Pages, Failure> {
        let Whole {
            bytes,
            length,
            seen,
        } = whole;
        if bytes.is_empty() {
            return Err(Failure::file("use", path, "it is empty and holds no page"));
        }
        let magic = given.unwrap_or_else(|| magic_of(&bytes));
        Ok(Pages {
            path: path.to_path_buf(),
            magic,
            magic_from: match given {
                Some(_) => MagicFrom::Given,
                None => MagicFrom::Page0,
            },
            bytes,
            length,
            seen,
            unrepaired: None,
        })
    }

    /// Where page 0 is torn its magic may be too: then that of its copy is taken, if the copy's checksum is right and no
    /// page with a right one has the magic of page 0.
    pub fn take_magic(&mut self, parsed: &Parsed, file: &Doublewrite) {
        let mut pages = self.bytes.chunks_exact(PAGE_BYTES);
        let in_doubt = self.magic_is_of_page_0()
            && pages.next().is_some_and(fault::is_torn)
            && !pages.any(|page| magic_of(page) == self.magic && !fault::is_torn(page));
        if !in_doubt {
            return;
        }
        let copy = file.copy_of(0, self.count() as u64);
        if let Some(copy) = copy.filter(|copy| !fault::is_torn(copy)) {
            self.magic = magic_of(copy);
            self.magic_from = MagicFrom::Copy;
            parsed.magic.set(Some(self.magic));
        }
    }

    /// Goes on with the bytes that a repair made.
    pub fn repair(&mut self, new: Vec<u8>) {
        self.unrepaired = Some(std::mem::replace(&mut self.bytes, new));
    }

    /// The bytes that the file holds.
    pub fn as_read(&self) -> &[u8] {
        self.unrepaired.as_ref().unwrap_or(&self.bytes)
    }

    pub fn count(&self) -> usize {
        self.bytes.len() / PAGE_BYTES
    }

    /// The bytes of a page, if they are all there.
    pub fn page(&self, index: u64) -> Option<&[u8]> {
        let mut pages = self.bytes.chunks_exact(PAGE_BYTES);
        pages.nth(usize::try_from(index).ok()?)
    }

    pub fn magic_is_of_page_0(&self) -> bool {
        self.magic_from == MagicFrom::Page0
    }

    pub fn has_its_magic(&self, index: u64) -> bool {
        self.page(index)
            .is_some_and(|page| magic_of(page) == self.magic)
    }

    /// The magic that every page but page 0 has, where the one read off page 0 is another.
    pub fn magic_of_the_others(&self) -> Option<u64> {
        let mut others = self.bytes.chunks_exact(PAGE_BYTES).skip(1).map(magic_of);
        let magic = others.next()?;
        let agree = magic != self.magic && others.all(|other| other == magic);
        (agree && self.magic_is_of_page_0()).then_some(magic)
    }

    pub fn magic_from(&self) -> &'static str {
        match self.magic_from {
            MagicFrom::Given => "as given",
            MagicFrom::Page0 => "read off page 0",
            MagicFrom::Copy => "read off the copy of page 0 in the double-write file",
            MagicFrom::Before => "that of the pages before",
        }
    }

    /// One line on what is read, and with which magic.
    pub fn line(&self) -> String {
        format!(
            "{}: {} pages, magic {:#x} ({})",
            self.path.display(),
            self.count(),
            self.magic,
            self.magic_from()
        )
    }

    pub fn fields(&self) -> Vec<(&'static str, Json)> {
        self.fields_of("pages_file")
    }

    /// The same under this name of the file.
    fn fields_of(&self, file: &'static str) -> Vec<(&'static str, Json)> {
        vec![
            (file, Json::text(self.path.display())),
            ("pages", self.count().into()),
            ("magic", Json::text(format_args!("{:#x}", self.magic))),
            ("magic_from", self.magic_from().into()),
        ]
    }
}

/// The first eight bytes of a page, as a number.
fn magic_of(bytes: &[u8]) -> u64 {
    bytes
        .first_chunk()
        .map_or(0, |first: &[u8; 8]| u64::from_le_bytes(*first))
}

/// A log file.
pub struct Log {
    pub path: PathBuf,
    pub bytes: Vec<u8>,
    /// The file's length, of which no more bytes are read than the library would take and one.
    pub length: u64,
    /// Up to where it is taken, if not to its end.
    pub until: Option<u64>,
    pub seen: Seen,
}

impl Log {
    /// Reads the log file that a command takes at an index, up to --log-until if that is given.
    pub fn read(parsed: &Parsed, index: usize) -> Result<Log, Failure> {
        let path = parsed.path(index);
        let Whole {
            mut bytes,
            length,
            seen,
        } = files::read(path, LOG_LIMIT_BYTES)?;
        let until = parsed.chosen_number("--log-until")?;
        if let Some(until) = until {
            if until < LOG_HEAD_BYTES as u64 || until > length {
                return Err(parsed.wrong(format!(
                    "--log-until is {until}, not from 32, where entries start, to {length}, where the log ends"
                )));
            }
            bytes.truncate(usize::try_from(until).unwrap_or(usize::MAX));
        }
        Ok(Log {
            path: path.to_path_buf(),
            bytes,
            length,
            until,
            seen,
        })
    }

    pub fn line(&self) -> String {
        let until = match self.until {
            Some(until) => format!(", taken up to {until}"),
            None => String::new(),
        };
        format!("{}: {} bytes{until}", self.path.display(), self.length)
    }

    pub fn fields(&self) -> Vec<(&'static str, Json)> {
        vec![
            ("log_file", Json::text(self.path.display())),
            ("log_bytes", self.length.into()),
            ("log_until", self.until.map_or(Json::Null, Json::from)),
        ]
    }
}

/// A summary of visible rows, as the library judges it.
pub struct Summary {
    pub path: PathBuf,
    /// The file, or so much of its front that whatever is refused in it is a number that starts there.
    pub bytes: Vec<u8>,
    pub length: u64,
    /// How many groups the number at fault has behind these bytes.
    pub groups_behind: u64,
    pub read: library::Summary,
}

/// The front of a file that is kept: 21 bytes before the rows and six for each slot that a row can name are more than the
/// numbers before the one at fault have, and of that one there are more groups than the ten that fit 64 bits.
const SUMMARY_FRONT_BYTES: usize = 64 + 6 * PAGE_LIMIT * 4_080;

impl Summary {
    /// Reads the summary that is the first thing a command takes.
    pub fn read(parsed: &Parsed) -> Result<Summary, Failure> {
        let path = parsed.path(0);
        let Whole {
            bytes,
            length,
            seen,
        } = files::read(path, SUMMARY_FRONT_BYTES)?;
        let mut summary = Summary {
            path: path.to_path_buf(),
            read: library::summary_read(&bytes),
            bytes,
            length,
            groups_behind: 0,
        };
        if summary.read.number == refusal::SUMMARY_ENDS_EARLY
            && summary.bytes.len() > SUMMARY_FRONT_BYTES
        {
            summary.read_on(&seen)?;
        }
        Ok(summary)
    }

    /// Where the front ends inside a number, the rest of the file says whether it ends at all: if so it has too many groups.
    fn read_on(&mut self, seen: &Seen) -> Result<(), Failure> {
        let mut piece = Vec::with_capacity(files::PIECE_BYTES);
        let mut last = None;
        while last.is_none() {
            piece.clear();
            let read = (&seen.file)
                .take(files::PIECE_BYTES as u64)
                .read_to_end(&mut piece)
                .map_err(|error| Failure::file("read", &self.path, error))?;
            if read == 0 {
                break;
            }
            last = piece.iter().position(|group| *group < 128);
            self.groups_behind += last.map_or(read, |last| last + 1) as u64;
        }
        if last.is_some() {
            self.read.number = refusal::SUMMARY_SPELLING;
        }
        let known = self.bytes.len() as u64 + self.groups_behind;
        self.length = self.length.max(known);
        Ok(())
    }

    /// The rows, of a summary that is not refused.
    pub fn rows(&self) -> impl Iterator<Item = SummaryStep> + '_ {
        library::summary_rows(&self.bytes, self.read)
    }

    pub fn line(&self) -> String {
        format!(
            "{}: {} bytes, last LSN {}, {}",
            self.path.display(),
            self.length,
            self.read.lsn,
            show::count(self.read.count, "row", "rows")
        )
    }

    pub fn fields(&self) -> Vec<(&'static str, Json)> {
        vec![
            ("summary_file", Json::text(self.path.display())),
            ("summary_bytes", self.length.into()),
            ("lsn", self.read.lsn.into()),
            ("count", self.read.count.into()),
        ]
    }
}

/// What a command has read, for the words of a refusal.
#[derive(Clone, Copy, Default)]
pub struct Read<'a> {
    pub pages: Option<&'a Pages>,
    pub log: Option<&'a Log>,
    pub summary: Option<&'a Summary>,
    pub floor: u64,
    pub doublewrite: Option<&'a Doublewrite>,
    /// The pages that a double-write file was to have.
    pub list: Option<&'a [u64]>,
    /// Whether every bad page is already told.
    pub all_listed: bool,
    /// Whether the pages are those of --catalog.
    pub is_catalog: bool,
    /// The pages after a repair, where one is judged.
    pub after: Option<&'a Pages>,
    /// Which side of it is refused.
    pub side: Option<Side>,
}

/// A side of a repair that is judged.
#[derive(Clone, Copy, PartialEq, Eq)]
pub enum Side {
    Before,
    Both,
    After,
}

impl Side {
    pub fn words(self) -> &'static str {
        match self {
            Side::Before => "the pages before and the log",
            Side::Both => "both sides: they differ in length",
            Side::After => "the pages after",
        }
    }
}

impl<'a> Read<'a> {
    pub fn pages(pages: &'a Pages) -> Read<'a> {
        Read {
            pages: Some(pages),
            ..Read::default()
        }
    }

    pub fn log(log: &'a Log) -> Read<'a> {
        Read {
            log: Some(log),
            ..Read::default()
        }
    }

    /// The pages of --catalog, beside a log.
    pub fn catalog(pages: &'a Pages, log: &'a Log) -> Read<'a> {
        Read {
            is_catalog: true,
            ..Read::both(pages, log, 0)
        }
    }

    pub fn summary(summary: &'a Summary) -> Read<'a> {
        Read {
            summary: Some(summary),
            ..Read::default()
        }
    }

    /// A summary that is compared with pages.
    pub fn compared(summary: &'a Summary, pages: &'a Pages) -> Read<'a> {
        Read {
            pages: Some(pages),
            ..Read::summary(summary)
        }
    }

    pub fn both(pages: &'a Pages, log: &'a Log, floor: u64) -> Read<'a> {
        Read {
            pages: Some(pages),
            log: Some(log),
            floor,
            ..Read::default()
        }
    }

    /// A repair of which this side is refused.
    pub fn repair(self, after: &'a Pages, side: Side) -> Read<'a> {
        Read {
            after: Some(after),
            side: Some(side),
            ..self
        }
    }

    /// The pages that a refusal of pages speaks of.
    pub fn refused_pages(&self) -> Option<&'a Pages> {
        match self.side {
            Some(Side::After) => self.after,
            _ => self.pages,
        }
    }

    pub fn with(self, doublewrite: &'a Doublewrite) -> Read<'a> {
        Read {
            doublewrite: Some(doublewrite),
            ..self
        }
    }

    pub fn listing(self, list: &'a [u64]) -> Read<'a> {
        Read {
            list: Some(list),
            ..self
        }
    }
}

/// The fields that every JSON object starts with.
pub fn head_fields(parsed: &Parsed, result: &str, verdict: Verdict) -> Vec<(&'static str, Json)> {
    let name = library::refusal::refusal(verdict.number).map_or("DONE", |refusal| refusal.name);
    vec![
        ("command", parsed.name().into()),
        ("result", result.into()),
        ("number", verdict.number.into()),
        ("name", name.into()),
        ("place", verdict.place.into()),
    ]
}

impl Read<'_> {
    pub fn fields(&self) -> Vec<(&'static str, Json)> {
        let file = match self.is_catalog {
            true => "catalog_file",
            false => "pages_file",
        };
        let mut fields = self.pages.map_or(Vec::new(), |pages| pages.fields_of(file));
        fields.extend(self.log.map_or(Vec::new(), Log::fields));
        fields.extend(self.doublewrite.map_or(Vec::new(), Doublewrite::fields));
        fields.extend(self.summary.map_or(Vec::new(), Summary::fields));
        let after = self.after.map(|after| Json::text(after.path.display()));
        fields.extend(after.map(|after| ("after_file", after)));
        let side = self.side.map(|side| side.words().into());
        fields.extend(side.map(|side| ("refused_are", side)));
        fields
    }
}
