//! A double-write file, and the repair of torn pages from it.

use std::collections::BTreeSet;
use std::path::{Path, PathBuf};

use library::refusal;
use library::{Repair, Verdict, DOUBLEWRITE_FRAME_BYTES, DOUBLEWRITE_SLOT_BYTES, PAGE_BYTES};

use crate::args::Parsed;
use crate::failure::Failure;
use crate::fault;
use crate::files::Seen;
use crate::input::Pages;
use crate::json::Json;
use crate::memory;
use crate::output::Output;
use crate::show;
use crate::slow::{self, Work};

const NAME: &[u8] = b"AXMDBLWR";
const VERSION: u32 = 1;
const COUNT_AT: usize = 12;
const HEADER_BYTES: usize = 16;
const MARK: u32 = 0xDEAD_BEEF;

/// How many bytes a file with this header has; as many as one without slots where the header is wrong.
fn told_bytes(header: &[u8]) -> usize {
    let is_right = header.starts_with(NAME) && number(header, NAME.len()) == VERSION;
    let slots = if is_right {
        number(header, COUNT_AT)
    } else {
        0
    };
    library::doublewrite_bytes(slots as usize)
}

fn number(bytes: &[u8], at: usize) -> u32 {
    let bytes = bytes.get(at..).and_then(|it| it.first_chunk());
    bytes.map_or(0, |bytes| u32::from_le_bytes(*bytes))
}

/// A double-write file.
pub struct Doublewrite {
    pub path: PathBuf,
    pub bytes: Vec<u8>,
    /// The file's length, of which no more bytes are read than its header tells and one.
    pub length: u64,
    pub seen: Seen,
}

impl Doublewrite {
    /// Reads as much of the file as its header tells; one that has more is refused by 22.
    pub fn read(path: &Path) -> Result<Doublewrite, Failure> {
        slow::at(Work::Reading);
        let whole = Seen::open(path)?.read_by(HEADER_BYTES, told_bytes)?;
        Ok(Doublewrite {
            path: path.to_path_buf(),
            bytes: whole.bytes,
            length: whole.length,
            seen: whole.seen,
        })
    }

    /// The copy of a page, if the file is right and has one.
    pub fn copy_of(&self, page: u64, pages: u64) -> Option<&[u8]> {
        let slots = library::doublewrite_read(&self.bytes, pages).slots;
        let slot = self.named(slots).position(|named| named == page)?;
        Some(self.copy(slot))
    }

    /// The copy in a slot that is there.
    fn copy(&self, slot: usize) -> &[u8] {
        let at = HEADER_BYTES + slot * DOUBLEWRITE_SLOT_BYTES + 8;
        &self.bytes[at..][..PAGE_BYTES]
    }

    /// The pages that its slots name, in their order.
    fn named(&self, slots: u64) -> impl Iterator<Item = u64> + '_ {
        (0..slots).map(|slot| library::doublewrite_id(&self.bytes, slot))
    }

    fn number(&self, at: usize) -> u32 {
        number(&self.bytes, at)
    }

    pub fn fields(&self) -> Vec<(&'static str, Json)> {
        vec![
            ("doublewrite_file", Json::text(self.path.display())),
            ("doublewrite_bytes", self.length.into()),
        ]
    }

    /// What is found where a file for so many pages is refused, and what the rule asks.
    pub fn found(&self, verdict: Verdict, pages: u64) -> Option<String> {
        let end = self.bytes.len().saturating_sub(8);
        Some(match verdict.number {
            refusal::DOUBLEWRITE_HEADER => self.header(),
            refusal::DOUBLEWRITE_CHECKSUM => format!(
                "checksum {:08x}, which should be {:08x} by the {end} bytes before it",
                self.number(end),
                library::crc32c(&self.bytes[..end])
            ),
            refusal::DOUBLEWRITE_MARK => format!(
                "{:08x} at its end, which should be {MARK:08x}",
                self.number(end + 4)
            ),
            refusal::DOUBLEWRITE_PAGES => self.stray(pages)?,
            _ => return None,
        })
    }

    fn header(&self) -> String {
        let length = self.length;
        let start = &self.bytes[..self.bytes.len().min(NAME.len())];
        if self.bytes.len() < DOUBLEWRITE_FRAME_BYTES {
            return format!("{length} bytes, which should be {DOUBLEWRITE_FRAME_BYTES} or more");
        }
        if start != NAME {
            let name = String::from_utf8_lossy(NAME);
            return format!(
                "it starts with '{}', which should be '{}', {name}",
                show::hex(start),
                show::hex(NAME)
            );
        }
        match self.number(NAME.len()) {
            VERSION => format!(
                "{length} bytes, which should be {} for a slot count of {}",
                told_bytes(&self.bytes),
                self.number(COUNT_AT)
            ),
            version => format!("version {version}, which should be {VERSION}"),
        }
    }

    /// The first slot whose page is not there, or named by an earlier one.
    fn stray(&self, pages: u64) -> Option<String> {
        let slots = u64::from(self.number(COUNT_AT));
        let mut first = vec![None; usize::try_from(pages).ok()?];
        for (slot, page) in (0u64..).zip(self.named(slots)) {
            match first.get_mut(page as usize) {
                None => {
                    return Some(format!(
                        "slot {slot} names page {page}, and there are {}",
                        show::count(pages, "page", "pages")
                    ))
                }
                Some(Some(before)) => {
                    return Some(format!(
                        "slot {slot} names page {page}, which slot {before} names too"
                    ))
                }
                Some(none) => *none = Some(slot),
            }
        }
        None
    }
}

/// Pages that were repaired.
pub struct Repaired {
    pub file: Doublewrite,
    pub answer: Repair,
    slots: u64,
    restored: Vec<u64>,
    /// The pages that are still torn, each with what its copy is refused by if it has one.
    left: Vec<(u64, Option<Verdict>)>,
}

impl Repaired {
    /// Repairs the pages, which keep the bytes that were read beside the repaired ones. The answer may be a refusal.
    pub fn of(parsed: &Parsed, pages: &mut Pages, file: Doublewrite) -> Result<Repaired, Failure> {
        pages.take_magic(parsed, &file);
        let mut new = memory::room(pages.bytes.len())?;
        new.extend_from_slice(&pages.bytes);
        slow::at(Work::Repairing);
        let answer = library::repair(pages.magic, &mut new, &file.bytes);
        let mut repaired = Repaired {
            file,
            answer,
            slots: 0,
            restored: Vec::new(),
            left: Vec::new(),
        };
        if answer.number == refusal::DONE {
            let lent = pages.count() as u64;
            repaired.slots = library::doublewrite_read(&repaired.file.bytes, lent).slots;
            repaired.look(pages, &new)?;
            pages.repair(new);
        }
        Ok(repaired)
    }

    /// Finds the pages that were restored, and those that are still torn.
    fn look(&mut self, pages: &Pages, new: &[u8]) -> Result<(), Failure> {
        let both = pages.bytes.chunks(PAGE_BYTES).zip(new.chunks(PAGE_BYTES));
        let mut torn = BTreeSet::new();
        for (index, (old, new)) in (0u64..).zip(both) {
            if old != new {
                self.restored.push(index);
            } else if fault::is_torn(new) {
                torn.insert(index);
            }
        }
        // What each copy that was not taken is refused by in the place of its page.
        let mut copies = memory::room(new.len())?;
        copies.extend_from_slice(new);
        let mut copied = BTreeSet::new();
        for (slot, page) in (0..self.slots as usize).zip(self.file.named(self.slots)) {
            if torn.contains(&page) {
                let copy = self.file.copy(slot);
                copies[page as usize * PAGE_BYTES..][..PAGE_BYTES].copy_from_slice(copy);
                copied.insert(page);
            }
        }
        let refused = |page| library::verify_from(pages.magic, &copies, page);
        let why = |page: u64| copied.contains(&page).then(|| refused(page));
        self.left = torn.iter().map(|page| (*page, why(*page))).collect();
        Ok(())
    }

    pub fn tell(&self, output: &mut Output) -> Result<(), Failure> {
        let slots = show::count(self.slots, "slot", "slots");
        let pages: Vec<u64> = self.file.named(self.slots).collect();
        let path = self.file.path.display();
        match pages.is_empty() {
            true => output.line(format_args!("{path}: {slots}"))?,
            false => output.line(format_args!(
                "{path}: {slots}, pages {}",
                show::ranges(&pages)
            ))?,
        }
        let restored = show::count(self.answer.restored, "page", "pages");
        match self.restored.is_empty() {
            true => output.line(format_args!("  restored:     {restored}"))?,
            false => output.line(format_args!(
                "  restored:     {restored}: {}",
                show::ranges(&self.restored)
            ))?,
        }
        for (page, refused) in &self.left {
            let why = match refused {
                None => "the file has no copy of it".to_string(),
                Some(verdict) => {
                    let name = fault::name(*verdict);
                    format!("its copy is not good, by {} {name}", verdict.number)
                }
            };
            output.line(format_args!("  still torn:   page {page}: {why}"))?;
        }
        Ok(())
    }

    pub fn fields(&self) -> Vec<(&'static str, Json)> {
        let left = self.left.iter().map(|(page, refused)| {
            let refused = refused.map_or(Json::Null, |verdict| verdict.number.into());
            Json::Object(vec![("page", (*page).into()), ("copy_refused_by", refused)])
        });
        let restored = self.restored.iter().map(|page| Json::from(*page));
        let mut fields = self.file.fields();
        fields.extend([
            ("doublewrite_slots", self.slots.into()),
            ("pages_restored", self.answer.restored.into()),
            ("restored_pages", Json::List(restored.collect())),
            ("torn_pages", Json::List(left.collect())),
        ]);
        fields
    }
}
