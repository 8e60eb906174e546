//! `pages`: what stands in the header of each page, good or not, and sums over all.

use library::PAGE_BYTES;

use crate::advice::{refusal_fields, text};
use crate::args::{Choice, Command, Parsed, JSON, MAGIC};
use crate::failure::Failure;
use crate::input::{head_fields, Pages, Read};
use crate::json::Json;
use crate::output::Output;
use crate::show;
use crate::tuple::short;

pub const COMMAND: Command = Command {
    name: "pages",
    about: "lists the pages: type, LSN, items, free bytes, checksum; and sums",
    takes: &[super::PAGES],
    options: &[
        Choice::value("--page", "N", "only this page"),
        Choice::value("--type", "TYPE", "only pages of this type, by name or number"),
        MAGIC,
        JSON,
    ],
    more: "Pages that are not good are listed too; then the first of them is refused, as by `verify`. Free bytes are those between\n\
           the slots and the tuples of a data page.",
    run,
};

/// The header of a page.
struct Head<'a> {
    index: usize,
    page: &'a [u8],
    sum: u32,
}

impl Head<'_> {
    fn number(&self, at: usize) -> u64 {
        let bytes = self.page[at..].first_chunk();
        bytes.map_or(0, |bytes| u64::from_le_bytes(*bytes))
    }

    fn page_type(&self) -> u8 {
        self.page[8]
    }

    fn is_data(&self) -> bool {
        self.page_type() == 1
    }

    fn items(&self) -> usize {
        short(self.page, 10)
    }

    fn checksum(&self) -> u32 {
        self.number(12) as u32
    }

    fn is_right(&self) -> bool {
        self.checksum() == self.sum
    }

    /// None where the header says nothing of them, or something impossible.
    fn free_bytes(&self) -> Option<usize> {
        let (start, end) = (short(self.page, 32), short(self.page, 34));
        end.checked_sub(start).filter(|_| self.is_data())
    }

    fn line(&self) -> String {
        let right = match self.is_right() {
            true => format!("{:08x}", self.checksum()),
            false => format!(
                "{:08x} is wrong, the body has {:08x}",
                self.checksum(),
                self.sum
            ),
        };
        let free = self
            .free_bytes()
            .map_or("-".to_string(), |free| free.to_string());
        format!(
            "{:>6}  {:<9}  {:>10}  {:>5}  {free:>5}  {right}",
            self.index,
            show::page_type(self.page_type()),
            self.number(24),
            self.items(),
        )
    }

    fn fields(&self) -> Json {
        Json::Object(vec![
            ("page", self.index.into()),
            ("type", u64::from(self.page_type()).into()),
            ("type_name", show::page_type(self.page_type()).into()),
            ("flags", u64::from(self.page[9]).into()),
            ("items", self.items().into()),
            ("id", self.number(16).into()),
            ("lsn", self.number(24).into()),
            (
                "free_bytes",
                self.free_bytes().map_or(Json::Null, Json::from),
            ),
            (
                "checksum",
                Json::text(format_args!("{:08x}", self.checksum())),
            ),
            ("checksum_is_right", self.is_right().into()),
        ])
    }
}

/// What all listed pages have together.
#[derive(Default)]
struct Sums {
    types: Vec<(&'static str, u64)>,
    pages: u64,
    items: usize,
    free_bytes: usize,
    wrong: u64,
    highest_lsn: u64,
}

impl Sums {
    fn add(&mut self, head: &Head) {
        let name = show::page_type(head.page_type());
        match self.types.iter_mut().find(|(known, _)| *known == name) {
            Some((_, count)) => *count += 1,
            None => self.types.push((name, 1)),
        }
        self.pages += 1;
        self.free_bytes += head.free_bytes().unwrap_or(0);
        if head.is_data() {
            self.items += head.items();
        }
        self.wrong += u64::from(!head.is_right());
        self.highest_lsn = self.highest_lsn.max(head.number(24));
    }

    fn line(&self) -> String {
        let types = self
            .types
            .iter()
            .map(|(name, count)| format!("{count} {name}"));
        let types: Vec<String> = types.collect();
        format!(
            "{}: {}; {} and {} free bytes on data pages, highest LSN {}, {}",
            show::count(self.pages, "page", "pages"),
            types.join(", "),
            show::count(self.items as u64, "item", "items"),
            self.free_bytes,
            self.highest_lsn,
            show::count(self.wrong, "wrong checksum", "wrong checksums")
        )
    }

    fn fields(&self) -> Json {
        let types = self.types.iter().map(|&(name, count)| (name, count.into()));
        Json::Object(vec![
            ("pages", self.pages.into()),
            ("types", Json::Object(types.collect())),
            ("items", self.items.into()),
            ("free_bytes", self.free_bytes.into()),
            ("highest_lsn", self.highest_lsn.into()),
            ("wrong_checksums", self.wrong.into()),
        ])
    }
}

fn run(parsed: &Parsed, output: &mut Output) -> Result<(), Failure> {
    let only = parsed.chosen_number("--page")?;
    let only_type = parsed.chosen_name("--type", show::PAGE_TYPES)?;
    let pages = Pages::read(parsed)?;
    super::must_have_page(parsed, output, &pages, only)?;
    let is_listed = |head: &Head| {
        only.is_none_or(|page| page == head.index as u64)
            && only_type.is_none_or(|name| name == show::page_type(head.page_type()))
    };
    let mut sums = Sums::default();
    let mut list = Vec::new();
    if !parsed.flag("--json") {
        output.line(pages.line())?;
        output.line("  page  type              LSN  items   free  checksum")?;
    }
    for (index, page) in pages.bytes.chunks_exact(PAGE_BYTES).enumerate() {
        let sum = library::crc32c(&page[64..]);
        let head = Head { index, page, sum };
        if !is_listed(&head) {
            continue;
        }
        sums.add(&head);
        match parsed.flag("--json") {
            true => list.push(head.fields()),
            false => output.line(head.line())?,
        }
    }
    let verdict = library::verify(pages.magic, &pages.bytes);
    let is_good = verdict.number == 0;
    if parsed.flag("--json") {
        let result = if is_good { "done" } else { "refused" };
        let mut fields = head_fields(parsed, result, verdict);
        if !is_good {
            fields.extend(refusal_fields(verdict, Read::pages(&pages)));
        }
        fields.extend(pages.fields());
        fields.push(("sums", sums.fields()));
        fields.push(("list", Json::List(list)));
        output.line(Json::Object(fields))?;
    } else {
        output.line(sums.line())?;
    }
    match (is_good, parsed.flag("--json")) {
        (true, _) => Ok(()),
        (false, true) => Err(Failure::Refused(String::new())),
        (false, false) => Err(Failure::Refused(text(verdict, Read::pages(&pages)))),
    }
}
