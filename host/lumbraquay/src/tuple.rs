//! Rows as pages and images hold them: a header of 24 bytes and the payload.

use crate::json::Json;
use crate::show;

const HEADER_BYTES: usize = 24;
const PAGE_HEAD_BYTES: usize = 64;

/// The bytes of a whole tuple.
#[derive(Clone, Copy, PartialEq, Eq)]
pub struct Tuple<'a> {
    bytes: &'a [u8],
}

impl<'a> Tuple<'a> {
    /// None where there are too few bytes for a header.
    pub fn of(bytes: &'a [u8]) -> Option<Tuple<'a>> {
        (bytes.len() >= HEADER_BYTES).then_some(Tuple { bytes })
    }

    fn number(&self, at: usize) -> u64 {
        let bytes = self.bytes[at..].first_chunk();
        bytes.map_or(0, |bytes| u64::from_le_bytes(*bytes))
    }

    pub fn xmin(&self) -> u64 {
        self.number(0)
    }

    pub fn xmax(&self) -> u64 {
        self.number(8)
    }

    pub fn is_deleted(&self) -> bool {
        self.bytes[16] == 1
    }

    /// The 7 pad bytes as one number.
    pub fn pad(&self) -> u64 {
        self.number(16) >> 8
    }

    pub fn payload(&self) -> &'a [u8] {
        &self.bytes[HEADER_BYTES..]
    }

    /// State, header and payload, of which so many letters are shown.
    pub fn words(&self, most: usize) -> String {
        format!(
            "{}, xmin {}, xmax {}, {}",
            state(self.is_deleted(), self.xmax()),
            self.xmin(),
            self.xmax(),
            show::payload(self.payload(), most)
        )
    }

    pub fn fields(&self) -> Json {
        let payload = self.payload();
        Json::Object(vec![
            ("deleted", self.is_deleted().into()),
            ("xmin", self.xmin().into()),
            ("xmax", self.xmax().into()),
            ("payload", Json::text(show::hex(payload))),
            (
                "text",
                show::printable(payload).map_or(Json::Null, Json::from),
            ),
        ])
    }
}

/// A row's state: live where it is visible, else cancelled. Older releases of the portal cancelled a row by its xmax alone.
pub fn state(is_deleted: bool, xmax: u64) -> &'static str {
    match (is_deleted, xmax) {
        (true, _) => "cancelled, deleted byte 1",
        (false, 0) => "live",
        (false, _) => "cancelled, deleted byte 0",
    }
}

/// A tuple or none in words.
pub fn words(tuple: Option<Tuple>, most: usize) -> String {
    tuple.map_or("no row".to_string(), |tuple| tuple.words(most))
}

pub fn fields(tuple: Option<Tuple>) -> Json {
    tuple.map_or(Json::Null, |tuple| tuple.fields())
}

/// A number of two bytes on a page.
pub fn short(page: &[u8], at: usize) -> usize {
    usize::from(u16::from_le_bytes([page[at], page[at + 1]]))
}

/// How many slots a good data page has; other pages have none.
pub fn slot_count(page: &[u8]) -> usize {
    if page[8] == 1 {
        short(page, 10)
    } else {
        0
    }
}

/// The tuple in a slot of a good data page.
pub fn in_slot(page: &[u8], slot: usize) -> Option<Tuple<'_>> {
    if slot >= slot_count(page) {
        return None;
    }
    let at = PAGE_HEAD_BYTES + 4 * slot;
    let start = PAGE_HEAD_BYTES + short(page, at);
    Tuple::of(page.get(start..start + short(page, at + 2))?)
}
