//! Payloads of a catalog's table rows, right ones and ones at each bound, and
//! pages that hold them among other rows.

use crate::page::{data_page, live_tuple, other_page, DataPage, Slots};
use crate::rng::Rng;

/// What a table's row says.
#[derive(Clone, Debug)]
pub struct TableParts {
    pub table: u32,
    pub root: u64,
    pub schema: Vec<u8>,
    pub name: Vec<u8>,
    pub layout: u8,
    pub version: u64,
}

/// A name of a length at a bound or near it, or of a few bytes.
fn name(rng: &mut Rng, longest: usize) -> Vec<u8> {
    let length = match rng.below(8) {
        0 => 0,
        1 => longest,
        2 => longest - 1,
        3 => rng.size(0, longest),
        _ => rng.size(1, 12),
    };
    match rng.one_in(3) {
        true => rng.bytes(length),
        false => (0..length).map(|_| b'a' + rng.below(26) as u8).collect(),
    }
}

fn layout(rng: &mut Rng) -> u8 {
    match rng.below(12) {
        0 => 2,
        1 => 255,
        2 => rng.byte(),
        drawn => (drawn % 2) as u8,
    }
}

impl TableParts {
    /// Names that a payload can hold.
    pub fn random(rng: &mut Rng, table: u32) -> TableParts {
        TableParts::with_names(rng, table, 255)
    }

    /// Names of up to so many bytes.
    pub fn with_names(rng: &mut Rng, table: u32, longest: usize) -> TableParts {
        TableParts {
            table,
            root: rng.number(),
            schema: name(rng, longest),
            name: name(rng, longest),
            layout: layout(rng),
            version: rng.number(),
        }
    }

    /// The bytes of the newest form.
    pub fn newest(&self) -> Vec<u8> {
        let mut bytes = self.table.to_le_bytes().to_vec();
        bytes.extend(self.root.to_le_bytes());
        for name in [&self.schema, &self.name] {
            bytes.push(name.len() as u8);
            bytes.extend(name);
        }
        bytes.push(self.layout);
        bytes.extend(self.version.to_le_bytes());
        bytes
    }
}

/// A payload for a table: in one of the three forms, cut short anywhere or one
/// byte before a field's end, or with some other number of bytes after the
/// names.
pub fn table_payload(rng: &mut Rng, table: u32) -> Vec<u8> {
    let parts = TableParts::random(rng, table);
    let mut bytes = parts.newest();
    let names_end = bytes.len() - 9;
    let schema_end = 13 + parts.schema.len();
    match rng.below(10) {
        0 => bytes.truncate(names_end),
        1 | 2 => bytes.truncate(names_end + 1),
        3 => bytes.truncate(rng.size(0, names_end)),
        4 => {
            let ends = [4, 12, 13, schema_end, schema_end + 1, names_end];
            bytes.truncate(rng.pick(&ends) - 1);
        }
        5 => bytes.truncate(names_end + rng.size(2, 8)),
        6 => {
            let more = rng.size(1, 3);
            bytes.extend(rng.bytes(more));
        }
        _ => (),
    }
    bytes
}

/// A row of a catalog's pages, visible or not.
#[derive(Clone, Debug)]
pub struct CatalogRow {
    pub page: u64,
    pub slot: u16,
    pub payload: Vec<u8>,
}

/// Good pages with table rows, in the order of the listing.
#[derive(Clone, Debug)]
pub struct Catalog {
    pub magic: u64,
    pub pages: Vec<u8>,
    pub rows: Vec<CatalogRow>,
}

/// So few ids that each stands in several rows, the largest among them.
pub fn catalog_id(rng: &mut Rng) -> u32 {
    match rng.below(8) {
        0 => u32::MAX,
        drawn => 10 + drawn as u32,
    }
}

/// A few pages; of their rows some are cancelled, and some are no table rows.
pub fn catalog(rng: &mut Rng) -> Catalog {
    let magic = rng.number();
    let mut pages = Vec::new();
    let mut rows = Vec::new();
    for id in 0..rng.between(1, 3) {
        let reserved = [0; 28];
        if rng.one_in(4) {
            let kind = *rng.pick(&[0, 2, 3, 4, 5, 6]);
            pages.extend(other_page(rng, magic, kind, id, 0, &reserved));
            continue;
        }
        let mut slots = Slots::new();
        for slot in 0..rng.between(0, 9) as u16 {
            if rng.one_in(6) {
                continue;
            }
            let payload = match rng.one_in(8) {
                true => {
                    let length = rng.size(0, 40);
                    rng.bytes(length)
                }
                false => {
                    let table = catalog_id(rng);
                    table_payload(rng, table)
                }
            };
            let mut tuple = live_tuple(rng.number(), &payload);
            if rng.one_in(4) {
                tuple[16] = 1;
            }
            if rng.one_in(6) {
                tuple[8..16].copy_from_slice(&rng.number().to_le_bytes());
            }
            slots.insert(slot, tuple);
            rows.push(CatalogRow {
                page: id,
                slot,
                payload,
            });
        }
        pages.extend(data_page(rng, &DataPage::plain(magic, id, 0, slots)));
    }
    Catalog { magic, pages, rows }
}
