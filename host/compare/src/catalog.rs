//! The catalog's table rows: payloads read by both readers, rows written and read back, and the search.

use generate::{catalog, catalog_id, table_payload, Catalog, Rng, TableParts};
use library::{Visible, PAGE_BYTES};

use crate::check::Subject;
use crate::lent::Lent;
use crate::seen::Seen;
use crate::twin;

/// What a lent area holds before a call, and what stands on its sides.
const AREA_MARK: u8 = 0xA5;
const AREA_EDGE: u8 = 0x3C;

/// Mixed into the seed, so that these choices leave those of the other calls as they are.
const OWN: u64 = 0x7AB1_E000_0000_0000;

pub(crate) fn compare(subject: &mut Subject, seen: &mut Seen) {
    let rng = &mut Rng::new(subject.case.seed ^ OWN);
    for _ in 0..3 {
        let id = catalog_id(rng);
        readings(&table_payload(rng, id), seen);
    }
    let length = rng.size(0, 40);
    readings(&rng.bytes(length), seen);
    for _ in 0..2 {
        writing(rng, seen);
    }
    let own = catalog(rng);
    search(rng, &own, seen);
    if subject.light {
        let case = subject.case;
        find(case.magic, &case.pages, catalog_id(rng), seen);
    }
}

/// Both readers. What the older one says, the newest says too.
fn readings(payload: &[u8], seen: &mut Seen) {
    let bytes = payload.len();
    let newest = library::table_read(payload);
    let oracle = twin::table(oracle::table_read(payload));
    let call = format_args!("of {bytes} bytes");
    seen.answers("table_read", newest.number, call, &newest, &oracle);
    let older = library::table_read_older(payload);
    let oracle = twin::table(oracle::table_read_older(payload));
    let call = format_args!("of {bytes} bytes");
    seen.answers("table_read_older", older.number, call, &older, &oracle);
    seen.must(older.number != 0 || older == newest, || {
        format!("the readers differ on {bytes} bytes: {newest:?}, older {older:?}")
    });
    if newest.number == 0 {
        let (schema, name) = (newest.schema(payload), newest.name(payload));
        let event = match (
            payload.len() - 14 - schema.len() - name.len(),
            newest.layout,
        ) {
            (0, _) => "first form read",
            (1, 0) => "second form read, heap",
            (1, _) => "second form read, clustered",
            (_, 0) => "newest form read, heap",
            _ => "newest form read, clustered",
        };
        seen.event(event);
        if schema.len() == 255 || name.len() == 255 {
            seen.event("name of 255 bytes read");
        }
    }
}

/// A row written into an area around the length that it needs; what was written is read back.
fn writing(rng: &mut Rng, seen: &mut Seen) {
    let id = catalog_id(rng);
    let parts = TableParts::with_names(rng, id, 256);
    let needed = 23 + parts.schema.len() + parts.name.len();
    let length = match rng.below(4) {
        0 => needed - 1,
        1 => needed,
        2 => needed + rng.size(1, 9),
        _ => rng.size(0, 600),
    };
    let before = vec![AREA_MARK; length];
    let mut lent = Lent::new(&before, rng.size(0, 7), AREA_EDGE);
    let (table, root) = (parts.table, parts.root);
    let (layout, version) = (parts.layout, parts.version);
    let (schema, name) = (&parts.schema, &parts.name);
    let library = library::table_write(table, root, schema, name, layout, version, lent.items());
    let (left, edges_kept) = lent.taken_back();
    let mut expected = before;
    let oracle = oracle::table_write(table, root, schema, name, layout, version, &mut expected);
    seen.answers(
        "table_write",
        library.number,
        format_args!(
            "names of {} and {} bytes, layout {layout}, into {length} bytes",
            schema.len(),
            name.len()
        ),
        &library,
        &twin::written(oracle),
    );
    seen.items(format_args!("area of {length} bytes"), &left, &expected);
    seen.must(edges_kept, || {
        format!("table_write wrote outside of {length} bytes")
    });
    if library.number == 0 {
        let written = &left[..library.length as usize];
        let read = library::table_read(written);
        seen.must(
            (read.table, read.root) == (table.into(), root)
                && (read.layout, read.version) == (layout.into(), version)
                && (read.schema(written), read.name(written)) == (schema, name),
            || format!("written {parts:?}, read back {read:?}"),
        );
        seen.event("row written and read back");
    } else if library.number == 37 {
        seen.event(match schema.len().max(name.len()) {
            256 => "37 for a name of 256 bytes",
            _ if length + 1 == needed => "37 for an area one byte too short",
            _ => "37 for a shorter area",
        });
    }
}

/// The search over pages, by both programs.
fn find(magic: u64, pages: &[u8], table: u32, seen: &mut Seen) -> Visible {
    let library = library::table_find(magic, pages, table);
    let oracle = twin::visible(oracle::table_find(magic, pages, table));
    let call = format_args!("table {table}");
    seen.answers("table_find", library.number, call, &library, &oracle);
    library
}

/// The search over pages that have table rows: what it passes over before its answer, and refusals behind it.
fn search(rng: &mut Rng, own: &Catalog, seen: &mut Seen) {
    let table = catalog_id(rng);
    let found = find(own.magic, &own.pages, table, seen);
    let place = (found.page, found.slot as u16);
    let earlier = own
        .rows
        .iter()
        .take_while(|row| found.found == 0 || (row.page, row.slot) < place);
    for row in earlier {
        let read = library::table_read(&row.payload);
        let is_named = row.payload.starts_with(&table.to_le_bytes());
        if let Some(event) = match (read.number, is_named) {
            (0, true) => Some("cancelled row of the table passed over"),
            (0, false) => Some("row of another table passed over"),
            (_, true) => Some("unreadable row of the table passed over"),
            _ => None,
        } {
            seen.event(event);
        }
    }
    seen.event(match found.found {
        1 => "table found",
        _ => "table not found",
    });
    if rng.one_in(4) {
        let mut spoiled = own.pages.clone();
        let at = rng.index(spoiled.len());
        spoiled[at] ^= 1 << rng.below(8);
        find(own.magic, &spoiled, table, seen);
        let length = spoiled.len() - rng.size(1, PAGE_BYTES - 1);
        find(own.magic, &spoiled[..length], table, seen);
    }
}
