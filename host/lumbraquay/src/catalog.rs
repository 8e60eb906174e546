//! The table rows of a page file, and the names of tables by them.

use std::collections::BTreeMap;

use library::{Listed, Table};

use crate::advice::unless_refused;
use crate::args::{Parsed, CATALOG};
use crate::failure::Failure;
use crate::input::{Log, Pages, Read};
use crate::json::Json;
use crate::listing::rows;
use crate::output::Output;
use crate::show;

/// A visible row whose payload reads as a table's.
pub struct TableRow<'a> {
    pub at: Listed,
    pub table: Table,
    pub payload: &'a [u8],
}

impl<'a> TableRow<'a> {
    /// The row in these bytes of a tuple, if it reads.
    pub fn of(at: Listed, payload: &'a [u8]) -> Option<TableRow<'a>> {
        let table = library::table_read(payload);
        (table.number == 0).then_some(TableRow { at, table, payload })
    }

    fn schema(&self) -> &'a [u8] {
        self.table.schema(self.payload)
    }

    fn own_name(&self) -> &'a [u8] {
        self.table.name(self.payload)
    }

    /// Schema and name, joined by a dot.
    pub fn name(&self) -> String {
        format!(
            "{}.{}",
            show::name_of_bytes(self.schema()),
            show::name_of_bytes(self.own_name())
        )
    }

    pub fn layout(&self) -> &'static str {
        show::layout(self.table.layout)
    }

    pub fn fields(&self) -> Vec<(&'static str, Json)> {
        let text = |bytes| show::printable(bytes).map_or(Json::Null, Json::from);
        vec![
            ("table", self.table.table.into()),
            ("table_name", Json::Text(self.name())),
            ("schema", text(self.schema())),
            ("schema_hex", Json::Text(show::hex(self.schema()))),
            ("name_in_schema", text(self.own_name())),
            ("name_hex", Json::Text(show::hex(self.own_name()))),
            ("root_page", self.table.root.into()),
            ("layout", self.table.layout.into()),
            ("layout_name", self.layout().into()),
            ("version", self.table.version.into()),
            ("page", self.at.page.into()),
            ("slot", self.at.slot.into()),
            ("length", self.at.length.into()),
            ("offset", self.at.offset.into()),
        ]
    }
}

/// The names of tables, each by the first row that the library's search would find.
pub struct TableNames(BTreeMap<u64, String>);

impl TableNames {
    /// Of pages that are all good.
    pub fn of(pages: &Pages) -> TableNames {
        let mut names = BTreeMap::new();
        for row in rows(pages, library::list_visible, None) {
            if let Some(row) = TableRow::of(row.at, row.tuple.payload()) {
                names.entry(row.table.table).or_insert_with(|| row.name());
            }
        }
        TableNames(names)
    }

    pub fn get(&self, table: u64) -> Option<&str> {
        self.0.get(&table).map(String::as_str)
    }
}

/// The page file that names tables.
pub struct Catalog {
    pub pages: Pages,
    pub names: TableNames,
}

impl Catalog {
    /// What --catalog names, if it is given beside a log.
    pub fn read(
        parsed: &Parsed,
        output: &mut Output,
        log: &Log,
    ) -> Result<Option<Catalog>, Failure> {
        let Some(pages) = Pages::chosen(parsed, CATALOG.name)? else {
            return Ok(None);
        };
        let verdict = library::verify(pages.magic, &pages.bytes);
        unless_refused(parsed, output, verdict, Read::catalog(&pages, log))?;
        let names = TableNames::of(&pages);
        Ok(Some(Catalog { pages, names }))
    }
}
