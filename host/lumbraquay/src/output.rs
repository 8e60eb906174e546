//! Standard output, with every failed write told, and no letter that a terminal would take for an order.

use std::fmt::Display;
use std::io::{BufWriter, IsTerminal, Write};

use crate::failure::Failure;
use crate::json::Json;
use crate::plain::plain;

pub struct Output {
    to: Box<dyn Write>,
}

impl Output {
    pub fn standard() -> Output {
        Output {
            to: Box::new(BufWriter::new(std::io::stdout())),
        }
    }

    /// Standard error takes what else is to be read where standard output takes bytes.
    pub fn error() -> Output {
        Output {
            to: Box::new(BufWriter::new(std::io::stderr())),
        }
    }

    /// Nothing is printed.
    pub fn quiet() -> Output {
        Output {
            to: Box::new(std::io::sink()),
        }
    }

    pub fn is_terminal() -> bool {
        std::io::stdout().is_terminal()
    }

    /// Bytes as they are.
    pub fn bytes(&mut self, bytes: &[u8]) -> Result<(), Failure> {
        self.to.write_all(bytes).map_err(Failure::Output)
    }

    pub fn text(&mut self, text: &str) -> Result<(), Failure> {
        self.bytes(plain(text).as_bytes())
    }

    pub fn line(&mut self, line: impl Display) -> Result<(), Failure> {
        self.text(&format!("{line}\n"))
    }

    /// A JSON object as a line. Its lists come last and item by item, so that none is ever held whole.
    pub fn object(
        &mut self,
        fields: Vec<(&'static str, Json)>,
        lists: impl IntoIterator<Item = (&'static str, impl Iterator<Item = Json>)>,
    ) -> Result<(), Failure> {
        let fields = Json::Object(fields).to_string();
        self.text(fields.strip_suffix('}').unwrap_or(&fields))?;
        for (name, items) in lists {
            self.text(&format!(",\"{name}\":["))?;
            for (at, item) in items.enumerate() {
                self.text(&format!("{}{item}", if at == 0 { "" } else { "," }))?;
            }
            self.text("]")?;
        }
        self.text("}\n")
    }

    pub fn flush(&mut self) -> Result<(), Failure> {
        self.to.flush().map_err(Failure::Output)
    }
}
