//! Where pages go that a command has changed, or bytes that it made of them: a new file, the place of the page file with a
//! backup, or standard output.

use std::path::{Path, PathBuf};

use crate::args::{Choice, Parsed};
use crate::failure::Failure;
use crate::files::{self, is_standard, Seen, STANDARD};
use crate::held::Held;
use crate::input::Pages;
use crate::json::Json;
use crate::output::Output;

/// Options that commands with a target have.
pub const FORCE: Choice = Choice::flag("--force", "replace the new file if it exists");
pub const IN_PLACE: Choice = Choice::flag(
    "--in-place",
    "replace PAGES itself and keep a copy as PAGES.bak (.bak2, .bak3 and so on where that exists)",
);
pub const DRY_RUN: Choice = Choice::flag("--dry-run", "write nothing");

/// Where the bytes go.
pub enum Target {
    New(PathBuf),
    InPlace(Held),
    Standard,
    Nowhere,
}

/// What became of them.
pub enum Written {
    New(PathBuf),
    Replaced { backup: PathBuf },
    Standard,
    Unchanged,
    Nothing,
}

/// The page file, held to be replaced if that is asked for.
pub fn held(parsed: &Parsed) -> Result<Option<Held>, Failure> {
    if parsed.flag("--in-place") && (parsed.flag("--out") || parsed.flag("--force")) {
        let what = "--in-place goes with neither --out nor --force";
        return Err(parsed.wrong(what.to_string()));
    }
    if is_standard(parsed.path(0)) && parsed.flag("--in-place") {
        let what = "--in-place needs a file, and PAGES is standard input";
        return Err(parsed.wrong(what.to_string()));
    }
    match parsed.flag("--in-place") && !parsed.flag("--dry-run") {
        true => Ok(Some(Held::take(parsed.path(0))?)),
        false => Ok(None),
    }
}

impl Target {
    /// Where the bytes are to go, by default a file named after PAGES; whatever forbids that is told before any work.
    pub fn of(
        parsed: &Parsed,
        held: Option<Held>,
        ending: &str,
        inputs: &[&Path],
    ) -> Result<Target, Failure> {
        if parsed.flag("--dry-run") {
            return Ok(Target::Nowhere);
        }
        if let Some(held) = held {
            return Ok(Target::InPlace(held));
        }
        let out = match parsed.chosen_path("--out") {
            Some(out) if is_standard(out) => return standard(),
            Some(out) => out.to_path_buf(),
            None if is_standard(parsed.path(0)) => {
                let what =
                    "--out is missing: PAGES is standard input, and gives the new file no name";
                return Err(parsed.wrong(what.to_string()));
            }
            None => files::with_ending(parsed.path(0), ending),
        };
        if inputs.iter().any(|input| files::is_same(&out, input)) {
            let why = match parsed.has("--in-place") {
                true => "it is one of the files that are read; --in-place replaces the pages and keeps a backup",
                false => "it is one of the files that are read",
            };
            return Err(Failure::file("write", &out, why));
        }
        files::check_new(&out, parsed.flag("--force"))?;
        Ok(Target::New(out))
    }

    /// Writes the bytes that were made of the pages, if these and the other files that were read stand as they were.
    pub fn write(
        self,
        parsed: &Parsed,
        output: &mut Output,
        pages: &Pages,
        others: &[&Seen],
        new: &[u8],
    ) -> Result<Written, Failure> {
        match self {
            Target::Nowhere => Ok(Written::Nothing),
            Target::InPlace(_) if pages.as_read() == new => Ok(Written::Unchanged),
            Target::InPlace(held) => {
                let backup = held.replace(others, pages.as_read(), new)?;
                Ok(Written::Replaced { backup })
            }
            Target::Standard => {
                let mut standard = Output::standard();
                standard.bytes(new)?;
                standard.flush()?;
                if !parsed.flag("--quiet") {
                    *output = Output::error();
                }
                Ok(Written::Standard)
            }
            Target::New(out) => {
                pages.seen.must_be_as_read()?;
                others
                    .iter()
                    .try_for_each(|other| other.must_be_as_read())?;
                files::write_new(&out, new, Some(&pages.seen), parsed.flag("--force"))?;
                Ok(Written::New(out))
            }
        }
    }
}

/// Pages are no sight for a terminal.
fn standard() -> Result<Target, Failure> {
    match Output::is_terminal() {
        true => Err(Failure::File(
            "cannot write pages to standard output: it is a terminal".to_string(),
        )),
        false => Ok(Target::Standard),
    }
}

impl Written {
    /// What became of the bytes, in a word.
    pub fn result(&self) -> &'static str {
        match self {
            Written::New(_) | Written::Replaced { .. } | Written::Standard => "done",
            Written::Unchanged => "unchanged",
            Written::Nothing => "dry-run",
        }
    }

    /// The same in words, after what was done and what that is called.
    pub fn words(&self, done: &str, doing: &str, pages: &Pages) -> String {
        let file = pages.path.display();
        match self {
            Written::Standard => format!("{done}: written to standard output"),
            Written::New(path) => format!("{done}: written to {}", path.display()),
            Written::Replaced { backup } => {
                format!(
                    "{done}: {file} replaced; {} has the {} bytes that were read from it",
                    backup.display(),
                    pages.length
                )
            }
            Written::Unchanged => {
                format!("{done}: {file} holds these very bytes and was left alone")
            }
            Written::Nothing => format!("dry run: {doing} would succeed, nothing was written"),
        }
    }

    pub fn fields(&self, pages: &Pages) -> Vec<(&'static str, Json)> {
        let path = |path: &Path| Json::text(path.display());
        let (output, backup) = match self {
            Written::Standard => (STANDARD.into(), Json::Null),
            Written::New(out) => (path(out), Json::Null),
            Written::Replaced { backup } => (path(&pages.path), path(backup)),
            Written::Unchanged | Written::Nothing => (Json::Null, Json::Null),
        };
        vec![("written_to", output), ("backup", backup)]
    }
}
