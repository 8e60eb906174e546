//! The commands, one file each.

mod demo;
mod doublewrite;
mod freemap;
mod judge;
mod log;
mod order;
mod pages;
mod recover;
mod repair;
mod repeats;
mod replay;
mod report;
mod row;
mod rows;
mod summary;
mod table;
mod tables;
mod transactions;
mod verify;

use library::refusal::NO_SUCH_PAGE;
use library::Verdict;

use crate::advice::unless_refused;
use crate::args::{Command, Parsed};
use crate::failure::Failure;
use crate::input::{Pages, Read};
use crate::output::Output;

pub const ALL: &[Command] = &[
    demo::COMMAND,
    recover::COMMAND,
    transactions::COMMAND,
    repair::COMMAND,
    verify::COMMAND,
    log::COMMAND,
    pages::COMMAND,
    rows::COMMAND,
    row::COMMAND,
    tables::COMMAND,
    table::COMMAND,
    order::COMMAND,
    repeats::COMMAND,
    judge::COMMAND,
    freemap::COMMAND,
    doublewrite::COMMAND,
    summary::WRITE,
    summary::SHOW,
    summary::DIFF,
    report::COMMAND,
    replay::COMMAND,
];

/// The first words of commands that have two, and what these are about.
pub const GROUPS: &[(&str, &str)] = &[(
    "summary",
    "writes, shows and compares a list of the visible rows, kept beside the data",
)];

/// What PAGES and LOG mean wherever a command takes them.
const PAGES: (&str, &str) = ("PAGES", "the page file; - for standard input");
const LOG: (&str, &str) = ("LOG", "the log file; - for standard input");

/// Refuses a page that is asked for and not there.
fn must_have_page(
    parsed: &Parsed,
    output: &mut Output,
    pages: &Pages,
    asked: Option<u64>,
) -> Result<(), Failure> {
    let number = match asked {
        Some(page) if page >= pages.count() as u64 => NO_SUCH_PAGE,
        _ => 0,
    };
    unless_refused(
        parsed,
        output,
        Verdict { number, place: 0 },
        Read::pages(pages),
    )
}
