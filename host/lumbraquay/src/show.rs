//! Numbers and bytes in words.

use crate::plain::quoted;

/// Numbers with their names.
pub type Names = &'static [(u64, &'static str)];

pub const ENTRY_TYPES: Names = &[
    (1, "Begin"),
    (2, "Commit"),
    (3, "Rollback"),
    (4, "Insert"),
    (5, "Delete"),
    (7, "Checkpoint"),
    (10, "UpdateInPlace"),
];

pub const PAGE_TYPES: Names = &[
    (0, "meta"),
    (1, "data"),
    (2, "index"),
    (3, "overflow"),
    (4, "free"),
    (5, "clustered"),
    (6, "clustered"),
];

/// Outcomes of a transaction, as an option names them.
pub const OUTCOMES: Names = &[
    (library::COMMITTED, "committed"),
    (library::ROLLED_BACK, "rolled-back"),
    (library::UNENDED, "unended"),
];

fn name(names: Names, number: u64) -> &'static str {
    let mut names = names.iter();
    names
        .find(|(known, _)| *known == number)
        .map_or("unknown", |(_, name)| name)
}

/// The name of an entry's type.
pub fn entry_type(number: u64) -> &'static str {
    name(ENTRY_TYPES, number)
}

/// The name of a page's type.
pub fn page_type(number: u8) -> &'static str {
    name(PAGE_TYPES, number.into())
}

/// How a transaction ended.
pub fn outcome(number: u64) -> &'static str {
    match number {
        library::COMMITTED => "committed",
        library::ROLLED_BACK => "rolled back",
        _ => "unended",
    }
}

/// How a log ends.
pub fn ending(number: u64) -> &'static str {
    match number {
        library::ENDED_TORN => "torn",
        library::ENDED_UNUSED => "unused",
        _ => "exact",
    }
}

/// The layout of a table.
pub fn layout(number: u64) -> &'static str {
    match number {
        library::HEAP => "heap",
        library::CLUSTERED => "clustered",
        _ => "unknown",
    }
}

/// A name that is plain bytes: as it is where that is a word that starts with no digit, as hexadecimal digits do, else as
/// a payload.
pub fn name_of_bytes(bytes: &[u8]) -> String {
    let is_letter = |byte: &u8| byte.is_ascii_alphanumeric() || *byte == b'_';
    let is_word =
        bytes.first().is_some_and(|first| !first.is_ascii_digit()) && bytes.iter().all(is_letter);
    match std::str::from_utf8(bytes) {
        Ok(text) if is_word => text.to_string(),
        _ => payload(bytes, usize::MAX),
    }
}

pub fn hex(bytes: &[u8]) -> String {
    bytes.iter().map(|byte| format!("{byte:02x}")).collect()
}

/// A payload as text in quotes if it is text, else as hexadecimal digits after 0x; cut off after so many letters or bytes.
pub fn payload(bytes: &[u8], most: usize) -> String {
    let Some(text) = printable(bytes) else {
        let shown = &bytes[..bytes.len().min(most / 2)];
        let more = if shown.len() < bytes.len() { "..." } else { "" };
        return format!("0x{}{more}", hex(shown));
    };
    match text.char_indices().nth(most) {
        Some((at, _)) => format!("{}...", quoted(&text[..at])),
        None => quoted(text),
    }
}

/// The text that bytes are, if they are text on one line.
pub fn printable(bytes: &[u8]) -> Option<&str> {
    let text = std::str::from_utf8(bytes).ok()?;
    (!text.chars().any(char::is_control)).then_some(text)
}

/// Numbers in rising order, runs of them as ranges: 0-1, 7-9.
pub fn ranges(numbers: &[u64]) -> String {
    let runs = numbers.chunk_by(|one, next| one.checked_add(1) == Some(*next));
    let run = |run: &[u64]| match run {
        [first, .., last] => format!("{first}-{last}"),
        run => run.iter().map(u64::to_string).collect(),
    };
    runs.map(run).collect::<Vec<String>>().join(", ")
}

/// A count with its noun.
pub fn count(number: u64, one: &str, many: &str) -> String {
    match number {
        1 => format!("1 {one}"),
        number => format!("{number} {many}"),
    }
}
