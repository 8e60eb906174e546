//! `judge`: yes, or no with what stands there and what should; refusals of either side; every difference.

use generate::{live_tuple, log_header, DataPage, Entry, Slots, BEGIN, COMMIT};

use crate::json::Value;
use crate::sandbox::Sandbox;

const MAGIC: u64 = u64::from_le_bytes(*b"CRANES01");

/// The names under which JSON has the pages before, the log and the pages after.
const FILES: [&str; 3] = ["pages_file", "log_file", "after_file"];

/// Two data pages; the first gets a row by the log, and a row of it is cancelled.
fn before() -> Vec<u8> {
    let page = |id, rows: &[&[u8]]| {
        let tuples = rows.iter().map(|row| live_tuple(3, row));
        let slots: Slots = (0..).zip(tuples).collect();
        DataPage::plain(MAGIC, id, 0, slots).packed()
    };
    [page(0, &[b"winch"]), page(1, &[b"hook", b"chain"])].concat()
}

fn log() -> Vec<u8> {
    let mut log = log_header(&[0; 26]);
    let entries = [
        Entry::bare(7, BEGIN),
        Entry::insert(7, 0, 1, &live_tuple(7, b"gearbox")),
        Entry::delete(7, 0, 0, &live_tuple(3, b"winch")),
        Entry::bare(7, COMMIT),
    ];
    for (lsn, entry) in (1..).zip(entries) {
        log.extend(entry.with_lsn(lsn).encode());
    }
    log
}

/// The pages before, the log, and as `after` what recovery leaves.
fn repaired() -> Sandbox {
    let sandbox = Sandbox::new();
    sandbox.write("before", &before());
    sandbox.write("log", &log());
    sandbox.say("recover before log --out after").done();
    sandbox
}

/// Page 0 as recovery leaves it, with other rows, flags and LSN.
fn other_page_0(change: impl FnOnce(&mut DataPage)) -> Vec<u8> {
    let mut cancelled = live_tuple(3, b"winch");
    cancelled[8] = 7;
    cancelled[16] = 1;
    let rows = [cancelled, live_tuple(7, b"gearbox")];
    let mut page = DataPage::plain(MAGIC, 0, 900, (0..).zip(rows).collect());
    page.flags = 3;
    page.count = 9;
    change(&mut page);
    page.packed()
}

fn with_page_0(sandbox: &Sandbox, page: &[u8]) {
    let mut after = sandbox.read("after");
    after[..page.len()].copy_from_slice(page);
    sandbox.write("after", &after);
}

const YES: &str = "yes: the pages hold what recovery would leave\n";

#[test]
fn our_own_pages_and_another_layout() {
    let sandbox = repaired();
    sandbox.say("judge before log after").done().says(&[
        "before: 2 pages, magic 0x313053454e415243 (read off page 0)\nlog: ",
        " bytes\nafter: 2 pages\n",
        YES,
    ]);
    with_page_0(&sandbox, &other_page_0(|_| ()));
    sandbox.say("judge before log after").done().says(&[YES]);
    sandbox
        .say("judge before log after --all")
        .done()
        .says(&[YES]);
    let told = sandbox.say("judge before log after --json").done().json();
    assert_eq!(told.text("judged"), "yes");
    assert_eq!(told.text("after_file"), "after");
    assert!(told.list("differences").is_empty());
}

#[test]
fn a_row_that_differs() {
    let sandbox = repaired();
    // The gearbox twice.
    let page = other_page_0(|page| {
        page.slots.insert(5, live_tuple(7, b"gearbox"));
    });
    with_page_0(&sandbox, &page);
    let twice = "page 0 slot 5: row\n  stands: live, xmin 7, xmax 0, pad 0, payload of 7 bytes \"gearbox\" 0x67656172626f78\n  should: no row\n";
    sandbox
        .say("judge before log after")
        .ends(1)
        .says(&[twice, "no: page 0 slot 5 is the lowest that differs\n"]);
    let told = sandbox.say("judge before log after --json").ends(1).json();
    assert_eq!((told.text("result"), told.text("judged")), ("done", "no"));
    let differences = told.list("differences");
    assert_eq!(differences.len(), 1);
    assert_eq!(
        (differences[0].number("page"), differences[0].number("slot")),
        (0, 5)
    );
    assert_eq!(differences[0].text("what"), "row");
    assert_eq!(differences[0].at("stands").text("text"), "gearbox");

    // A deleted row that still lives.
    let page = other_page_0(|page| {
        page.slots.insert(0, live_tuple(3, b"winch"));
    });
    with_page_0(&sandbox, &page);
    sandbox.say("judge before log after").ends(1).says(&[
        "page 0 slot 0: row\n  stands: live, xmin 3, xmax 0, pad 0, payload of 5 bytes \"winch\" 0x77696e6368\n",
        "  should: cancelled, deleted byte 1, xmin 3, xmax 7, pad 0, payload of 5 bytes \"winch\" 0x77696e6368\n",
    ]);
}

#[test]
fn headers_and_untouched_pages() {
    let sandbox = repaired();
    let page = other_page_0(|page| page.reserved[4] = 9);
    with_page_0(&sandbox, &page);
    let mut after = sandbox.read("after");
    after[16_384 + 9] ^= 1;
    sandbox.write("after", &after);
    let header = "page 0 slot 0: header, first other byte at offset 40 of the page\n  stands: 0x09\n  should: 0x00\n";
    let untouched = "page 1 slot 0: not touched by the log, first other byte at offset 9 of the page\n  stands: 0x01\n  should: 0x00\n";
    let first = sandbox.say("judge before log after").ends(1);
    assert!(!first.out.contains(untouched));
    first.says(&[header, "no: page 0 slot 0 is the lowest that differs\n"]);
    sandbox.say("judge before log after --all").ends(1).says(&[
        header,
        untouched,
        "no: 2 of 2 pages differ\n",
    ]);
    let told = sandbox
        .say("judge before log after --all --json")
        .ends(1)
        .json();
    let what: Vec<&str> = told
        .list("differences")
        .iter()
        .map(|difference| difference.text("what"))
        .collect();
    assert_eq!(what, ["header", "untouched page"]);
}

#[test]
fn refusals_name_their_side() {
    let sandbox = repaired();
    let after = sandbox.read("after");
    sandbox.write("short", &after[..16_384]);
    sandbox.say("judge before log short").refuses(&[
        "refused: 39 PAGE_AREAS_DIFFER\n",
        "  refused are both sides: they differ in length\n",
        "  found:      32768 bytes before, 16384 after\n",
    ]);
    let refused = |words: &str| sandbox.say(&format!("{words} --json")).ends(3).json();
    let files = |told: &Value| FILES.map(|name| told.text(name).to_string());
    let told = refused("judge before log short");
    assert_eq!(files(&told), ["before", "log", "short"]);
    assert_eq!(told.text("found"), "32768 bytes before, 16384 after");
    let mut torn = after.clone();
    torn[16_384 + 100] ^= 1;
    sandbox.write("torn", &torn);
    sandbox.say("judge before log torn").refuses(&[
        "refused: 18 PAGE_CHECKSUM at page 1 of torn, offset 16384\n",
        "  refused are the pages after\n",
        "if so, the repair left this page bad; `verify --all` lists every bad page\n",
    ]);
    sandbox.say("judge torn log after").refuses(&[
        "refused: 18 PAGE_CHECKSUM at page 1 of torn, offset 16384\n",
        "  refused are the pages before and the log\n",
    ]);
    let told = refused("judge torn log after");
    assert_eq!(told.text("result"), "refused");
    assert_eq!(told.text("refused_are"), "the pages before and the log");
    assert_eq!(files(&told), ["torn", "log", "after"]);
    let told = refused("judge before log torn");
    assert_eq!(told.text("refused_are"), "the pages after");
    assert_eq!(files(&told), ["before", "log", "torn"]);
    assert_eq!(told.text("magic"), "0x313053454e415243");
    assert_eq!(told.text("magic_from"), "read off page 0");
    // All are judged by the magic of the pages before.
    let mut other = after;
    other[0] ^= 1;
    sandbox.write("other", &other);
    let done = sandbox.say("judge before log other").refuses(&[
        "refused: 11 PAGE_MAGIC_OR_TYPE at page 0 of other, offset 0\n",
        "  refused are the pages after\n",
        "which should be 0x313053454e415243 (that of the pages before)",
        "see that AFTER is the same page file as BEFORE, after the repair, and was copied whole",
    ]);
    assert!(!done.err.contains("--magic"), "{done:#?}");
    // The three files in another order.
    sandbox
        .say("judge before after log")
        .refuses(&[": BEFORE comes first, then LOG, then AFTER\n"]);
    sandbox
        .say("judge log before after")
        .refuses(&["as logs do: give BEFORE first, then LOG, then AFTER\n"]);
    // A copy beside the pages after mends nothing that is judged.
    sandbox.write("torn.dw", b"");
    let done = sandbox.say("judge before log torn").ends(3);
    assert!(!done.err.contains("torn.dw"), "{done:#?}");
    assert!(sandbox.read("before") == before());
}

/// An error names the files that were given too.
#[test]
fn errors_name_the_files() {
    let sandbox = repaired();
    let told = sandbox
        .say("judge before log missing --json")
        .fails_as_json("cannot open missing: No such file");
    let files = FILES.map(|name| told.text(name));
    assert_eq!(files, ["before", "log", "missing"]);
    assert_eq!(told.text("magic"), "0x313053454e415243");
    let told = sandbox
        .say("judge missing log after --json")
        .fails_as_json("cannot open missing: No such file");
    let files = FILES.map(|name| told.text(name));
    assert_eq!(files, ["missing", "log", "after"]);
    assert!(told.is_null("magic"));
}
