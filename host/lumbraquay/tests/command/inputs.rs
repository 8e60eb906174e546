//! Files that cannot be used: a clear error and nothing changed.

use std::fs::{self, File};
use std::os::unix::fs::PermissionsExt;

use crate::sandbox::Sandbox;

/// Every use of a page file, which is called P, and of a log file, called L.
const OF_PAGES: [&str; 15] = [
    "verify P",
    "rows P",
    "tables P",
    "table P 14",
    "log outage.log --catalog P",
    "order P 00000000000000000000000000000000",
    "repeats P",
    "freemap P",
    "row P outage.log 1 0",
    "transactions P outage.log",
    "judge P outage.log outage.pages",
    "recover P outage.log",
    "recover P outage.log --out new",
    "recover P outage.log --dry-run",
    "recover P outage.log --in-place",
];
/// The use of one whose length is first compared with that of another.
const OF_PAGES_AFTER: &str = "judge outage.pages outage.log P";
const OF_LOG: [&str; 7] = [
    "log L",
    "log L --backward",
    "row outage.pages L 1 0",
    "transactions outage.pages L",
    "judge outage.pages L outage.pages",
    "recover outage.pages L",
    "recover outage.pages L --in-place",
];

/// Every use of a file in the place of the pages and of the log, with and without --json, fails with this text.
#[track_caller]
fn all_fail(sandbox: &Sandbox, name: &str, text: &str) {
    let before = sandbox.contents();
    for words in OF_PAGES.iter().chain(&[OF_PAGES_AFTER]).chain(&OF_LOG) {
        let words = words.replace(['P', 'L'], name);
        sandbox.say(&words).fails(&[text]);
        let told = sandbox.say(&format!("{words} --json")).fails_as_json(text);
        assert_eq!(told.text("command"), words.split(' ').next().unwrap());
    }
    assert!(sandbox.contents() == before);
}

/// Every one of these uses of a file is refused with this text.
#[track_caller]
fn all_refuse(sandbox: &Sandbox, uses: &[&str], name: &str, texts: &[&str]) {
    let before = sandbox.names();
    for words in uses {
        sandbox.say(&words.replace(['P', 'L'], name)).refuses(texts);
    }
    assert_eq!(sandbox.names(), before);
}

#[test]
fn missing_files() {
    let sandbox = Sandbox::with_outage();
    all_fail(
        &sandbox,
        "missing",
        "cannot open missing: No such file or directory",
    );
    all_fail(
        &sandbox,
        "outage.log/x",
        "cannot open outage.log/x: Not a directory",
    );
}

#[test]
fn directories() {
    let sandbox = Sandbox::with_outage();
    fs::create_dir(sandbox.path.join("folder")).unwrap();
    all_fail(&sandbox, "folder", "cannot read folder: it is a directory");
}

#[test]
fn unreadable_files() {
    let sandbox = Sandbox::with_outage();
    // It can be opened, but its first byte cannot be read.
    for words in [
        "verify P",
        "recover P outage.log --dry-run",
        "recover P outage.log --out new",
    ] {
        let words = words.replace('P', "/proc/self/mem");
        sandbox
            .say(&words)
            .fails(&["cannot read /proc/self/mem: Input/output error"]);
    }
    sandbox
        .say("log /proc/self/mem")
        .fails(&["cannot read /proc/self/mem: Input/output error"]);
    assert_eq!(sandbox.names(), ["outage.log", "outage.pages"]);

    sandbox.write("locked", b"");
    let locked = sandbox.path.join("locked");
    fs::set_permissions(&locked, PermissionsExt::from_mode(0o000)).unwrap();
    // Whoever may read everything can read it too.
    if File::open(&locked).is_err() {
        all_fail(&sandbox, "locked", "cannot open locked: Permission denied");
    }
}

#[test]
fn empty_files() {
    let sandbox = Sandbox::with_outage();
    sandbox.write("empty", b"");
    for words in OF_PAGES.iter().chain(&[OF_PAGES_AFTER]) {
        let words = words.replace('P', "empty");
        sandbox
            .say(&words)
            .fails(&["cannot use empty: it is empty and holds no page"]);
    }
    let texts = [
        "refused: 3 LOG_HEADER of empty\n",
        "found:      0 bytes",
        "see that this file is the log",
    ];
    all_refuse(&sandbox, &OF_LOG, "empty", &texts);
    assert_eq!(sandbox.names(), ["empty", "outage.log", "outage.pages"]);
}

/// A file of zeros of any length takes no room.
fn zeros(sandbox: &Sandbox, name: &str, length: u64) {
    let file = File::create(sandbox.path.join(name)).unwrap();
    file.set_len(length).unwrap();
}

#[test]
fn files_over_the_limits() {
    let sandbox = Sandbox::with_outage();
    zeros(&sandbox, "pages", 4_097 * 16_384);
    let texts = [
        "refused: 1 PAGE_AREA of pages\n",
        "67125248 bytes, which are 4097 pages and 0 bytes",
        "more than 4096 pages are beyond",
    ];
    all_refuse(&sandbox, &OF_PAGES, "pages", &texts);
    zeros(&sandbox, "more", 4_096 * 16_384 + 1);
    let texts = [
        "refused: 1 PAGE_AREA of more\n",
        "67108865 bytes, which are 4096 pages and 1 bytes",
    ];
    all_refuse(&sandbox, &OF_PAGES[..1], "more", &texts);
    // Just at the limit it is read, and refused by what stands in it.
    zeros(&sandbox, "most", 4_096 * 16_384);
    all_refuse(
        &sandbox,
        &OF_PAGES[..1],
        "most",
        &["refused: 18 PAGE_CHECKSUM at page 0 of most"],
    );

    zeros(&sandbox, "log", 16_777_217);
    let texts = [
        "refused: 2 LOG_TOO_LONG of log\n",
        "found:      16777217 bytes",
        "logs of more than 16 MiB are beyond",
    ];
    all_refuse(&sandbox, &OF_LOG, "log", &texts);
    zeros(&sandbox, "longest", 16_777_216);
    all_refuse(
        &sandbox,
        &OF_LOG[..1],
        "longest",
        &["refused: 3 LOG_HEADER of longest\n"],
    );

    // Of a file that no memory could hold, no more is read than tells that it is too long.
    zeros(&sandbox, "huge", 1 << 40);
    all_refuse(
        &sandbox,
        &OF_PAGES,
        "huge",
        &["refused: 1 PAGE_AREA of huge\n", "1099511627776 bytes"],
    );
    all_refuse(
        &sandbox,
        &[OF_PAGES_AFTER],
        "huge",
        &["refused: 39 PAGE_AREAS_DIFFER\n", "1099511627776 after"],
    );
    all_refuse(
        &sandbox,
        &OF_LOG,
        "huge",
        &["refused: 2 LOG_TOO_LONG of huge\n", "1099511627776 bytes"],
    );
}

#[test]
fn files_given_for_one_another() {
    let sandbox = Sandbox::with_outage();
    all_refuse(
        &sandbox,
        &OF_PAGES,
        "outage.log",
        &[
            "refused: 1 PAGE_AREA of outage.log\n",
            "1133 bytes, which are 0 pages and 1133 bytes",
        ],
    );
    all_refuse(
        &sandbox,
        &OF_LOG,
        "outage.pages",
        &[
            "refused: 3 LOG_HEADER of outage.pages\n",
            "which start with '4352414e4553'",
        ],
    );
}
