//! JSON for every end, numbers that readers of JSON round, and letters that would steer a terminal.

use generate::{live_tuple, log_header, plain_page, DataPage, Entry, Slots, FREE};

use crate::sandbox::Sandbox;

const MAGIC: u64 = u64::from_le_bytes(*b"CRANES01");
const IN_PLACE: &str = "recover outage.pages outage.log --in-place --json";

#[test]
fn every_end_has_a_result() {
    let sandbox = Sandbox::with_outage();
    let result = |words: &str, status: i32, result: &str| {
        let done = sandbox.say(words).ends(status);
        assert_eq!(done.err, "", "{words}");
        let object = done.json();
        assert_eq!(object.text("result"), result, "{words}");
        assert_eq!(object.text("command"), words.split(' ').next().unwrap());
        object
    };
    result(
        "recover outage.pages outage.log --dry-run --json",
        0,
        "dry-run",
    );
    result("recover outage.pages outage.log --json", 0, "done");
    result(IN_PLACE, 0, "done");
    result(IN_PLACE, 0, "unchanged");
    for words in [
        "verify outage.pages",
        "rows outage.pages",
        "tables outage.pages",
        "table outage.pages 14",
        "repeats outage.pages",
        "repeats outage.pages --all",
        "freemap outage.pages",
        "log outage.log",
        "log outage.log --stats",
        "log outage.log --catalog outage.pages",
        "pages outage.pages",
        "row outage.pages outage.log 1 1",
        "transactions outage.pages outage.log",
        "judge outage.pages outage.log outage.pages.recovered",
        "report outage.pages outage.log",
        "replay 7",
        "replay 7 --count 3",
        "demo --dir new",
    ] {
        result(&format!("{words} --json"), 0, "done");
    }
    // A refusal and an error name the files and the magic.
    let both = ["pages_file", "log_file", "magic"];
    let refused = result(
        "recover outage.pages outage.log --magic 7 --dry-run --json",
        3,
        "refused",
    );
    assert_eq!(
        both.map(|name| refused.text(name)),
        ["outage.pages", "outage.log", "0x7"]
    );
    let exists = result("recover outage.pages outage.log --json", 2, "error");
    assert_eq!(
        both.map(|name| exists.text(name)),
        ["outage.pages", "outage.log", "0x313053454e415243"]
    );
    assert!(exists
        .text("message")
        .contains("it exists already; --force replaces it"));
    let missing = result("row missing outage.log 1 1 --json", 2, "error");
    assert_eq!(
        (missing.text("pages_file"), missing.is_null("magic")),
        ("missing", true)
    );
    let wrong = result("recover outage.pages --json", 2, "error");
    assert!(wrong.text("message").starts_with(
        "LOG is missing: the log file; - for standard input\nuse: lumbraquay recover"
    ));
    assert_eq!(wrong.text("pages_file"), "outage.pages");
    let unknown = sandbox
        .say("mend --json")
        .fails_as_json("'mend' is no command");
    assert!(unknown.is_null("command"));
    // Behind -- it is a file name.
    sandbox
        .say("verify -- --json")
        .fails(&["cannot open --json: No such file"]);
}

/// Numbers from 2^53 on have a twin that is a text.
#[test]
fn large_numbers_are_exact() {
    let sandbox = Sandbox::new();
    let row = live_tuple(u64::MAX - 1, b"row");
    let pages = [DataPage::plain(MAGIC, 0, 5, Slots::from([(0, row.clone())])).packed()];
    sandbox.write("pages", &pages.concat());
    let mut log = log_header(&[0; 26]);
    log.extend(
        Entry::bare(u64::MAX, generate::BEGIN)
            .with_lsn(1 << 53)
            .encode(),
    );
    log.extend(
        Entry::insert(u64::MAX, u64::MAX, 3, &row)
            .with_lsn((1 << 53) + 1)
            .encode(),
    );
    sandbox.write("log", &log);
    let told = sandbox.say("log log --json").done().json();
    let entries = told.list("entries");
    assert_eq!(entries[0].text("lsn_text"), "9007199254740992");
    assert_eq!(entries[1].text("lsn_text"), "9007199254740993");
    assert_eq!(entries[1].text("page_text"), "18446744073709551615");
    assert_eq!(entries[1].number("transaction"), u64::MAX);
    let rows = sandbox.say("rows pages --json").done();
    assert!(rows.out.contains("\"xmin\":18446744073709551614,\"xmin_text\":\"18446744073709551614\",\"xmax\":0,\"deleted\":false,\"payload\""));
}

/// A page with one row of this payload.
fn shown(payload: &[u8]) -> (String, String) {
    let sandbox = Sandbox::new();
    let row = live_tuple(3, payload);
    let page = DataPage::plain(MAGIC, 0, 5, Slots::from([(0, row)])).packed();
    sandbox.write("pages", &page);
    sandbox.write("log", &log_header(&[0; 26]));
    let rows = sandbox.say("rows pages").done().out;
    let line = rows.lines().nth(2).unwrap();
    let row = sandbox.say("row pages log 0 0 --floor 5").done().out;
    let row = row.lines().last().unwrap();
    let json = sandbox.say("rows pages --json").done().out;
    let steers = |letter: char| {
        letter != '\n' && letter.is_control() || "\u{202e}\u{2066}\u{200b}".contains(letter)
    };
    assert!(!json.contains(steers) && !rows.contains(steers), "{json}");
    let text = line
        .split_at(line.find("  0  ").unwrap_or(39) + 5)
        .1
        .to_string();
    (text, row.split_once("pages: ").unwrap().1.to_string())
}

#[test]
fn text_and_bytes_cannot_be_confused() {
    for (payload, expected) in [
        (b"order 1".as_slice(), "\"order 1\""),
        (b"0x6f", "\"0x6f\""),
        (b"", "\"\""),
        (b"say \"a\\b\"", "\"say \\\"a\\\\b\\\"\""),
        (b"\xff\x00o", "0xff006f"),
        (b"two\nlines", "0x74776f0a6c696e6573"),
        ("Gr\u{fc}\u{df}e".as_bytes(), "\"Gr\u{fc}\u{df}e\""),
        (
            "a\u{202e}b\u{2066}c\u{200b}".as_bytes(),
            "\"a\\u{202e}b\\u{2066}c\\u{200b}\"",
        ),
        ("\u{9b}31m".as_bytes(), "0xc29b33316d"),
    ] {
        let (rows, row) = shown(payload);
        assert!(rows.ends_with(expected), "{rows}");
        assert_eq!(row, expected);
    }
    // Cut off in `rows`, whole in `row`.
    let (rows, row) = shown(&[b'x'; 61]);
    assert!(
        rows.ends_with(&format!("\"{}\"...", "x".repeat(60))),
        "{rows}"
    );
    assert_eq!(row.len(), 63);
    let (rows, row) = shown(&[0; 31]);
    assert!(
        rows.ends_with(&format!("0x{}...", "0".repeat(60))),
        "{rows}"
    );
    assert_eq!(row.len(), 64);
}

/// Names of files and words of the command line come from others too.
#[test]
fn nothing_steers_a_terminal() {
    let sandbox = Sandbox::new();
    let name = "evil\u{1b}[2J\u{202e}gpj";
    sandbox.write(name, &plain_page(MAGIC, FREE, 0, 1));
    let shown = "evil\\u{1b}[2J\\u{202e}gpj";
    sandbox.run(&["verify", name]).done().says(&[shown]);
    sandbox
        .run(&["verify", name, "--magic", "7"])
        .refuses(&[shown]);
    sandbox.run(&["log", &format!("{name}x")]).fails(&[shown]);
    sandbox.run(&[name]).fails(&[shown]);
    sandbox
        .run(&["verify", name, &format!("--{name}")])
        .fails(&[shown]);
    let json = sandbox.run(&["verify", name, "--json"]).done();
    assert!(json.out.contains("evil\\u001b[2J\\u202egpj"), "{json:#?}");
    assert_eq!(json.json().text("pages_file"), name);
}
