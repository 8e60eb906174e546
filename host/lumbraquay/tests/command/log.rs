//! `log`: entries forward and backward, and how the log ends.

use oracle::{EntryFields, Step};

use crate::json::Value;
use crate::sandbox::Sandbox;

/// The entries of a log as the second program reads them, and what stands behind the last.
fn entries(log: &[u8]) -> (Vec<EntryFields>, Step) {
    let mut entries = Vec::new();
    let mut place = 32;
    loop {
        match oracle::forward(log, place) {
            Step::Entry(entry) => {
                entries.push(entry);
                place += entry.length;
            }
            end => return (entries, end),
        }
    }
}

fn assert_same(told: &Value, entry: &EntryFields) {
    for (name, number) in [
        ("offset", entry.offset),
        ("length", entry.length),
        ("lsn", entry.lsn),
        ("transaction", entry.transaction),
        ("type", entry.kind),
        ("table", entry.table),
        ("key_bytes", entry.key_len),
        ("old_bytes", entry.old_len),
        ("new_bytes", entry.new_len),
    ] {
        assert_eq!(told.number(name), number, "{name} of {told:?}");
    }
}

/// Random logs, both ways, against the second program.
#[test]
fn entries_are_the_second_programs() {
    let sandbox = Sandbox::new();
    let (mut listed, mut ends) = (0, [0; 4]);
    for seed in 0..150 {
        let log = generate::case(seed).log;
        if log.len() > 300_000 || oracle::log_open(&log, false).number != 0 {
            continue;
        }
        sandbox.write("log", &log);
        let (expected, end) = entries(&log);
        let (status, kind) = match end {
            Step::End => (0, "exact end"),
            Step::Torn => (0, "torn tail"),
            Step::Unused => (0, "unused room"),
            _ => (3, "damage"),
        };
        ends[["exact end", "torn tail", "unused room", "damage"]
            .iter()
            .position(|it| *it == kind)
            .unwrap()] += 1;
        let forward = sandbox.say("log log --json").ends(status).json();
        let backward = sandbox.say("log log --json --backward").ends(status).json();
        for told in [&forward, &backward] {
            assert_eq!(told.text("end"), kind, "seed {seed}");
            assert_eq!(told.list("entries").len(), expected.len(), "seed {seed}");
        }
        for (told, entry) in forward.list("entries").iter().zip(&expected) {
            assert_same(told, entry);
        }
        for (told, entry) in backward.list("entries").iter().zip(expected.iter().rev()) {
            assert_same(told, entry);
        }
        listed += expected.len();
    }
    assert!(
        listed > 1_000 && ends.iter().all(|&times| times > 3),
        "{listed} {ends:?}"
    );
}

#[test]
fn as_text() {
    let sandbox = Sandbox::with_outage();
    let forward = sandbox.say("log outage.log").done().says(&[
        "outage.log: 1133 bytes\n    offset  length       LSN  transaction  type           table  change\n",
        "        32      43       101            7  Begin              0\n",
        "       118     194       103            8  UpdateInPlace     14  page 1 slot 1, 60 bytes before, 61 after\n",
        "       717     114       110           10  Delete            14  page 1 slot 2, 61 bytes before, 0 after\n",
        "14 entries; torn tail at 1072, 61 bytes\n",
    ]);
    let backward = sandbox.say("log outage.log --backward").done();
    let lines = |out: &str| -> Vec<String> { out.lines().map(str::to_string).collect() };
    let mut reversed = lines(&backward.out);
    reversed[2..16].reverse();
    assert_eq!(lines(&forward.out), reversed);
}

/// Zero bytes behind the entries: torn up to three, unused room from four on, damage where a later byte is not zero.
#[test]
fn room_set_aside() {
    let sandbox = Sandbox::with_outage();
    let entries = sandbox.read("outage.log")[..1_072].to_vec();
    for (zeros, end) in [
        (3, "torn tail at 1072, 3 bytes"),
        (4, "unused room at 1072, 4 bytes"),
        (4_096, "unused room at 1072, 4096 bytes"),
    ] {
        let mut log = entries.clone();
        log.resize(1_072 + zeros, 0);
        sandbox.write("log", &log);
        for words in ["log log", "log log --backward", "log log --stats"] {
            sandbox.say(words).done().says(&[end]);
        }
    }
    let told = sandbox.say("log log --json").done().json();
    assert_eq!(told.text("end"), "unused room");

    let mut log = sandbox.read("log");
    log[5_000] = 1;
    sandbox.write("log", &log);
    sandbox.say("log log").refuses(&[
        "refused: 4 ENTRY_DAMAGED at offset 1072",
        "its length reads 0, but the byte at offset 5000 is not",
    ]);
}

#[test]
fn places_and_limits() {
    let sandbox = Sandbox::with_outage();
    sandbox
        .say("log outage.log --from 1029")
        .done()
        .says(&["\n1 entry; torn tail at 1072, 61 bytes\n"]);
    sandbox
        .say("log outage.log --limit 2")
        .done()
        .says(&["\n2 entries; more entries at 118\n"]);
    sandbox
        .say("log outage.log --limit 0")
        .done()
        .says(&["\n0 entries; more entries at 32\n"]);
    sandbox
        .say("log outage.log --backward --from 118")
        .done()
        .says(&["\n2 entries; the first entry was reached at 32\n"]);
    sandbox
        .say("log outage.log --backward --from 118 --limit 1")
        .done()
        .says(&["\n1 entry; more entries at 75\n"]);
    sandbox
        .say("log outage.log --backward --limit 1")
        .done()
        .says(&["      1029 ", "\n1 entry; torn tail at 1072"]);
    for words in ["--from 119", "--from 119 --backward", "--from 311"] {
        sandbox
            .say(&format!("log outage.log {words}"))
            .fails(&["--from is inside the entry at offset 118, which ends at 312"]);
    }
    sandbox
        .say("log outage.log --backward --from 1080")
        .done()
        .says(&["\n0 entries; no entry ends at 1080\n"]);
    sandbox
        .say("log outage.log --from 31")
        .done()
        .says(&["\n0 entries; no place of an entry at 31\n"]);
    sandbox
        .say("log outage.log --from 99999")
        .done()
        .says(&["\n0 entries; no place of an entry at 99999\n"]);
    let whole = sandbox.read("outage.log");
    sandbox.write("exact", &whole[..1_072]);
    sandbox
        .say("log exact")
        .done()
        .says(&["\n14 entries; exact end at 1072\n"]);
    sandbox.write("alone", &whole[..32]);
    sandbox
        .say("log alone")
        .done()
        .says(&["\n0 entries; exact end at 32\n"]);
}

/// What stands before damage is listed, then the damage is refused.
#[test]
fn damage_comes_last() {
    let sandbox = Sandbox::with_outage();
    let mut log = sandbox.read("outage.log");
    log[720] ^= 0x40;
    sandbox.write("outage.log", &log);
    for words in ["log outage.log", "log outage.log --backward"] {
        let done = sandbox
            .say(words)
            .refuses(&["refused: 4 ENTRY_DAMAGED at offset 717 of outage.log"]);
        done.says(&["9 entries; damage at 717\n"]);
    }
    let done = sandbox.say("log outage.log --json").ends(3).json();
    assert_eq!(done.list("entries").len(), 9);
    assert_eq!((done.number("number"), done.number("place")), (4, 717));
    // A listing that ends before it does not meet it.
    sandbox
        .say("log outage.log --limit 9")
        .refuses(&["at offset 717"]);
    sandbox.say("log outage.log --limit 8").done();
}
