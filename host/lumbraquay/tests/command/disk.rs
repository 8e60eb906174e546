//! Output that cannot be written, and runs that are broken off: no file is ever seen half-written.

use crate::sandbox::Sandbox;

/// Files that must stand as they did, whatever happened.
const OLD: [&str; 2] = ["outage.log", "outage.pages"];

/// The uses that write the pages anew.
const WRITING: [&str; 3] = [
    "recover outage.pages outage.log",
    "recover outage.pages outage.log --out new",
    "recover outage.pages outage.log --in-place",
];

/// A limit far below the size of the pages on what may be written to a file: past it a write fails, or without the trap
/// ends the process.
const TRAPPED: &str = "trap '' XFSZ;";
const LIMITED: &str = "ulimit -c 0; ulimit -f 20;";

#[test]
fn a_file_that_cannot_be_written_whole() {
    let sandbox = Sandbox::with_outage();
    let before = sandbox.contents();
    let limited = |words: &str| sandbox.shell(&format!("{TRAPPED} {LIMITED} \"$LQ\" {words}"));
    for words in WRITING {
        limited(words).fails(&["cannot write ", "File too large"]);
        limited(&format!("{words} --json")).fails_as_json("File too large");
        assert!(sandbox.contents() == before, "{words}");
    }
    limited("demo --dir new").fails(&["cannot write new/outage.pages: File too large"]);
    limited("replay 7 --dir .").fails(&["cannot write ./7.pages: File too large"]);
    assert_eq!(sandbox.names(), ["new", "outage.log", "outage.pages"]);
}

/// On a file system of our own that has no room left, where the machine lets us make one.
#[test]
fn a_full_disk() {
    let sandbox = Sandbox::with_outage();
    let before = sandbox.contents();
    let own = "mkdir -p disk && unshare -rm sh -c";
    let mount = "mount -t tmpfs -o size=100k none disk && cp outage.* disk && cd disk";
    let possible = sandbox.shell(&format!("{own} '{mount}'")).status == Some(0);
    for words in WRITING.iter().filter(|_| possible) {
        // The status, then all names and whether the files are still the same.
        let check = "ls -A; cmp outage.pages ../outage.pages && cmp outage.log ../outage.log";
        let done = sandbox.shell(&format!(
            "{own} '{mount}; \"$LQ\" {words}; echo $?; {check}'"
        ));
        assert_eq!(done.out, "2\noutage.log\noutage.pages\n", "{done:#?}");
        assert!(done.err.contains("No space left on device"), "{done:#?}");
        assert_eq!(done.status, Some(0), "{done:#?}");
    }
    sandbox.shell("rmdir disk").done();
    assert!(sandbox.contents() == before);
}

/// A run that is killed while it writes leaves a file under a name of its own, which the next run removes.
#[test]
fn a_run_that_is_killed() {
    for words in WRITING {
        let sandbox = Sandbox::with_outage();
        let old = OLD.map(|name| sandbox.read(name));
        for turn in 1..=2 {
            let killed = sandbox.shell(&format!("{LIMITED} exec \"$LQ\" {words}"));
            assert_eq!(killed.status, None, "{killed:#?}");
            assert_eq!(killed.err.contains("lumbraquay: removed "), turn == 2);
            let names = sandbox.names();
            let (own, seen): (Vec<String>, Vec<String>) =
                names.into_iter().partition(|name| name.starts_with('.'));
            assert_eq!(seen, OLD, "{words}");
            assert_eq!(own.len(), 1);
            assert!(own.iter().all(|name| name.ends_with(".tmp")));
        }
        assert!(OLD.map(|name| sandbox.read(name)) == old);
        let done = sandbox.say(words).ends(0);
        assert!(done
            .err
            .contains("which a run that was killed left behind\n"));
        assert!(sandbox.names().iter().all(|name| !name.starts_with('.')));
    }
}

/// Its process number may come again, as in a container that is started anew; and its files may be locked still.
#[test]
fn names_that_are_taken_are_passed_by() {
    let sandbox = Sandbox::with_outage();
    let line = "for n in 0 1; do echo old > .outage.pages.recovered.$$-$n.tmp; done; \
                exec 8< .outage.pages.recovered.$$-0.tmp 9< .outage.pages.recovered.$$-1.tmp; \
                flock 8; flock 9; exec \"$LQ\" recover outage.pages outage.log";
    sandbox.shell(line).done();
    let names = sandbox.names();
    assert_eq!(names.len(), 5, "{names:?}");
    assert!(names.contains(&"outage.pages.recovered".to_string()));
}

#[test]
fn standard_output_that_is_full_or_closed() {
    let sandbox = Sandbox::with_outage();
    let uses = [
        "--help",
        "verify outage.pages",
        "rows outage.pages",
        "row outage.pages outage.log 1 0",
        "transactions outage.pages outage.log",
        "tables outage.pages",
        "table outage.pages 14",
        "repeats outage.pages",
        "judge outage.pages outage.log outage.pages",
        "freemap outage.pages",
        "log outage.log",
        "log outage.log --json",
        "recover outage.pages outage.log --dry-run",
        "replay 5",
    ];
    for words in uses {
        sandbox
            .shell(&format!("\"$LQ\" {words} > /dev/full"))
            .fails(&["cannot write to standard output: No space left on device"]);
    }
    // Whoever reads no more wants no message either.
    let done = sandbox.shell("{ \"$LQ\" replay 5 --all; echo $? > status; } | true");
    assert_eq!(done.err, "");
    let status = sandbox.read("status");
    assert!(status == b"2\n" || status == b"0\n", "{status:?}");
}

/// The uses that leave files, and what of them stands on standard error if the report finds no room.
const LEAVING: [(&str, &[&str]); 5] = [
    (
        "recover outage.pages outage.log --out new",
        &["new is written"],
    ),
    (
        "recover outage.pages outage.log --out new --json",
        &["new is written"],
    ),
    (
        "recover outage.pages outage.log --in-place",
        &[
            "outage.pages is replaced by the new pages; ",
            "outage.pages.bak has the 65536 bytes that were read from it",
        ],
    ),
    ("demo --dir new", &["new/outage.pages.recovered is written"]),
    ("replay 7 --dir .", &["./7.log is written"]),
];

#[test]
fn done_but_the_report_finds_no_room() {
    let endings = [
        ("> /dev/full", "No space left on device"),
        ("| true", "Broken pipe"),
    ];
    for (words, texts) in LEAVING {
        for (ending, error) in endings {
            let sandbox = Sandbox::with_outage();
            let line = format!("{{ sleep 0.05; \"$LQ\" {words}; echo $? > status; }} {ending}");
            let done = sandbox.shell(&line);
            assert_eq!(sandbox.read("status"), b"4\n", "{words} {done:#?}");
            let head = format!("lumbraquay: cannot write to standard output: {error}");
            assert!(done.err.starts_with(&head), "{done:#?}");
            for text in texts {
                assert!(done.err.contains(text), "no '{text}' in {done:#?}");
            }
        }
    }
    // Nothing was done, so that is all that is to be told.
    let sandbox = Sandbox::with_outage();
    for words in ["--dry-run", "--in-place"] {
        let line = format!("\"$LQ\" recover outage.pages outage.log {words} > /dev/full");
        sandbox
            .say("recover outage.pages outage.log --in-place")
            .done();
        sandbox
            .shell(&line)
            .fails(&["cannot write to standard output: No space left on device"]);
    }
}

/// A small stack for the process, and little memory: done, or a clear error.
#[test]
fn little_stack_and_little_memory() {
    let sandbox = Sandbox::with_outage();
    for kib in [100, 300, 1_000] {
        let line =
            format!("ulimit -s {kib}; \"$LQ\" recover outage.pages outage.log --out new --force");
        sandbox.shell(&line).done();
    }
    // A large page file, of free pages beside the outage's.
    let mut pages = sandbox.read("outage.pages");
    for id in 4..1_024 {
        pages.extend(generate::plain_page(
            u64::from_le_bytes(*b"CRANES01"),
            generate::FREE,
            id,
            12,
        ));
    }
    sandbox.write("outage.pages", &pages);
    let before = sandbox.contents();
    let (mut done, mut failed) = (0, 0);
    for mib in (6..=90).step_by(5) {
        for words in ["--dry-run", "--dry-run --json", "--in-place"] {
            let limit = format!("ulimit -v {}", mib * 1_024);
            if sandbox.shell(&format!("{limit}; \"$LQ\" --version")).status != Some(0) {
                continue;
            }
            let line = format!("{limit}; \"$LQ\" recover outage.pages outage.log {words}");
            let ended = sandbox.shell(&line);
            match ended.status {
                Some(0) => done += 1,
                Some(2) => {
                    failed += 1;
                    let told = match words.contains("--json") && !ended.out.is_empty() {
                        true => ended.json().text("message").to_string(),
                        false => ended.err.clone(),
                    };
                    assert!(
                        told.contains("out of memory") || told.contains("no room for a stack"),
                        "{mib} {ended:#?}"
                    );
                    assert!(sandbox.contents() == before);
                }
                _ => panic!("{mib} {ended:#?}"),
            }
            if done > 0 && words == "--in-place" {
                assert!(failed > 3);
                return;
            }
        }
    }
    panic!("never enough memory");
}
