//! Double-write files by the command: `doublewrite`, `repair` and `recover --dw`; every refusal of such a file; and the
//! advice that names one.

use generate::{doublewrite_file, file_kinds, torn, Rng};
use library::refusal::refusal;
use library::PAGE_BYTES;

use crate::sandbox::Sandbox;

/// Where a page starts.
fn at(page: usize) -> usize {
    page * PAGE_BYTES
}

/// The outage, a double-write file of all its pages, and the same pages with page 1 torn.
fn with_torn_page() -> Sandbox {
    let sandbox = Sandbox::with_outage();
    sandbox.say("doublewrite outage.pages").done();
    let mut pages = sandbox.read("outage.pages");
    sandbox.write("whole.pages", &pages);
    pages[at(1) + 9_000..at(2)].fill(0x77);
    sandbox.write("outage.pages", &pages);
    sandbox
}

#[test]
fn a_file_is_written_and_restores_a_torn_page() {
    let sandbox = with_torn_page();
    assert_eq!(sandbox.read("outage.pages.dw").len(), 24 + 4 * 16_392);
    sandbox
        .say("repair outage.pages outage.pages.dw")
        .done()
        .says(&[
            "outage.pages: 4 pages, magic 0x313053454e415243 (read off page 0)\n",
            "outage.pages.dw: 4 slots, pages 0-3\n",
            "  restored:     1 page: 1\n",
            "repaired: written to outage.pages.repaired\n",
        ]);
    assert!(sandbox.read("outage.pages.repaired") == sandbox.read("whole.pages"));
    sandbox.say("verify outage.pages.repaired").done();
    // Again, of pages that are whole.
    sandbox
        .say("repair outage.pages.repaired outage.pages.dw --out again")
        .done()
        .says(&["  restored:     0 pages\n", "repaired: written to again\n"]);
    assert!(sandbox.read("again") == sandbox.read("whole.pages"));
}

#[test]
fn a_repair_in_place_keeps_the_torn_bytes() {
    let sandbox = with_torn_page();
    let torn = sandbox.read("outage.pages");
    let repair = "repair outage.pages outage.pages.dw";
    let dry = sandbox.say(&format!("{repair} --dry-run")).done();
    dry.says(&["dry run: repair would succeed, nothing was written"]);
    assert!(sandbox.read("outage.pages") == torn);
    sandbox.say(&format!("{repair} --in-place")).done().says(&[
        "repaired: outage.pages replaced; ",
        "outage.pages.bak has the 65536 bytes that were read from it",
    ]);
    assert!(sandbox.read("outage.pages") == sandbox.read("whole.pages"));
    assert!(sandbox.read("outage.pages.bak") == torn);
    sandbox
        .say(&format!("{repair} --in-place"))
        .done()
        .says(&["repaired: outage.pages holds these very bytes and was left alone"]);
    sandbox
        .say(&format!("{repair} --in-place --force"))
        .fails(&["--in-place goes with neither --out nor --force"]);
}

#[test]
fn a_repair_goes_to_standard_output_too() {
    let sandbox = with_torn_page();
    let line = "\"$LQ\" repair - outage.pages.dw --out - < outage.pages > piped";
    let done = sandbox.shell(line).ends(0);
    assert!(done.err.contains("repaired: written to standard output"));
    assert!(sandbox.read("piped") == sandbox.read("whole.pages"));
    sandbox
        .shell("\"$LQ\" repair - - < outage.pages")
        .fails(&["only one file can be standard input"]);
    sandbox
        .shell("\"$LQ\" recover - outage.log --dw - --out x < outage.pages")
        .fails(&["only one file can be standard input"]);
}

/// Repair and recovery in one go end in the bytes of both, and write once.
#[test]
fn recover_takes_a_double_write_file() {
    let sandbox = with_torn_page();
    sandbox
        .say("recover whole.pages outage.log --out expected")
        .done();
    sandbox
        .say("recover outage.pages outage.log --dw outage.pages.dw")
        .done()
        .says(&[
            "outage.pages.dw: 4 slots, pages 0-3\n  restored:     1 page: 1\n",
            "  pages:        2 of 4 rewritten\n",
            "recovered: written to outage.pages.recovered\n",
        ]);
    assert!(sandbox.read("outage.pages.recovered") == sandbox.read("expected"));
    let torn = sandbox.read("outage.pages");
    sandbox
        .say("recover outage.pages outage.log --dw outage.pages.dw --in-place")
        .done();
    assert!(sandbox.read("outage.pages") == sandbox.read("expected"));
    assert!(sandbox.read("outage.pages.bak") == torn);
    // Recovered pages are not torn, so nothing is taken over them.
    sandbox
        .say("recover outage.pages outage.log --dw outage.pages.dw --in-place")
        .done()
        .says(&["  restored:     0 pages\n", "was left alone"]);
    let names = sandbox.names();
    assert!(!names.contains(&"outage.pages.repaired".to_string()));
}

#[test]
fn a_torn_page_names_the_file_beside_it() {
    let sandbox = with_torn_page();
    let advice = "outage.pages.dw lies beside the pages: `recover` with --dw outage.pages.dw";
    for words in ["recover outage.pages outage.log", "verify outage.pages"] {
        sandbox
            .say(words)
            .refuses(&["refused: 18 PAGE_CHECKSUM at page 1", advice]);
    }
    let object = sandbox
        .say("recover outage.pages outage.log --json")
        .ends(3);
    assert!(object.json().text("advice").contains(advice));
    // Without the file nothing is said of it; with one that has no good copy, that is.
    sandbox
        .say("doublewrite outage.pages --pages 0,2 --out other.dw")
        .done();
    std::fs::remove_file(sandbox.path.join("outage.pages.dw")).unwrap();
    let done = sandbox.say("recover outage.pages outage.log").ends(3);
    assert!(!done.err.contains("lies beside"));
    sandbox
        .say("recover outage.pages outage.log --dw other.dw")
        .refuses(&[
            "refused: 18 PAGE_CHECKSUM",
            "other.dw has no good copy of it under magic 0x313053454e415243",
        ]);
}

/// A page that is refused for its magic or its id is torn where its checksum is wrong too.
#[test]
fn a_page_torn_in_its_header_names_the_file_beside_it() {
    let sandbox = with_torn_page();
    let whole = sandbox.read("whole.pages");
    let advice = "outage.pages.dw lies beside the pages: `recover` with --dw outage.pages.dw";
    sandbox
        .say("doublewrite whole.pages --pages 0,1 --out first.dw")
        .done();
    for (from, to, refused) in [
        (0, 8, "refused: 11 PAGE_MAGIC_OR_TYPE at page 2"),
        (16, 24, "refused: 17 PAGE_ID at page 2"),
    ] {
        let mut pages = whole.clone();
        pages[at(2) + from..at(2) + to].fill(0);
        sandbox.write("outage.pages", &pages);
        let done = sandbox.say("verify outage.pages").refuses(&[refused]);
        assert!(!done.err.contains(advice));
        pages[at(3) - 1] ^= 1;
        sandbox.write("outage.pages", &pages);
        for words in ["recover outage.pages outage.log", "verify outage.pages"] {
            sandbox.say(words).refuses(&[refused, advice]);
        }
        sandbox
            .say("recover outage.pages outage.log --dw outage.pages.dw --dry-run")
            .done()
            .says(&["  restored:     1 page: 2\n"]);
        sandbox
            .say("recover outage.pages outage.log --dw first.dw")
            .refuses(&[refused, "first.dw has no good copy of it under magic"]);
    }
}

/// The outage with the first 4 KiB of page 0 zero, its magic with them, and a double-write file of all its pages.
fn with_torn_magic() -> Sandbox {
    let sandbox = with_torn_page();
    let mut pages = sandbox.read("whole.pages");
    pages[..4_096].fill(0);
    sandbox.write("outage.pages", &pages);
    sandbox
}

#[test]
fn the_magic_of_a_torn_page_0_is_read_off_its_copy() {
    let sandbox = with_torn_magic();
    let line = "outage.pages: 4 pages, magic 0x313053454e415243 (read off the copy of page 0 in the double-write file)\n";
    sandbox
        .say("repair outage.pages outage.pages.dw")
        .done()
        .says(&[line, "  restored:     1 page: 0\n"]);
    assert!(sandbox.read("outage.pages.repaired") == sandbox.read("whole.pages"));
    sandbox
        .say("recover whole.pages outage.log --out expected")
        .done();
    sandbox
        .say("recover outage.pages outage.log --dw outage.pages.dw")
        .done()
        .says(&[line, "  restored:     1 page: 0\n"]);
    assert!(sandbox.read("outage.pages.recovered") == sandbox.read("expected"));
    let object = sandbox
        .say("repair outage.pages outage.pages.dw --dry-run --json")
        .done()
        .json();
    assert_eq!(object.text("magic"), "0x313053454e415243");
    assert!(object.text("magic_from").contains("the copy of page 0"));
    // What is given goes before it.
    sandbox
        .say("repair outage.pages outage.pages.dw --dry-run --magic 5")
        .done()
        .says(&[
            "magic 0x5 (as given)\n",
            "  still torn:   page 0: its copy is not good, by 11 PAGE_MAGIC_OR_TYPE\n",
        ]);
}

/// Without a copy of page 0 whose checksum is right, or with a whole page that has the magic of page 0, it is that of page 0.
#[test]
fn the_magic_of_a_torn_page_0_without_such_a_copy() {
    let sandbox = with_torn_magic();
    sandbox.say("doublewrite outage.pages --out torn.dw").done();
    sandbox
        .say("doublewrite whole.pages --pages 1-3 --out others.dw")
        .done();
    for (file, why) in [
        ("torn.dw", "its copy is not good, by 18 PAGE_CHECKSUM"),
        ("others.dw", "the file has no copy of it"),
    ] {
        sandbox
            .say(&format!("repair outage.pages {file} --dry-run"))
            .done()
            .says(&[
                "magic 0x0 (read off page 0)\n",
                &format!("  still torn:   page 0: {why}\n"),
            ]);
        sandbox
            .say(&format!("recover outage.pages outage.log --dw {file}"))
            .refuses(&[
                "refused: 18 PAGE_CHECKSUM at page 0",
                &format!("{file} has no good copy of it under magic 0x0"),
                "try `verify --magic 0x313053454e415243`",
            ]);
    }
    // A copy of other pages.
    let whole = sandbox.read("whole.pages");
    let mut pages = whole.clone();
    pages[..8].fill(7);
    sandbox.write("other.pages", &pages);
    sandbox.say("doublewrite other.pages --out other.dw").done();
    pages = whole;
    pages[at(1) - 1] ^= 1;
    sandbox.write("outage.pages", &pages);
    sandbox
        .say("repair outage.pages other.dw --dry-run")
        .done()
        .says(&[
            "magic 0x313053454e415243 (read off page 0)\n",
            "  still torn:   page 0: its copy is not good, by 11 PAGE_MAGIC_OR_TYPE\n",
        ]);
}

/// No more of a file is read than its header tells.
#[test]
fn endless_files_are_refused() {
    let sandbox = with_torn_page();
    sandbox
        .say("repair outage.pages /dev/zero")
        .refuses(&["refused: 22 DOUBLEWRITE_HEADER\n", "it starts with '00"]);
    for (start, found) in [
        (
            "cat outage.pages.dw",
            "65593 bytes, which should be 65592 for a slot count of 4",
        ),
        (
            r"printf 'AXMDBLWR\2\0\0\0\377\377\377\377'",
            "version 2, which should be 1",
        ),
    ] {
        sandbox
            .shell(&format!(
                "({start}; cat /dev/zero) | \"$LQ\" repair outage.pages -"
            ))
            .refuses(&["refused: 22 DOUBLEWRITE_HEADER\n", found]);
    }
    let file = std::fs::OpenOptions::new()
        .write(true)
        .open(sandbox.path.join("outage.pages.dw"))
        .unwrap();
    file.set_len(1 << 38).unwrap();
    sandbox
        .say("recover outage.pages outage.log --dw outage.pages.dw")
        .refuses(&[
            "refused: 22 DOUBLEWRITE_HEADER\n",
            "274877906944 bytes, which should be 65592 for a slot count of 4",
        ]);
}

/// What is still torn is told with its reason.
#[test]
fn pages_that_stay_torn_are_told() {
    let sandbox = with_torn_page();
    sandbox
        .say("doublewrite outage.pages --out torn.dw")
        .done()
        .says(&["  not good:     page 1, by 18 PAGE_CHECKSUM: its copy restores nothing\n"]);
    sandbox
        .say("doublewrite outage.pages --pages 0 --out first.dw")
        .done()
        .says(&["  copied:       1 page: 0\n"]);
    sandbox
        .say("repair outage.pages torn.dw --dry-run")
        .done()
        .says(&["  still torn:   page 1: its copy is not good, by 18 PAGE_CHECKSUM\n"]);
    sandbox
        .say("repair outage.pages first.dw --dry-run")
        .done()
        .says(&["  still torn:   page 1: the file has no copy of it\n"]);
    let object = sandbox
        .say("repair outage.pages torn.dw --dry-run --json")
        .done()
        .json();
    assert_eq!(object.text("result"), "dry-run");
    assert_eq!(object.number("pages_restored"), 0);
    assert_eq!(object.number("doublewrite_slots"), 4);
    let left = object.list("torn_pages");
    assert_eq!((left.len(), left[0].number("page")), (1, 1));
    assert_eq!(left[0].number("copy_refused_by"), 18);
}

#[test]
fn lists_of_pages() {
    let sandbox = Sandbox::with_outage();
    let write = |words: &str| sandbox.say(&format!("doublewrite outage.pages {words}"));
    write("--pages 0,1,3 --out a")
        .done()
        .says(&["3 pages: 0-1, 3\n"]);
    write("--pages 0-1,3 --out b").done();
    write("--pages 0x0-0x1,0x3 --out c").done();
    assert!(sandbox.read("a") == sandbox.read("b") && sandbox.read("b") == sandbox.read("c"));
    let object = write("--pages 0,1,3 --out d --json").done().json();
    assert_eq!(object.number("doublewrite_bytes"), 24 + 3 * 16_392);
    assert_eq!(object.list("copied_pages").len(), 3);
    assert_eq!(object.text("written_to"), "d");

    let before = sandbox.contents();
    for (list, found) in [
        ("1,0", "page 0 comes behind page 1"),
        ("2,2", "page 2 comes behind page 2"),
        ("0-2,2-3", "page 2 comes behind page 2"),
        ("4", "page 4; there are pages 0 to 3"),
        ("0-18446744073709551615", "page 4; there are pages 0 to 3"),
    ] {
        write(&format!("--pages {list}")).refuses(&[
            "refused: 25 DOUBLEWRITE_PAGES\n",
            found,
            "name pages that are there, each once, the lower ones first",
        ]);
    }
    for (list, text) in [
        ("3-1", "--pages has '3-1', which goes backward"),
        ("1,,2", "--pages has '', not a number"),
        ("0,one", "--pages has 'one', not a number"),
        ("0,1-", "--pages has '1-', not a number"),
        ("-1", "--pages has '-1', not a number"),
        ("1-2-3", "--pages has '1-2-3', not a number"),
    ] {
        write(&format!("--pages {list}")).fails(&[text]);
    }
    write("--out a").fails(&["cannot write a: it exists already; --force replaces it"]);
    write("--out outage.pages --force").fails(&["it is one of the files that are read"]);
    assert!(sandbox.contents() == before);
    write("--out a --force").done().says(&["4 pages: 0-3\n"]);
    // A file of no page.
    sandbox
        .run(&[
            "doublewrite",
            "outage.pages",
            "--pages",
            "",
            "--out",
            "none",
        ])
        .done();
    assert_eq!(sandbox.read("none").len(), 24);
    sandbox
        .say("repair outage.pages none --dry-run")
        .done()
        .says(&["none: 0 slots\n"]);
}

/// Each way to spoil a file is refused with its number and what is found, and every file is as it was.
#[test]
fn spoiled_files_are_refused() {
    let sandbox = Sandbox::with_outage();
    let pages = sandbox.read("outage.pages");
    let lent = (pages.len() / PAGE_BYTES) as u64;
    let mut rng = Rng::new(24);
    for kind in file_kinds() {
        let file = loop {
            let torn = torn(&mut rng, &pages, None, true);
            let file = doublewrite_file(&mut rng, lent, &torn.copies);
            if file.kind == kind {
                break file;
            }
        };
        sandbox.write("file.dw", &file.bytes);
        let before = sandbox.contents();
        for words in [
            "repair outage.pages file.dw",
            "recover outage.pages outage.log --dw file.dw",
        ] {
            if file.number == 0 {
                sandbox.say(&format!("{words} --dry-run")).done();
                continue;
            }
            let name = refusal(file.number).unwrap().name;
            sandbox.say(words).refuses(
                &[
                    &format!("refused: {} {name}\n", file.number),
                    "\n  found:      ",
                    "which",
                    "\nNo file was changed.\n",
                ][..if file.number == 25 { 2 } else { 4 }],
            );
            let done = sandbox.say(&format!("{words} --in-place --json")).ends(3);
            let object = done.json();
            assert_eq!(object.number("number"), file.number, "{kind}");
            assert_eq!(object.text("doublewrite_file"), "file.dw");
            assert!(!object.text("found").is_empty() && !object.text("advice").is_empty());
        }
        assert!(sandbox.contents() == before, "{kind}");
    }
}
