//! Help, and words on the command line that are wrong.

use crate::sandbox::Sandbox;

pub const COMMANDS: [&str; 21] = [
    "demo",
    "recover",
    "transactions",
    "repair",
    "verify",
    "log",
    "pages",
    "rows",
    "row",
    "tables",
    "table",
    "order",
    "repeats",
    "judge",
    "freemap",
    "doublewrite",
    "summary write",
    "summary show",
    "summary diff",
    "report",
    "replay",
];

#[test]
fn help_lists_every_command() {
    let sandbox = Sandbox::new();
    let help = sandbox.say("--help").done();
    for command in COMMANDS {
        let first = command.split(' ').next().unwrap();
        let named = help.out.matches(&format!("\n  {first} ")).count();
        assert_eq!(named, 1, "{command}");
    }
    assert_eq!(sandbox.say("-h").done().out, help.out);
    assert_eq!(sandbox.say("help").done().out, help.out);
    assert!(help.out.contains("Exit status"));
    sandbox.say("--version").done().says(&["lumbraquay 0."]);
}

#[test]
fn every_command_has_help_and_json() {
    let sandbox = Sandbox::new();
    for command in COMMANDS {
        let use_line = format!("Use: lumbraquay {command}");
        let help = sandbox.say(&format!("{command} --help")).done();
        let help = help.says(&[&use_line, "--json", "hexadecimal"]);
        // Also where other words are wrong or missing, and in the other form.
        for words in [format!("{command} x --help"), format!("help {command}")] {
            assert_eq!(sandbox.say(&words).done().out, help.out);
        }
    }
    for option in [
        "--out",
        "--in-place",
        "--dry-run",
        "--dw",
        "--force",
        "--magic",
        "--floor",
        "--records",
    ] {
        sandbox.say("recover --help").done().says(&[option]);
    }
    sandbox.say("log --help").done().says(&["--backward"]);
}

#[test]
fn wrong_words_are_told() {
    let sandbox = Sandbox::with_outage();
    let both = "outage.pages outage.log";
    let wrong = [
        ("", "no command is given"),
        ("mend", "'mend' is no command"),
        ("help mend", "'mend' is no command"),
        ("help verify mend", "'mend' is one word too many"),
        ("verify", "PAGES is missing: the page file"),
        ("recover outage.pages", "LOG is missing: the log file"),
        (
            "verify outage.pages more",
            "'more' is one argument too many",
        ),
        ("verify outage.pages --floor 3", "unknown option --floor"),
        ("verify outage.pages -x", "unknown option -x"),
        ("verify outage.pages --magic", "--magic needs a value, N"),
        (
            "verify outage.pages --magic x",
            "--magic is 'x', not a number up to 18446744073709551615",
        ),
        (
            "verify outage.pages --magic=0x",
            "--magic is '0x', not a number",
        ),
        (
            "verify outage.pages --magic=-1",
            "--magic is '-1', not a number",
        ),
        (
            "verify outage.pages --magic=+1",
            "--magic is '+1', not a number",
        ),
        (
            "verify outage.pages --magic=0x+1",
            "--magic is '0x+1', not a number",
        ),
        (
            "verify outage.pages --magic 18446744073709551616",
            "not a number up to",
        ),
        (
            "verify outage.pages --magic 7 --magic 7",
            "--magic is given twice",
        ),
        ("verify outage.pages --json=yes", "--json takes no value"),
        (
            "log outage.log --limit many",
            "--limit is 'many', not a number",
        ),
        ("row outage.pages outage.log 1", "SLOT is missing"),
        (
            "row outage.pages outage.log one 1",
            "PAGE is 'one', not a number",
        ),
        (
            "row outage.pages outage.log 1 65536",
            "SLOT is '65536', not a number up to 65535",
        ),
        ("replay", "SEED is missing"),
        (
            "repair outage.pages",
            "FILE.dw is missing: the double-write file",
        ),
        (
            "replay 1 --count 2 --all",
            "--count goes with none of --all, --dir and --force",
        ),
    ];
    for (words, text) in wrong {
        sandbox.say(words).fails(&[text]);
    }
    for option in ["--out x", "--force"] {
        let words = format!("recover {both} --in-place {option}");
        sandbox
            .say(&words)
            .fails(&["--in-place goes with neither --out nor --force"]);
    }
    assert_eq!(sandbox.names(), ["outage.log", "outage.pages"]);
}

#[test]
fn words_have_every_usual_form() {
    let sandbox = Sandbox::with_outage();
    let plain = sandbox
        .say("verify outage.pages --magic 0x313053454e415243")
        .done();
    plain.says(&["magic 0x313053454e415243 (as given)"]);
    sandbox
        .say("verify --magic=3544424463871332931 outage.pages")
        .done();
    sandbox.write("--odd", &sandbox.read("outage.pages"));
    sandbox
        .say("verify -- --odd")
        .done()
        .says(&["--odd: 4 pages"]);
    sandbox.say("verify ./--odd").done();
}
