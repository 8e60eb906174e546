//! `./install` into a directory of its own: what it puts there works, and `--uninstall` leaves nothing.

use std::collections::BTreeMap;
use std::fs;
use std::path::{Path, PathBuf};
use std::process::{Command, Output};

use crate::sandbox::{repository, Sandbox, BINARY};

const PREFIX: &str = "/opt/quay";

/// Everything that is installed, below the prefix.
const INSTALLED: [&str; 9] = [
    "bin/lumbraquay",
    "include/lumbraquay.h",
    "lib/liblumbraquay.a",
    "lib/pkgconfig/lumbraquay.pc",
    "share/bash-completion/completions/lumbraquay",
    "share/fish/vendor_completions.d/lumbraquay.fish",
    "share/lumbraquay/installed",
    "share/man/man1/lumbraquay.1",
    "share/zsh/site-functions/_lumbraquay",
];

fn install(root: &Path, words: &[&str]) -> Output {
    Command::new(repository().join("install"))
        .args(words)
        .arg(format!("PREFIX={PREFIX}"))
        .env("DESTDIR", root)
        .env("LUMBRAQUAY_COMMAND", BINARY)
        .output()
        .expect("the script runs")
}

fn done(output: Output) -> String {
    let said = String::from_utf8_lossy(&output.stderr);
    assert!(output.status.success(), "{}: {said}", output.status);
    String::from_utf8(output.stdout).unwrap()
}

/// Every file and directory below a directory, sorted.
fn below(root: &Path) -> Vec<PathBuf> {
    let mut found = Vec::new();
    let mut left = vec![root.to_path_buf()];
    while let Some(directory) = left.pop() {
        for entry in fs::read_dir(directory).unwrap() {
            let path = entry.unwrap().path();
            if path.is_dir() {
                left.push(path.clone());
            }
            found.push(path);
        }
    }
    found.sort();
    found
}

/// The flags for a compiler, from pkg-config where that is there, else as the file has them.
fn flags(root: &Path) -> Vec<String> {
    let places = root.join(&PREFIX[1..]).join("lib/pkgconfig");
    let asked = Command::new("pkg-config")
        .args(["--cflags", "--libs", "lumbraquay"])
        .env("PKG_CONFIG_LIBDIR", &places)
        .env("PKG_CONFIG_SYSROOT_DIR", root)
        .output();
    let words = match asked {
        Ok(output) => done(output),
        Err(_) => {
            let file = fs::read_to_string(places.join("lumbraquay.pc")).unwrap();
            let value = |name: &str| {
                let line = file.lines().find_map(|line| line.strip_prefix(name));
                line.expect(name).trim().to_string()
            };
            let prefix = format!("{}{}", root.display(), value("prefix="));
            format!("{} {}", value("Cflags:"), value("Libs:"))
                .replace("${includedir}", &value("includedir="))
                .replace("${libdir}", &value("libdir="))
                .replace("${prefix}", &prefix)
        }
    };
    words.split_whitespace().map(String::from).collect()
}

#[test]
fn what_is_installed_works_and_goes_away() {
    let sandbox = Sandbox::with_outage();
    let root = sandbox.path.join("root");
    let prefix = root.join(&PREFIX[1..]);
    let first = done(install(&root, &[]));
    assert!(first.starts_with("install: installed in "), "{first}");
    let files = |found: Vec<PathBuf>| -> Vec<String> {
        let files = found.iter().filter(|path| path.is_file());
        files
            .map(|path| path.strip_prefix(&prefix).unwrap().display().to_string())
            .collect()
    };
    assert_eq!(files(below(&root)), INSTALLED);
    for path in below(&root).iter().filter(|path| path.is_file()) {
        let bytes = fs::read(path).unwrap();
        let named = bytes
            .windows(root.as_os_str().len())
            .any(|part| part == root.as_os_str().as_encoded_bytes());
        assert!(!named, "{} names DESTDIR", path.display());
    }

    // The command.
    let version = Command::new(prefix.join("bin/lumbraquay"))
        .arg("--version")
        .output();
    assert!(done(version.unwrap()).starts_with("lumbraquay "));

    // A C program.
    let program = sandbox.path.join("recover");
    let mut compiler = Command::new("cc");
    compiler
        .args(["-std=c11", "-Wall", "-Wextra", "-Werror"])
        .arg(repository().join("examples/recover.c"));
    done(
        compiler
            .args(flags(&root))
            .arg("-o")
            .arg(&program)
            .output()
            .unwrap(),
    );
    let answer = Command::new(&program)
        .args(["outage.pages", "outage.log"])
        .current_dir(&sandbox.path)
        .output();
    assert_eq!(
        done(answer.unwrap()),
        "committed 2, rolled back 1, unended 2, pages rewritten 2\n"
    );

    // Installed again, and taken away.
    done(install(&root, &[]));
    assert_eq!(files(below(&root)), INSTALLED);
    done(install(&root, &["--uninstall"]));
    assert!(!root.exists(), "{:?}", below(&root));

    // What others put there stays.
    done(install(&root, &[]));
    fs::write(prefix.join("lib/pkgconfig/other.pc"), "").unwrap();
    done(install(&root, &["--uninstall"]));
    assert_eq!(files(below(&root)), ["lib/pkgconfig/other.pc"]);
    assert!(prefix.join("lib").is_dir() && !prefix.join("bin").exists());
}

#[test]
fn wrong_use_changes_nothing() {
    let sandbox = Sandbox::new();
    let root = sandbox.path.join("root");
    let twice = format!("PREFIX={PREFIX}");
    for (words, said) in [
        (&["--uninstall"][..], "nothing of this is installed in "),
        (&["--remove"], "'--remove'; use: ./install "),
        (&[], "libcapi.a is missing; ./lumbraquay --version proves"),
    ] {
        let output = Command::new(repository().join("install"))
            .args(words)
            .arg(&twice)
            .env("DESTDIR", &root)
            .env("LUMBRAQUAY_STATICLIB_DIR", &sandbox.path)
            .output()
            .unwrap();
        let told = String::from_utf8(output.stderr).unwrap();
        assert_eq!(output.status.code(), Some(2), "{words:?}");
        assert!(told.contains(said), "{words:?}: {told}");
    }
    assert!(!root.exists());
}

/// What the command says of itself, or of one of its commands.
fn help(words: &[&str]) -> String {
    let output = Command::new(BINARY).args(words).arg("--help").output();
    done(output.unwrap())
}

/// The names that a help text lists.
fn listed(words: &[&str]) -> Vec<String> {
    let names = help(words);
    let names = names.lines().filter_map(|line| line.strip_prefix("  "));
    names
        .filter(|line| line.starts_with(|first: char| first.is_ascii_lowercase()))
        .map(|line| line.split(' ').next().unwrap().to_string())
        .collect()
}

/// The first words of commands.
fn first_words() -> Vec<String> {
    listed(&[])
}

/// The second words that a first one takes; none for a command of one word.
fn second_words(first: &str) -> Vec<String> {
    listed(&[first])
}

fn commands() -> Vec<String> {
    let whole = |first: String| match second_words(&first) {
        words if words.is_empty() => vec![first],
        words => words.iter().map(|word| format!("{first} {word}")).collect(),
    };
    first_words().into_iter().flat_map(whole).collect()
}

/// The options that a command's help lists, with --help.
fn options(command: &str) -> Vec<String> {
    let listed = help(&command.split(' ').collect::<Vec<&str>>());
    let listed = listed.lines().filter_map(|line| line.strip_prefix("  --"));
    listed
        .map(|line| format!("--{}", line.split(' ').next().unwrap()))
        .chain(["--help".to_string()])
        .collect()
}

/// The man page has each command's line of use, each option with a text of its own, and no other.
#[test]
fn the_man_page_is_true() {
    let page = fs::read_to_string(repository().join("share/man/man1/lumbraquay.1")).unwrap();
    let page = page.replace("\\-", "-");
    let version = format!("\"lumbraquay {}\"", env!("CARGO_PKG_VERSION"));
    assert!(page.lines().next().unwrap().ends_with(&version));
    let mut sections: BTreeMap<&str, &str> = page
        .split("\n.SS \"")
        .skip(1)
        .map(|section| section.split("\n.SH ").next().unwrap())
        .map(|section| section.split_once("\"\n").unwrap())
        .collect();
    let shared = sections.remove("Options of several commands").unwrap();
    let mut told: Vec<(String, &str)> = Vec::new();
    for name in commands() {
        let text = help(&name.split(' ').collect::<Vec<&str>>());
        let line = text.lines().find_map(|line| line.strip_prefix("Use: "));
        let section = sections.remove(line.unwrap());
        told.push((name, section.unwrap_or_else(|| panic!("{line:?}"))));
    }
    assert!(sections.is_empty(), "{sections:?}");

    let explained = |text: &str| -> Vec<String> {
        let mut lines = text.lines();
        let mut found = Vec::new();
        while let Some(line) = lines.next() {
            let next = (line == ".TP").then(|| lines.next().unwrap());
            let name = next.and_then(|name| name.split(' ').nth(1));
            found.extend(name.map(String::from));
        }
        found
    };
    let everywhere = explained(shared);
    let mut used: Vec<String> = Vec::new();
    for (name, text) in told {
        let (known, own) = (options(&name), explained(text));
        let (several, left): (Vec<String>, Vec<String>) = known
            .into_iter()
            .partition(|name| everywhere.contains(name));
        assert_eq!(own, left, "{name}");
        used.extend(several);
    }
    for name in everywhere {
        assert!(used.contains(&name), "{name} is no option");
    }
}

/// The lines that a shell prints for a script, in the repository and with the command on its path; none without the shell.
fn printed(shell: &str, script: &str) -> Option<Vec<String>> {
    let mut path = Path::new(BINARY).parent().unwrap().as_os_str().to_owned();
    path.push(":");
    path.push(std::env::var_os("PATH").unwrap());
    let output = Command::new(shell)
        .args(["-c", script])
        .current_dir(repository())
        .env("PATH", path)
        .output()
        .ok()?;
    Some(sorted(done(output).lines().map(String::from).collect()))
}

fn sorted(mut names: Vec<String>) -> Vec<String> {
    names.sort();
    names
}

#[test]
fn bash_completes() {
    let ask = |words: &str| {
        let script = format!(
            "source share/bash-completion/completions/lumbraquay
            compopt() {{ :; }}
            COMP_WORDS=({words})
            COMP_CWORD=$((${{#COMP_WORDS[@]}} - 1))
            _lumbraquay lumbraquay \"${{COMP_WORDS[-1]}}\" \"${{COMP_WORDS[-2]}}\"
            printf '%s\\n' \"${{COMPREPLY[@]}}\""
        );
        printed("bash", &script).expect("bash")
    };
    let mut first = first_words();
    first.extend(["--help".to_string(), "--version".to_string()]);
    assert_eq!(ask("lumbraquay ''"), sorted(first));
    let mut second = second_words("summary");
    second.push("--help".to_string());
    assert_eq!(ask("lumbraquay summary ''"), sorted(second));
    assert_eq!(ask("lumbraquay rec"), ["recover"]);
    for name in commands() {
        let offered = ask(&format!("lumbraquay {name} --"));
        assert_eq!(offered, sorted(options(&name)), "{name}");
    }
    assert_eq!(ask("lumbraquay recover samp"), ["samples"]);
    assert_eq!(ask("lumbraquay report a b --out samp"), ["samples"]);
    assert_eq!(ask("lumbraquay recover a b --floor ''"), [""]);
}

/// Where there is a fish.
#[test]
fn fish_completes() {
    let ask = |line: &str| {
        let script = format!(
            "source share/fish/vendor_completions.d/lumbraquay.fish; complete -C '{line}' | string replace -r '\\t.*' ''"
        );
        printed("fish", &script)
    };
    let Some(first) = ask("lumbraquay ") else {
        return;
    };
    assert_eq!(first, sorted(first_words()));
    let second = ask("lumbraquay summary ");
    assert!(second_words("summary")
        .iter()
        .all(|word| second.as_ref().unwrap().contains(word)));
    for name in commands() {
        let mut known = options(&name);
        known.retain(|name| name != "--help");
        assert_eq!(
            ask(&format!("lumbraquay {name} --")),
            Some(sorted(known)),
            "{name}"
        );
    }
}
