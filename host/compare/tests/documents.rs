//! Every name that stands in backticks in docs/SPECIFICATION.md, docs/ARCHITECTURE.md and docs/API.md is there.
//!
//! | Written | Is |
//! |---|---|
//! | `page Layout.magic_of` | declared in specs/Layout.antt or proofs/Layout.antt of crates/page; `.type_of` behind it too |
//! | `refusals Refusal` | such a file |
//! | `page::inner::fault` | declared in src/inner.rt of crates/page |
//! | `page_cases slot_cases` | a function in src of crates/page_cases |
//! | `oracle page_rules::types` | a test in page_rules.rs below host/oracle/tests |
//! | `decide/unended_skipped` | crates/decide/must-fail/unended_skipped.edit |
//! | with `/` otherwise | a file or folder, from the top or from a crate on; `*` stands for anything. What is built stands in target/ |
//! | any other text | words that are each a crate, a file, declared somewhere, or of the language |

use std::collections::{BTreeMap, BTreeSet};
use std::path::{Path, PathBuf};

const DOCUMENTS: [&str; 3] = [
    "docs/SPECIFICATION.md",
    "docs/ARCHITECTURE.md",
    "docs/API.md",
];

/// Words of the language and of its command.
const LANGUAGE: [&str; 7] = ["let", "else", "mut", "u64", "requires", "ensures", "rt"];

/// The directory that README.md stands in.
fn top() -> PathBuf {
    Path::new(env!("CARGO_MANIFEST_DIR")).join("../..")
}

/// The names that each file of the repository declares, by its path from the top; a folder, whose path ends in `/`, declares
/// none.
struct Repository(BTreeMap<String, BTreeSet<String>>);

impl Repository {
    fn read() -> Repository {
        let mut found = Repository(BTreeMap::new());
        found.enter("");
        found
    }

    fn enter(&mut self, folder: &str) {
        for entry in std::fs::read_dir(top().join(folder)).unwrap() {
            let entry = entry.unwrap();
            let name = entry.file_name().into_string().unwrap();
            let path = format!("{folder}{name}");
            if entry.file_type().unwrap().is_dir() {
                if !matches!(name.as_str(), "target" | "out" | ".git") {
                    self.enter(&format!("{path}/"));
                    self.0.insert(format!("{path}/"), BTreeSet::new());
                }
            } else {
                let bytes = std::fs::read(entry.path()).unwrap();
                let text = String::from_utf8_lossy(&bytes);
                let names = match name.rsplit_once('.').map(|(_, end)| end) {
                    Some("antt") => declared_in_antt(&text),
                    Some("rt" | "rs" | "h" | "c") => declared_in_code(&text),
                    _ => BTreeSet::new(),
                };
                self.0.insert(path, names);
            }
        }
    }

    fn is_folder(&self, path: &str) -> bool {
        self.0.contains_key(&format!("{path}/"))
    }

    fn declares(&self, file: &str, name: &str) -> bool {
        self.0.get(file).is_some_and(|names| names.contains(name))
    }

    /// A file or folder of this form, from the top or from a crate on.
    fn has_path(&self, form: &str) -> bool {
        let below_crates = format!("crates/*/{form}");
        self.0.keys().any(|path| {
            [path, path.trim_end_matches('/')]
                .iter()
                .any(|path| fits(path, form) || fits(path, &below_crates))
        })
    }

    /// `Layout.magic_of`, or the file alone, of the specs or the proofs of one crate.
    fn has_stated(&self, of: &str, stated: &str) -> bool {
        let (file, name) = stated.split_once('.').unwrap_or((stated, ""));
        ["specs", "proofs"].iter().any(|part| {
            let path = format!("crates/{of}/{part}/{file}.antt");
            self.0.contains_key(&path) && (name.is_empty() || self.declares(&path, name))
        })
    }

    /// `inner::fault` of one crate.
    fn has_item(&self, of: &str, item: &str) -> bool {
        let (module, name) = item.rsplit_once("::").unwrap_or(("lib", item));
        let module = module.replace("::", "/");
        self.declares(&format!("crates/{of}/src/{module}.rt"), name)
    }

    /// A function of a program.
    fn has_function(&self, of: &str, name: &str) -> bool {
        let below = format!("crates/{of}/src/*.rt");
        let function = format!("fn {name}");
        self.0
            .iter()
            .any(|(path, names)| fits(path, &below) && names.contains(&function))
    }

    /// `page_rules::types` of one crate of the host.
    fn has_test(&self, of: &str, test: &str) -> bool {
        let Some((module, name)) = test.split_once("::") else {
            return false;
        };
        let (beside, below) = (
            format!("host/{of}/tests/{module}.rs"),
            format!("host/{of}/tests/*/{module}.rs"),
        );
        let test = format!("#[test] {name}");
        self.0
            .iter()
            .any(|(path, names)| (*path == beside || fits(path, &below)) && names.contains(&test))
    }

    /// A crate, a file, or a name that is declared somewhere.
    fn has_word(&self, word: &str) -> bool {
        let path_end = format!("/{word}");
        self.is_folder(&format!("crates/{word}"))
            || self.is_folder(&format!("host/{word}"))
            || self.0.iter().any(|(path, names)| {
                path == word || path.ends_with(&path_end) || names.contains(word)
            })
    }

    /// Whether what stands in backticks is there. `behind` is the crate and file of the last definition or theorem before it.
    fn has(&self, text: &str, behind: &mut Option<(String, String)>) -> bool {
        if text.starts_with("target/") {
            return true;
        }
        if text.contains('/') {
            let edit = text.split_once('/').is_some_and(|(of, edit)| {
                let path = format!("crates/{of}/must-fail/{edit}.edit");
                self.0.contains_key(&path)
            });
            return edit || self.has_path(text);
        }
        if let (true, Some(name)) = (text.len() > 1, text.strip_prefix('.')) {
            let stated = |(of, file): &(String, String)| {
                !name.starts_with('.') && self.has_stated(of, &format!("{file}.{name}"))
            };
            return behind.as_ref().is_some_and(stated);
        }
        if let Some((of, rest)) = text.split_once(' ') {
            if self.is_folder(&format!("crates/{of}")) {
                let file = rest.split('.').next().unwrap_or_default();
                *behind = Some((of.to_string(), file.to_string()));
                return self.has_stated(of, rest) || self.has_function(of, rest);
            }
            if self.is_folder(&format!("host/{of}")) {
                return self.has_test(of, rest);
            }
        }
        if let Some((of, rest)) = text.split_once("::") {
            if self.is_folder(&format!("crates/{of}")) {
                return self.has_item(of, rest);
            }
        }
        if let (false, Some((file, _))) = (text.contains(' '), text.split_once('.')) {
            if file.starts_with(|first: char| first.is_uppercase()) {
                let crates = self
                    .0
                    .keys()
                    .filter_map(|path| path.strip_prefix("crates/")?.strip_suffix('/'));
                return crates
                    .into_iter()
                    .any(|of| !of.contains('/') && self.has_stated(of, text));
            }
        }
        if self.has_word(text) {
            return true;
        }
        text.split(|it: char| !it.is_alphanumeric() && it != '_' && it != '\'')
            .filter(|word| word.starts_with(|first: char| first.is_alphabetic() || first == '\''))
            .all(|word| LANGUAGE.contains(&word) || self.has_word(word))
    }

    /// The lines of a document that name what is not there.
    fn lacks(&self, document: &str) -> Vec<String> {
        let mut lacking = Vec::new();
        for (number, line) in (1..).zip(document.lines()) {
            let parts: Vec<&str> = line.split('`').collect();
            if parts.len() % 2 == 0 {
                lacking.push(format!("{number}: a backtick stands alone"));
            }
            let mut behind = None;
            for text in parts.iter().skip(1).step_by(2) {
                if !self.has(text, &mut behind) {
                    lacking.push(format!("{number}: `{text}` is not there"));
                }
            }
        }
        lacking
    }
}

/// Whether a path has a form, in which `*` stands for anything.
fn fits(path: &str, form: &str) -> bool {
    match form.split_once('*') {
        None => path == form,
        Some((start, rest)) => path.strip_prefix(start).is_some_and(|path| {
            (0..=path.len())
                .filter(|&at| path.is_char_boundary(at))
                .any(|at| fits(&path[at..], rest))
        }),
    }
}

/// Definitions, theorems, records, their fields, constructors.
fn declared_in_antt(text: &str) -> BTreeSet<String> {
    let mut names = BTreeSet::new();
    for line in text.lines() {
        let mut words = line
            .split_whitespace()
            .skip_while(|word| matches!(*word, "pub" | "abbrev" | "unfoldable"));
        match (words.next(), words.next()) {
            (Some("record" | "data"), Some(name)) => names.insert(name.to_string()),
            (Some(name), Some(":")) => names.insert(name.to_string()),
            _ => false,
        };
    }
    names
}

/// Functions (also as `fn name`), tests (as `#[test] name`), types, constants, modules, locals, parameters, fields, labels,
/// cases of enums, refusals of the header's list.
fn declared_in_code(text: &str) -> BTreeSet<String> {
    let mut names = BTreeSet::new();
    let mut tested = false;
    for line in text.lines() {
        let line = line.trim();
        if line.starts_with("//") || line.starts_with('*') {
            continue;
        }
        let is_part = |it: char| it.is_alphanumeric() || it == '_' || it == '\'';
        let mut rest = line;
        let mut before = "";
        while let Some(start) = rest.find(is_part) {
            let word = &rest[start..];
            let end = word.find(|it| !is_part(it)).unwrap_or(word.len());
            let (word, behind) = word.split_at(end);
            let opens = start == 0 && before.is_empty();
            let named = matches!(
                before,
                "fn" | "struct" | "enum" | "const" | "mod" | "let" | "mut" | "define"
            );
            let declares = (named && &rest[..start] == " ")
                || (&rest[..start] == " *" && behind.starts_with('('))
                || (behind.starts_with(':') && !behind.starts_with("::"))
                || behind.starts_with(" = ")
                || (opens && (behind == "," || behind.starts_with('(')))
                || (word.starts_with("LQ_") && behind.starts_with(','));
            if declares {
                names.insert(word.to_string());
                names.extend(word.strip_prefix("LQ_").map(String::from));
            }
            if before == "fn" {
                names.insert(format!("fn {word}"));
                if tested {
                    names.insert(format!("#[test] {word}"));
                }
                tested = false;
            }
            (before, rest) = (word, behind);
        }
        tested |= line == "#[test]";
    }
    names
}

#[test]
fn every_name_is_there() {
    let repository = Repository::read();
    let mut lacking = Vec::new();
    for name in DOCUMENTS {
        let document = std::fs::read_to_string(top().join(name)).expect(name);
        let lacks = repository.lacks(&document);
        lacking.extend(lacks.iter().map(|line| format!("{name}:{line}")));
    }
    assert!(lacking.is_empty(), "\n{}", lacking.join("\n"));
}

/// The files of specs that README names, as `page Layout`, are there, and none says that it is internal.
#[test]
fn a_reader_believes_no_internal_file() {
    let readme = std::fs::read_to_string(top().join("README.md")).expect("README.md");
    let mut named = 0;
    for text in readme
        .lines()
        .flat_map(|line| line.split('`').skip(1).step_by(2))
    {
        let Some((of, file)) = text.split_once(' ') else {
            continue;
        };
        if top().join("crates").join(of).is_dir() {
            let path = format!("crates/{of}/specs/{file}.antt");
            let specs = std::fs::read_to_string(top().join(&path)).expect(&path);
            assert!(!specs.starts_with("-- Internal"), "{path}");
            named += 1;
        }
    }
    assert!(named > 20);
}

/// One name of each kind, and beside it what differs by a letter.
#[test]
fn a_misspelt_name_is_found() {
    let repository = Repository::read();
    for (there, missing) in [
        ("page Layout.magic_of", "page Layout.magic_off"),
        ("page FaultLaws.sound-good", "page FaultLaws.sound-goods"),
        ("rules Mend.winner", "rule Mend.winner"),
        ("refusals Refusal", "refusals Refusals"),
        ("Crc.poly", "Crc.polly"),
        ("page::verify", "page::verifies"),
        ("page::inner::fault", "page::inner::faults"),
        ("wal::Reading", "wal::Readings"),
        ("page_cases slot_cases", "page_cases slots_cases"),
        ("oracle page_rules::types", "oracle page_rules::typed"),
        ("oracle page_rules::types", "oracle page_rule::types"),
        ("decide/unended_skipped", "decide/unended_skips"),
        (
            "crates/page/specs/Layout.antt",
            "crates/page/specs/Layouts.antt",
        ),
        ("crates/*_cases", "crates/*_case"),
        ("specs/", "spec/"),
        ("LogReader", "LogsReader"),
        ("PAGE_AREA", "PAGES_AREA"),
        ("lq_recover", "lq_recovers"),
        ("&mut [Record]", "&mut [Recordings]"),
        ("let .. else", "lets .. else"),
    ] {
        assert!(repository.has(there, &mut None), "{there}");
        assert!(!repository.has(missing, &mut None), "{missing}");
    }
    let line = |name: &str| format!("| `page Layout.magic_of`, `{name}` | `page::verify` |");
    assert!(repository.lacks(&line(".type_of")).is_empty());
    assert_eq!(repository.lacks(&line(".types_of")).len(), 1);
    assert_eq!(repository.lacks("`.type_of`").len(), 1);
    assert!(!repository.lacks("one ` alone").is_empty());
}
