//! A directory of its own for each test, and the command run in it.

use std::ffi::OsStr;
use std::fs;
use std::path::{Path, PathBuf};
use std::process::{Command, Output};
use std::sync::atomic::{AtomicU32, Ordering};

use crate::json::Value;

pub const BINARY: &str = env!("CARGO_BIN_EXE_lumbraquay");

/// What a slow run says on standard error.
pub const SLOW: &str = "takes longer than two seconds";

/// The directory that README.md stands in.
pub fn repository() -> PathBuf {
    Path::new(env!("CARGO_MANIFEST_DIR")).join("../..")
}

/// A new directory, which goes away with the test.
pub struct Sandbox {
    pub path: PathBuf,
}

impl Sandbox {
    pub fn new() -> Sandbox {
        static MADE: AtomicU32 = AtomicU32::new(0);
        let number = MADE.fetch_add(1, Ordering::Relaxed);
        let name = format!("command-{}-{number}", std::process::id());
        let path = Path::new(env!("CARGO_TARGET_TMPDIR")).join(name);
        fs::create_dir_all(&path).unwrap();
        Sandbox { path }
    }

    /// With the bundled outage in it.
    pub fn with_outage() -> Sandbox {
        let sandbox = Sandbox::new();
        for name in ["outage.pages", "outage.log"] {
            let bytes = fs::read(repository().join("samples").join(name)).unwrap();
            sandbox.write(name, &bytes);
        }
        sandbox
    }

    pub fn write(&self, name: &str, bytes: &[u8]) {
        fs::write(self.path.join(name), bytes).unwrap();
    }

    pub fn read(&self, name: &str) -> Vec<u8> {
        fs::read(self.path.join(name)).unwrap()
    }

    /// The names of all files, sorted.
    pub fn names(&self) -> Vec<String> {
        let mut names: Vec<String> = fs::read_dir(&self.path)
            .unwrap()
            .map(|found| found.unwrap().file_name().into_string().unwrap())
            .collect();
        names.sort();
        names
    }

    /// The names of all files with their bytes; of directories, none.
    pub fn contents(&self) -> Vec<(String, Option<Vec<u8>>)> {
        let read = |name: String| {
            let bytes = fs::read(self.path.join(&name)).ok();
            (name, bytes)
        };
        self.names().into_iter().map(read).collect()
    }

    pub fn run<S: AsRef<OsStr>>(&self, words: &[S]) -> Done {
        self.finish(Command::new(BINARY).args(words))
    }

    /// The words, parted by spaces.
    pub fn say(&self, words: &str) -> Done {
        let words: Vec<&str> = words.split_whitespace().collect();
        self.run(&words)
    }

    /// The command run by a shell line, in which "$LQ" is the command.
    pub fn shell(&self, line: &str) -> Done {
        self.finish(Command::new("sh").args(["-c", line]).env("LQ", BINARY))
    }

    fn finish(&self, command: &mut Command) -> Done {
        Done::of(command.current_dir(&self.path).output().unwrap())
    }
}

impl Drop for Sandbox {
    fn drop(&mut self) {
        let _ = fs::remove_dir_all(&self.path);
    }
}

/// How a command ended and what it printed.
#[derive(Debug)]
pub struct Done {
    pub status: Option<i32>,
    pub out: String,
    pub err: String,
}

impl Done {
    pub fn of(output: Output) -> Done {
        // A busy machine may make any run slow.
        let err = String::from_utf8(output.stderr).unwrap();
        let err = err
            .split_inclusive('\n')
            .filter(|line| !line.contains(SLOW));
        Done {
            status: output.status.code(),
            out: String::from_utf8(output.stdout).unwrap(),
            err: err.collect(),
        }
    }

    #[track_caller]
    pub fn ends(self, status: i32) -> Done {
        assert_eq!(self.status, Some(status), "{self:#?}");
        self
    }

    /// Done, with nothing on standard error.
    #[track_caller]
    pub fn done(self) -> Done {
        let done = self.ends(0);
        assert_eq!(done.err, "");
        done
    }

    /// Wrong use or trouble with a file: nothing on standard output, and each of these on standard error.
    #[track_caller]
    pub fn fails(self, texts: &[&str]) -> Done {
        let done = self.ends(2);
        assert_eq!(done.out, "");
        done.tells(texts)
    }

    /// The same as one JSON object, which is given back.
    #[track_caller]
    pub fn fails_as_json(self, text: &str) -> Value {
        let done = self.ends(2);
        assert_eq!(done.err, "");
        let object = done.json();
        assert_eq!(object.text("result"), "error");
        assert!(
            object.text("message").contains(text),
            "no '{text}' in {object:?}"
        );
        object
    }

    /// Refused, with each of these on standard error.
    #[track_caller]
    pub fn refuses(self, texts: &[&str]) -> Done {
        self.ends(3).tells(texts)
    }

    #[track_caller]
    fn tells(self, texts: &[&str]) -> Done {
        assert!(self.err.starts_with("lumbraquay: "), "{self:#?}");
        for text in texts {
            assert!(self.err.contains(text), "no '{text}' in {self:#?}");
        }
        self
    }

    #[track_caller]
    pub fn says(self, texts: &[&str]) -> Done {
        for text in texts {
            assert!(self.out.contains(text), "no '{text}' in {self:#?}");
        }
        self
    }

    /// The one JSON object on standard output.
    #[track_caller]
    pub fn json(&self) -> Value {
        match Value::read(&self.out) {
            Ok(value) => value,
            Err(error) => panic!("{error} in {self:#?}"),
        }
    }
}
