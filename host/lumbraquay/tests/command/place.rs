//! `recover --in-place` beside other processes: locks, writers, what killed runs left, and all that a file has beside its
//! bytes.

use std::ffi::{c_char, c_int, c_void, CString};
use std::fs::{self, File, OpenOptions};
use std::io::Write;
use std::os::fd::AsRawFd;
use std::os::unix::fs::{MetadataExt, OpenOptionsExt, PermissionsExt};
use std::path::Path;
use std::process::{Child, Command, Stdio};
use std::thread;
use std::time::{Duration, Instant};

use crate::sandbox::{Done, Sandbox, BINARY};

extern "C" {
    fn flock(file: c_int, operation: c_int) -> c_int;
    fn setxattr(
        path: *const c_char,
        name: *const c_char,
        value: *const c_void,
        size: usize,
        flags: c_int,
    ) -> c_int;
    fn getxattr(path: *const c_char, name: *const c_char, value: *mut c_void, size: usize)
        -> isize;
}

/// Takes the lock of a file, unless another process holds it.
pub fn lock(file: &File) -> bool {
    unsafe { flock(file.as_raw_fd(), 2 | 4) == 0 }
}

const O_NONBLOCK: c_int = 0o4000;
const IN_PLACE: &str = "recover outage.pages outage.log --in-place";

#[test]
fn a_held_lock_is_refused() {
    let sandbox = Sandbox::with_outage();
    let before = sandbox.contents();
    let file = File::open(sandbox.path.join("outage.pages")).unwrap();
    assert!(lock(&file));
    sandbox
        .say(IN_PLACE)
        .fails(&["cannot replace outage.pages: another process holds its lock"]);
    assert!(sandbox.contents() == before);
    // Only for replacing it.
    sandbox
        .say("recover outage.pages outage.log --dry-run")
        .done();
    sandbox
        .say("recover outage.pages outage.log --out new")
        .done();
    drop(file);
    sandbox.say(IN_PLACE).done();
}

#[test]
fn a_writer_is_refused() {
    let sandbox = Sandbox::with_outage();
    let before = sandbox.contents();
    let pages = sandbox.path.join("outage.pages");
    let writer = OpenOptions::new().append(true).open(&pages).unwrap();
    sandbox
        .say(IN_PLACE)
        .fails(&["cannot replace outage.pages: another process has it open for writing"]);
    assert!(sandbox.contents() == before);
    drop(writer);
    // Whoever only reads keeps what was opened.
    let reader = File::open(&pages).unwrap();
    sandbox.say(IN_PLACE).done();
    assert_ne!(
        reader.metadata().unwrap().ino(),
        fs::metadata(&pages).unwrap().ino()
    );
}

/// A run that has read the pages and waits for its log, which comes through a pipe.
struct Waiting {
    child: Child,
    pipe: File,
}

impl Waiting {
    fn start(sandbox: &Sandbox) -> Waiting {
        sandbox.shell("mkfifo pipe").done();
        let child = Command::new(BINARY)
            .args(["recover", "outage.pages", "pipe", "--in-place"])
            .current_dir(&sandbox.path)
            .stdout(Stdio::piped())
            .stderr(Stdio::piped())
            .spawn()
            .unwrap();
        // Without waiting, a pipe can be opened once somebody reads from it.
        let mut options = OpenOptions::new();
        options.write(true).custom_flags(O_NONBLOCK);
        let start = Instant::now();
        loop {
            match options.open(sandbox.path.join("pipe")) {
                Ok(pipe) => return Waiting { child, pipe },
                Err(_) => thread::sleep(Duration::from_millis(1)),
            }
            assert!(start.elapsed() < Duration::from_secs(60));
        }
    }

    /// Sends the log, and waits for the end.
    fn go_on(mut self, sandbox: &Sandbox) -> Done {
        self.pipe.write_all(&sandbox.read("outage.log")).unwrap();
        drop(self.pipe);
        Done::of(self.child.wait_with_output().unwrap())
    }
}

#[test]
fn a_file_that_is_replaced_meanwhile_stays() {
    let sandbox = Sandbox::with_outage();
    let run = Waiting::start(&sandbox);
    sandbox.write("other", b"what another process put there");
    sandbox.shell("mv other outage.pages").done();
    run.go_on(&sandbox).fails(&[
        "outage.pages: another process changed it after it was read; no file was changed",
    ]);
    assert_eq!(
        sandbox.read("outage.pages"),
        b"what another process put there"
    );
    assert_eq!(sandbox.names(), ["outage.log", "outage.pages", "pipe"]);
}

/// Whoever opens the file for writing waits until the run has stopped, and then writes to the file that has the name.
#[test]
fn a_late_writer_loses_nothing() {
    let sandbox = Sandbox::with_outage();
    let mut old = sandbox.read("outage.pages");
    let run = Waiting::start(&sandbox);
    let pages = sandbox.path.join("outage.pages");
    let writer = thread::spawn(move || {
        let mut file = OpenOptions::new().append(true).open(pages).unwrap();
        file.write_all(b"late").unwrap();
    });
    thread::sleep(Duration::from_millis(100));
    run.go_on(&sandbox)
        .fails(&["outage.pages: another process "]);
    writer.join().unwrap();
    old.extend(b"late");
    assert!(sandbox.read("outage.pages") == old);
    assert_eq!(sandbox.names(), ["outage.log", "outage.pages", "pipe"]);
}

#[test]
fn a_change_of_rights_meanwhile_is_not_lost() {
    let sandbox = Sandbox::with_outage();
    let run = Waiting::start(&sandbox);
    let pages = sandbox.path.join("outage.pages");
    fs::set_permissions(&pages, PermissionsExt::from_mode(0o600)).unwrap();
    run.go_on(&sandbox)
        .fails(&["outage.pages: another process changed it"]);
    assert_eq!(sandbox.names(), ["outage.log", "outage.pages", "pipe"]);
}

#[test]
fn nothing_meanwhile() {
    let sandbox = Sandbox::with_outage();
    let old = sandbox.read("outage.pages");
    let run = Waiting::start(&sandbox);
    run.go_on(&sandbox)
        .done()
        .says(&["outage.pages.bak has the 65536 bytes that were read from it\n"]);
    assert!(sandbox.read("outage.pages.bak") == old && sandbox.read("outage.pages") != old);
}

/// The backup is a file of its own, so nobody goes on writing through it.
#[test]
fn the_backup_is_a_copy() {
    let sandbox = Sandbox::with_outage();
    let found = |name: &str| fs::metadata(sandbox.path.join(name)).unwrap();
    let old = found("outage.pages").ino();
    sandbox.shell("ln outage.pages other").done();
    let done = sandbox.say(IN_PLACE).ends(0);
    assert!(
        done.err
            .contains("outage.pages has 1 name more, which keep the old bytes\n"),
        "{done:#?}"
    );
    let backup = found("outage.pages.bak");
    assert_eq!((found("other").ino(), found("other").nlink()), (old, 1));
    assert!(backup.ino() != old && backup.nlink() == 1);
    assert!(sandbox.read("other") == sandbox.read("outage.pages.bak"));
}

#[test]
fn what_killed_runs_left_is_removed() {
    let sandbox = Sandbox::with_outage();
    let removed = |name: &str| {
        format!("lumbraquay: removed DIR/{name}, which a run that was killed left behind\n")
            .replace(
                "DIR",
                sandbox.path.canonicalize().unwrap().to_str().unwrap(),
            )
    };
    for name in [".outage.pages.17-0.tmp", ".outage.pages.17-1.tmp"] {
        sandbox.write(name, b"half");
    }
    let others = [
        ".outage.pages.17-0.tmp.x",
        ".outage.pages.17.tmp",
        ".outage.pages.x-1.tmp",
        ".other.pages.17-0.tmp",
    ];
    for name in others {
        sandbox.write(name, b"mine");
    }
    sandbox.write(".outage.pages.18-0.tmp", b"of a run that goes on");
    let live = File::open(sandbox.path.join(".outage.pages.18-0.tmp")).unwrap();
    assert!(lock(&live));
    let done = sandbox.say(IN_PLACE).ends(0);
    for name in [".outage.pages.17-0.tmp", ".outage.pages.17-1.tmp"] {
        assert!(done.err.contains(&removed(name)), "{done:#?}");
    }
    assert_eq!(done.err.lines().count(), 2, "{done:#?}");
    assert_eq!(sandbox.names().len(), 3 + others.len() + 1);

    // An old file that lost its place is removed if a backup has its bytes.
    drop(live);
    fs::remove_file(sandbox.path.join(".outage.pages.18-0.tmp")).unwrap();
    sandbox.write(".outage.pages.19-0.old", &sandbox.read("outage.pages.bak"));
    sandbox.write(".outage.pages.20-0.old", b"written to by another process");
    sandbox
        .shell("ln outage.pages .outage.pages.21-0.old")
        .done();
    let done = sandbox.say(IN_PLACE).ends(0);
    for name in [".outage.pages.19-0.old", ".outage.pages.21-0.old"] {
        assert!(done.err.contains(&removed(name)), "{done:#?}");
    }
    assert!(
        done.err.contains(
            ".outage.pages.20-0.old is the old file of a run that was killed, and in no backup"
        ),
        "{done:#?}"
    );
    assert!(done.out.contains("was left alone"), "{done:#?}");
    assert!(sandbox.path.join(".outage.pages.20-0.old").exists());
    assert_eq!(done.err.lines().count(), 3, "{done:#?}");
}

/// Sets or reads an attribute; false or none where the file system has no such.
fn set_attribute(path: &Path, name: &str, value: &[u8]) -> bool {
    let path = CString::new(path.to_str().unwrap()).unwrap();
    let name = CString::new(name).unwrap();
    let (value, size) = (value.as_ptr().cast(), value.len());
    unsafe { setxattr(path.as_ptr(), name.as_ptr(), value, size, 0) == 0 }
}

fn attribute(path: &Path, name: &str) -> Option<Vec<u8>> {
    let path = CString::new(path.to_str().unwrap()).unwrap();
    let name = CString::new(name).unwrap();
    let mut value = vec![0; 256];
    let size = unsafe { getxattr(path.as_ptr(), name.as_ptr(), value.as_mut_ptr().cast(), 256) };
    value.truncate(usize::try_from(size).ok()?);
    Some(value)
}

/// An access list: the owner may read and write, user 7 and the mask read, group and others nothing.
fn access_list() -> Vec<u8> {
    let none = u32::MAX;
    let entries = [
        (1, 6, none),
        (2, 4, 7),
        (4, 0, none),
        (16, 4, none),
        (32, 0, none),
    ];
    let mut list = 2u32.to_le_bytes().to_vec();
    for (tag, rights, user) in entries {
        list.extend(u16::to_le_bytes(tag));
        list.extend(u16::to_le_bytes(rights));
        list.extend(u32::to_le_bytes(user));
    }
    list
}

#[test]
fn attributes_and_access_lists_are_kept() {
    const LIST: &str = "system.posix_acl_access";
    let sandbox = Sandbox::with_outage();
    let path = |name: &str| sandbox.path.join(name);
    let has_attributes = set_attribute(&path("outage.pages"), "user.origin", b"crane 4");
    let has_lists = set_attribute(&path("outage.pages"), LIST, &access_list());
    sandbox
        .say("recover outage.pages outage.log --out new")
        .done();
    sandbox.say(IN_PLACE).done();
    for name in ["outage.pages", "outage.pages.bak"] {
        if has_attributes {
            let kept = attribute(&path(name), "user.origin");
            assert_eq!(kept.as_deref(), Some(b"crane 4".as_slice()), "{name}");
        }
        if has_lists {
            assert_eq!(attribute(&path(name), LIST), Some(access_list()), "{name}");
        }
    }
    if has_lists {
        assert_eq!(attribute(&path("new"), LIST), Some(access_list()));
    }
}

/// Where owners can be given at all.
#[test]
fn the_owner_is_kept() {
    let sandbox = Sandbox::with_outage();
    let pages = sandbox.path.join("outage.pages");
    if std::os::unix::fs::chown(&pages, Some(7), Some(8)).is_err() {
        return;
    }
    fs::set_permissions(&pages, PermissionsExt::from_mode(0o640)).unwrap();
    sandbox.say(IN_PLACE).done();
    for name in ["outage.pages", "outage.pages.bak"] {
        let found = fs::metadata(sandbox.path.join(name)).unwrap();
        assert_eq!(
            (found.uid(), found.gid(), found.mode() & 0o777),
            (7, 8, 0o640)
        );
    }
}
