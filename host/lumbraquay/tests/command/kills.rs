//! `recover --in-place` killed at any moment, beside processes that append to the file, take its lock or fill the disk: never
//! a half file, and never a lost write without an error. `LUMBRAQUAY_KILLS` says how often.

use std::cell::Cell;
use std::fs::{self, File, OpenOptions};
use std::io::Write;
use std::os::unix::fs::MetadataExt;
use std::process::{Child, Command, Stdio};
use std::thread;
use std::time::{Duration, Instant};

use generate::{plain_page, Rng, FREE};

use crate::json::Value;
use crate::place::lock;
use crate::sandbox::{Done, Sandbox, BINARY};

const MAGIC: u64 = u64::from_le_bytes(*b"CRANES01");

/// So many pages take long enough to write that a kill can fall between.
const PAGES: u64 = 512;

/// What another process appends.
const APPENDED: &[u8] = b"appended by another process";

extern "C" {
    fn kill(process: i32, signal: i32) -> i32;
}

fn kills() -> u64 {
    let given = std::env::var("LUMBRAQUAY_KILLS").ok();
    given.and_then(|given| given.parse().ok()).unwrap_or(30)
}

/// The outage with free pages added.
fn large(sandbox: &Sandbox) -> Vec<u8> {
    let mut pages = sandbox.read("outage.pages");
    for id in 4..PAGES {
        pages.extend(plain_page(MAGIC, FREE, id, 12));
    }
    pages
}

const RECOVER: &str = "recover outage.pages outage.log --in-place";

/// The same under a floor above every page's LSN, so that no cut of the log is too short for the pages.
const RECOVER_UNDER_FLOOR: &str = "recover outage.pages outage.log --in-place --floor 1000";

/// What a run says while a process that another test starts still holds the file that this test wrote, between its fork and
/// its exec.
const STILL_OPEN: &str = "another process has it open for writing";

fn start(sandbox: &Sandbox, words: &str) -> Child {
    Command::new(BINARY)
        .args(words.split_whitespace())
        .current_dir(&sandbox.path)
        .stdout(Stdio::piped())
        .stderr(Stdio::piped())
        .spawn()
        .unwrap()
}

/// Where the entries of a log end.
fn entry_ends(log: &[u8]) -> Vec<usize> {
    let mut ends = vec![32];
    while let Some(bytes) = log.get(ends[ends.len() - 1]..).and_then(|it| it.get(..4)) {
        let length = u32::from_le_bytes(bytes.try_into().unwrap());
        ends.push(ends[ends.len() - 1] + length as usize);
    }
    ends
}

/// The first bytes of a log, and zeros behind them up to a length.
fn file(log: &[u8], cut: usize, length: usize) -> Vec<u8> {
    let mut file = log[..cut].to_vec();
    file.resize(length, 0);
    file
}

/// Everything as before a run.
fn reset(sandbox: &Sandbox, old: &[u8]) {
    for name in sandbox.names() {
        if name != "outage.log" {
            fs::remove_file(sandbox.path.join(name)).unwrap();
        }
    }
    sandbox.write("outage.pages", old);
}

/// What came of the rounds, by how the run ended; appended, what another process wrote; left, files of killed runs; aside,
/// writes that are in the old file of a killed run.
#[derive(Debug, Default)]
struct Tally {
    done: u64,
    failed: u64,
    killed: u64,
    /// Killed when the new file stood already.
    replaced: u64,
    appended: u64,
    left: u64,
    aside: u64,
}

struct Scene {
    sandbox: Sandbox,
    old: Vec<u8>,
    new: Vec<u8>,
    /// About as long as a run takes.
    time: Cell<Duration>,
}

impl Scene {
    fn new() -> Scene {
        let sandbox = Sandbox::with_outage();
        let old = large(&sandbox);
        reset(&sandbox, &old);
        let began = Instant::now();
        sandbox.say(RECOVER).done();
        let time = began.elapsed();
        let new = sandbox.read("outage.pages");
        assert!(new != old);
        Scene {
            sandbox,
            old,
            new,
            time: Cell::new(time),
        }
    }

    /// One run, one signal, and another process beside it.
    fn round(&self, rng: &mut Rng, signal: i32, tally: &mut Tally) {
        reset(&self.sandbox, &self.old);
        let time = self.time.get();
        let moment = |rng: &mut Rng| time.mul_f64(rng.below(1_000) as f64 / 1_000.0);
        let (when, other) = (moment(rng), moment(rng));
        let pages = self.sandbox.path.join("outage.pages");
        let companion = rng.below(3);
        let child = start(&self.sandbox, RECOVER);
        let beside = thread::spawn(move || {
            thread::sleep(other);
            match companion {
                0 => {
                    let mut file = OpenOptions::new().append(true).open(pages).unwrap();
                    file.write_all(APPENDED).unwrap();
                    true
                }
                1 => {
                    let file = File::open(pages).unwrap();
                    let held = lock(&file);
                    thread::sleep(Duration::from_millis(u64::from(held)));
                    false
                }
                _ => false,
            }
        });
        thread::sleep(when);
        unsafe { kill(child.id() as i32, signal) };
        let done = Done::of(child.wait_with_output().unwrap());
        let appended = beside.join().unwrap();
        self.took(&done);
        self.look(&done, appended, signal, tally);
    }

    /// Runs take longer or shorter with what else the machine does.
    fn took(&self, done: &Done) {
        let factor = if done.status.is_none() { 1.04 } else { 0.92 };
        self.time.set(self.time.get().mul_f64(factor));
    }

    /// Until a run has replaced the pages, or ended.
    fn wait_until_replaced(&self, child: &mut Child) {
        let path = self.sandbox.path.join("outage.pages");
        let file = || fs::metadata(&path).map(|found| found.ino()).ok();
        let lent = file();
        while file() == lent && child.try_wait().unwrap().is_none() {
            thread::yield_now();
        }
    }

    /// Runs on what the one before left, from logs that never get shorter, until ten of them were killed and the pages are no
    /// longer as they were.
    fn night(&self, rng: &mut Rng, log: &[u8], tally: &mut Tally) {
        let ends = entry_ends(log);
        let (mut at, mut cut, mut length) = (0, 0, 0);
        let before = tally.killed;
        for run in 0.. {
            let lent = self.sandbox.read("outage.pages");
            if tally.killed >= before + 10 && lent != self.old {
                return;
            }
            assert!(run < 500, "{tally:?}");
            at = (at + rng.index(3)).min(ends.len() - 1);
            let torn = if rng.one_in(3) { rng.size(1, 40) } else { 0 };
            cut = cut.max((ends[at] + torn).min(log.len()));
            let zeros = if rng.one_in(3) { rng.size(1, 60) } else { 0 };
            length = length.max(cut + zeros);
            self.sandbox.write("outage.log", &file(log, cut, length));

            let when = self.time.get().mul_f64(rng.below(1_000) as f64 / 1_000.0);
            let late = rng.one_in(3);
            let mut child = start(&self.sandbox, RECOVER_UNDER_FLOOR);
            if late {
                self.wait_until_replaced(&mut child);
            } else {
                thread::sleep(when);
            }
            unsafe { kill(child.id() as i32, 9) };
            let done = Done::of(child.wait_with_output().unwrap());
            let left = self.sandbox.read("outage.pages");
            match done.status {
                Some(0) => tally.done += 1,
                Some(3) => {
                    assert!(left == lent, "{done:#?}");
                    tally.failed += 1;
                    // A log that is refused is refused soon.
                    continue;
                }
                Some(2) if done.err.contains(STILL_OPEN) => {
                    assert!(left == lent, "{done:#?}");
                    continue;
                }
                None => {
                    tally.killed += 1;
                    tally.replaced += u64::from(left != lent);
                }
                _ => panic!("{done:#?}"),
            }
            if !late {
                self.took(&done);
            }
        }
    }

    /// Everything that has a name is whole, and what was written is somewhere.
    fn look(&self, done: &Done, appended: bool, signal: i32, tally: &mut Tally) {
        let found = self.sandbox.read("outage.pages");
        let (bytes, has_it) = match found.strip_suffix(APPENDED) {
            Some(bytes) => (bytes, true),
            None => (found.as_slice(), false),
        };
        assert!(
            bytes == self.old || bytes == self.new,
            "a half file: {done:#?}"
        );
        let mut aside = false;
        for name in self.sandbox.names() {
            match name.as_str() {
                "outage.log" | "outage.pages" => (),
                "outage.pages.bak" => {
                    let backup = self.sandbox.read(&name);
                    let backup = backup.strip_suffix(APPENDED).unwrap_or(&backup);
                    assert!(backup == self.old, "a half backup: {done:#?}");
                }
                name if name.starts_with('.') => {
                    assert_eq!(signal, 9, "{name} is left: {done:#?}");
                    tally.left += 1;
                    let left = self.sandbox.read(name);
                    aside |= name.ends_with(".old") && left.ends_with(APPENDED);
                }
                name => panic!("{name}: {done:#?}"),
            }
        }
        match done.status {
            Some(0) => {
                tally.done += 1;
                assert!(bytes == self.new, "{done:#?}");
                assert!(self.sandbox.path.join("outage.pages.bak").exists());
            }
            Some(2) => {
                tally.failed += 1;
                assert!(
                    bytes == self.old && done.err.contains("outage.pages: another process"),
                    "{done:#?}"
                );
            }
            // Appended before the run read it, so it is no whole number of pages.
            Some(3) => {
                tally.failed += 1;
                assert!(bytes == self.old && has_it, "{done:#?}");
            }
            None => {
                tally.killed += 1;
                tally.replaced += u64::from(bytes == self.new);
                let says = "is replaced by the new pages; ";
                let is_told = signal == 9 || bytes == self.old || done.err.contains(says);
                assert!(is_told, "{done:#?}");
            }
            _ => panic!("{done:#?}"),
        }
        tally.appended += u64::from(appended);
        if appended && !has_it {
            assert!(done.status.is_none() && aside, "a lost write: {done:#?}");
            tally.aside += 1;
        }
        // The next run is not hindered.
        if !has_it {
            let next = self.sandbox.say(RECOVER).ends(0);
            assert!(self.sandbox.read("outage.pages") == self.new, "{next:#?}");
            let left = self.sandbox.names();
            assert!(
                aside || left.iter().all(|name| !name.starts_with('.')),
                "{left:?}"
            );
        }
    }
}

#[test]
fn kills_at_any_moment() {
    let scene = Scene::new();
    let mut rng = Rng::new(17);
    let mut tally = Tally::default();
    while tally.killed < kills() {
        scene.round(&mut rng, 9, &mut tally);
        assert!(tally.done + tally.failed < 20 * kills(), "{tally:?}");
    }
    println!("kills: {tally:?}");
}

/// Signals that ask for an end leave no file of the run's own.
#[test]
fn requests_to_end_at_any_moment() {
    let scene = Scene::new();
    let mut rng = Rng::new(18);
    let mut tally = Tally::default();
    while tally.killed < kills() / 2 {
        let signal = *rng.pick(&[1, 2, 15]);
        scene.round(&mut rng, signal, &mut tally);
        assert!(tally.done + tally.failed < 20 * kills(), "{tally:?}");
    }
    println!("requests to end: {tally:?}");
}

/// What a run answers, without what became of its pages.
fn answer(done: Done) -> Value {
    let Value::Object(mut fields) = done.json() else {
        panic!("no object");
    };
    for name in ["result", "written_to", "backup"] {
        fields.remove(name).unwrap();
    }
    Value::Object(fields)
}

/// Ten kills in one night, among refused runs and runs that end, of which some have changed the pages; then the run from the
/// longest log ends as it does alone, with the same answer.
#[test]
fn ten_kills_in_one_night() {
    let scene = Scene::new();
    let sandbox = &scene.sandbox;
    // What is torn behind the last whole entry is none of the history's: zeros behind it would be damage.
    let mut log = sandbox.read("outage.log");
    log.truncate(
        entry_ends(&log)
            .into_iter()
            .filter(|&end| end <= log.len())
            .max()
            .unwrap(),
    );
    let last = file(&log, log.len(), log.len() + 100);
    let recovered = || {
        sandbox.write("outage.log", &last);
        let words = format!("{RECOVER_UNDER_FLOOR} --json");
        let mut done = sandbox.say(&words);
        for _ in 0..100 {
            if !done.out.contains(STILL_OPEN) {
                break;
            }
            done = sandbox.say(&words);
        }
        (answer(done.ends(0)), sandbox.read("outage.pages"))
    };
    reset(sandbox, &scene.old);
    let alone = recovered();
    assert_eq!(alone.0.text("ending"), "unused");
    assert!(alone.0.number("pages_rewritten") > 0 && alone.1 != scene.old);

    let mut rng = Rng::new(19);
    let mut tally = Tally::default();
    // Until a run was refused, and a killed run too has left other pages than it was lent.
    while tally.killed < kills() || tally.failed == 0 || tally.replaced == 0 {
        assert!(tally.killed < 20 * kills(), "{tally:?}");
        reset(sandbox, &scene.old);
        scene.night(&mut rng, &log, &mut tally);
        assert!(recovered() == alone, "{tally:?}");
    }
    println!("nights: {tally:?}");
}

/// On a small file system of our own that another process fills, where the machine lets us make one.
#[test]
fn kills_on_a_disk_that_fills_up() {
    let sandbox = Sandbox::with_outage();
    sandbox
        .say("recover outage.pages outage.log --out new")
        .done();
    let script = "\
        mount -t tmpfs -o size=300k none disk && cp outage.log disk && cd disk || exit 77
        n=0
        while [ $n -lt COUNT ]; do
            n=$((n + 1))
            rm -f fill outage.pages* .outage.pages.*
            cp ../outage.pages .
            (dd if=/dev/zero of=fill bs=1k count=$((n * 37 % 260)) 2>/dev/null) &
            timeout -s KILL 0.00$((n % 10)) \"$LQ\" recover outage.pages outage.log --in-place >out 2>err
            status=$?
            wait
            cmp -s outage.pages ../outage.pages || cmp -s outage.pages ../new || { echo half; exit 1; }
            [ $status != 0 ] || cmp -s outage.pages ../new || { echo not new; exit 1; }
            [ $status != 2 ] || cmp -s outage.pages ../outage.pages || { echo not old; exit 1; }
            [ ! -e outage.pages.bak ] || cmp -s outage.pages.bak ../outage.pages || { echo half backup; exit 1; }
            echo $status
        done | sort | uniq -c";
    fs::create_dir(sandbox.path.join("disk")).unwrap();
    let script = script.replace("COUNT", &kills().to_string());
    let done = sandbox.shell(&format!("unshare -rm sh -c '{script}'"));
    if done.status == Some(77) || done.err.contains("unshare") || done.err.contains("mount") {
        return;
    }
    println!("{} kills on a disk that fills up:\n{}", kills(), done.out);
    assert!(
        !done.out.contains("half") && !done.out.contains("not"),
        "{done:#?}"
    );
    assert!(done.out.contains(" 2\n"), "{done:#?}");
}
