//! The scripts that a fresh machine meets first: `.ci/tools` and the wrapper `lumbraquay`.

use std::fs;
use std::os::unix::fs::{symlink, PermissionsExt};

use crate::sandbox::{repository, Done, Sandbox};

/// Stands in for a tool that runs this shell line.
fn tool_that(sandbox: &Sandbox, name: &str, line: &str) {
    let path = sandbox.path.join("bin").join(name);
    fs::write(&path, format!("#!/bin/sh\n{line}\n")).unwrap();
    fs::set_permissions(&path, PermissionsExt::from_mode(0o755)).unwrap();
}

/// Stands in for a tool that says this version.
fn tool(sandbox: &Sandbox, name: &str, version: &str) {
    tool_that(sandbox, name, &format!("echo '{version}'"));
}

/// A directory with the scripts and a crate `capi`, and one for tools that has the shell's own.
fn with_scripts() -> Sandbox {
    let sandbox = Sandbox::new();
    for directory in [
        "bin",
        "home/.ci",
        "home/crates/capi/src",
        "home/crates/capi/specs",
        "home/crates/capi/proofs",
    ] {
        fs::create_dir_all(sandbox.path.join(directory)).unwrap();
    }
    sandbox.write("home/crates.txt", b"");
    for script in ["lumbraquay", ".ci/tools", ".ci/staticlib"] {
        let to = sandbox.path.join("home").join(script);
        fs::copy(repository().join(script), to).unwrap();
    }
    for name in [
        "sh", "sed", "sort", "head", "dirname", "readlink", "echo", "cat", "find", "mkdir", "cp",
        "mv",
    ] {
        let found = ["/usr/bin", "/bin"].map(|directory| format!("{directory}/{name}"));
        let found = found.iter().find(|path| fs::metadata(path).is_ok());
        symlink(found.expect(name), sandbox.path.join("bin").join(name)).unwrap();
    }
    sandbox
}

fn run(sandbox: &Sandbox, script: &str) -> Done {
    sandbox.shell(&format!("PATH=\"$PWD/bin\"; {script}"))
}

#[test]
fn missing_and_old_tools_are_told() {
    let sandbox = with_scripts();
    let tools = |texts: &[&str]| {
        let done = run(&sandbox, "home/.ci/tools").ends(2);
        for text in texts {
            assert!(done.err.contains(text), "no '{text}' in {done:#?}");
        }
        assert!(!done.err.contains("rustc-web") || done.err.contains("1.85"));
    };
    tools(&["missing: rt, the command of the Rattle kit"]);
    tool(&sandbox, "rt", "rt");
    tools(&[
        "cargo of version 1.85 or newer (here: none); on Debian: apt-get install cargo-web rustc-web",
        "rustc of version 1.85 or newer (here: none)",
        "cc, a C compiler; on Debian: apt-get install gcc libc6-dev",
    ]);
    tool(&sandbox, "cargo", "cargo 1.65.0");
    tool(&sandbox, "rustc", "rustc 1.63.0");
    tool(&sandbox, "cc", "cc");
    tools(&["(here: cargo 1.65.0)", "(here: rustc 1.63.0)"]);
    tool(&sandbox, "cargo", "cargo 1.100.0 (abc 2027-01-01)");
    tools(&["(here: rustc 1.63.0)"]);
    tool(&sandbox, "rustc", "rustc 1.85.0 (abc 2025-02-17)");
    let done = run(&sandbox, "home/.ci/tools").done();
    assert_eq!(done.out, "");
}

#[test]
fn the_wrapper_says_what_is_missing_through_a_link_too() {
    let sandbox = with_scripts();
    symlink("home/lumbraquay", sandbox.path.join("linked")).unwrap();
    for script in ["home/lumbraquay", "./linked", "cd bin; ../linked"] {
        let done = run(&sandbox, &format!("{script} --version")).ends(2);
        assert!(done.err.contains("missing: rt"), "{done:#?}");
    }
    // Built before, and the tools gone since.
    fs::create_dir_all(sandbox.path.join("home/target/staticlib")).unwrap();
    sandbox.write("home/target/staticlib/libcapi.a", b"");
    tool(&sandbox, "rt", "rt");
    let done = run(&sandbox, "./linked --version").ends(2);
    assert!(done.err.contains("cargo of version 1.85"), "{done:#?}");
}

/// After a change of a crate, as after a pull.
#[test]
fn the_wrapper_proves_again_what_has_changed() {
    let sandbox = with_scripts();
    tool(&sandbox, "cc", "cc");
    for name in ["cargo", "rustc"] {
        tool(&sandbox, name, &format!("{name} 1.85.0"));
    }
    // As `rt lib` in the crate's folder; elsewhere there is nothing to write into.
    let proved = "mkdir -p out && echo \"$*\" >out/libcapi.a && [ -d src ]";
    tool_that(&sandbox, "rt", proved);
    fs::create_dir_all(sandbox.path.join("home/host/target/release")).unwrap();
    let command = sandbox.path.join("home/host/target/release/lumbraquay");
    symlink(sandbox.path.join("bin/cc"), command).unwrap();
    let proves = || {
        let done = run(&sandbox, "home/lumbraquay --version").ends(0);
        done.err.contains("proving the library first")
    };
    assert!(proves());
    let library = "home/target/staticlib/libcapi.a";
    assert_eq!(sandbox.read(library), b"lib\n");
    assert!(!proves());
    let set = |name: &str, day: &str| {
        sandbox.shell(&format!("touch -d {day} home/{name}")).done();
    };
    let read = [
        "crates.txt",
        "crates/capi/src",
        "crates/capi/specs",
        "crates/capi/proofs",
    ];
    for name in read {
        set(name, "2020-01-01");
    }
    set("target/staticlib/libcapi.a", "2020-01-02");
    assert!(!proves());
    // What rt keeps, and edits that it has to refuse.
    for name in [
        "crates",
        "crates/capi",
        "crates/capi/out",
        "crates/capi/must-fail",
    ] {
        set(name, "2020-01-03");
    }
    assert!(!proves());
    for name in read {
        set("target/staticlib/libcapi.a", "2020-01-02");
        set(name, "2020-01-03");
        assert!(proves(), "{name}");
        set(name, "2020-01-01");
    }
    set("crates/capi/src/lib.rt", "2020-01-03");
    set("target/staticlib/libcapi.a", "2020-01-02");
    assert!(proves());
}

/// Where the library is not proved nothing is put into its place.
#[test]
fn the_wrapper_builds_nothing_unproved() {
    let sandbox = with_scripts();
    tool(&sandbox, "cc", "cc");
    for name in ["cargo", "rustc"] {
        tool(&sandbox, name, &format!("{name} 1.85.0"));
    }
    tool_that(&sandbox, "rt", "echo unproved; exit 1");
    let done = run(&sandbox, "home/lumbraquay --version").ends(1);
    assert!(
        done.out.is_empty() && done.err.contains("unproved"),
        "{done:#?}"
    );
    assert!(!sandbox.path.join("home/target").exists());
}
