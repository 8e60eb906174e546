//! The header as C and C++ callers use it: caller.c, compiled with every warning on and run over the proved library.

use std::path::{Path, PathBuf};
use std::process::Command;

use library::refusal::{refusal, REFUSALS};

/// The numbers that caller.c prints, from 0 on.
const PRINTED: u64 = 64;

fn repository() -> PathBuf {
    Path::new(env!("CARGO_MANIFEST_DIR")).join("../..")
}

/// The proved library, where host/library/build.rs finds it.
fn proved() -> PathBuf {
    let named = std::env::var_os("LUMBRAQUAY_STATICLIB_DIR").map(PathBuf::from);
    let dir = named.unwrap_or_else(|| repository().join("target/staticlib"));
    dir.join("libcapi.a")
}

/// Compiles caller.c, runs it on the bundled sample, and compares what it prints with the refusals that Rust callers know.
fn call_as(compiler: &str, flags: &[&str]) {
    let program = Path::new(env!("CARGO_TARGET_TMPDIR")).join(format!("caller-{compiler}"));
    let compiled = Command::new(compiler)
        .args(flags)
        .args(["-O2", "-Wall", "-Wextra", "-Wpedantic", "-Werror", "-I"])
        .arg(repository().join("include"))
        .arg(Path::new(env!("CARGO_MANIFEST_DIR")).join("tests/agree/caller.c"))
        .args(["-x", "none"])
        .arg(proved())
        .arg("-o")
        .arg(&program)
        .output()
        .expect("a compiler");
    let said = String::from_utf8_lossy(&compiled.stderr);
    assert!(compiled.status.success(), "{said}");

    let samples = repository().join("samples");
    let ran = Command::new(&program)
        .args([samples.join("outage.pages"), samples.join("outage.log")])
        .output()
        .expect("the compiled program");
    let said = String::from_utf8_lossy(&ran.stderr);
    assert!(ran.status.success(), "{}: {said}", ran.status);

    let mut expected = String::from("0 DONE: done\n");
    for number in 1..PRINTED {
        let (name, when) = match refusal(number) {
            Some(it) => (it.name, it.when),
            None => ("UNKNOWN", "no refusal of this version has this number"),
        };
        expected += &format!("{number} {name}: {when}\n");
    }
    assert_eq!(String::from_utf8_lossy(&ran.stdout), expected);
    assert!(REFUSALS.iter().all(|it| it.number < PRINTED - 1));
}

#[test]
fn c_callers() {
    call_as("cc", &["-std=c99", "-x", "c"]);
}

/// Where there is a C++ compiler.
#[test]
fn cpp_callers() {
    match Command::new("c++").arg("--version").output() {
        Ok(_) => call_as("c++", &["-std=c++11", "-x", "c++"]),
        Err(_) => crate::tell("no C++ compiler: the header was not tried in C++"),
    }
}
