//! `replay`: the cases of the tests.

use compare::limits;

use crate::sandbox::Sandbox;

#[test]
fn one_case_is_told_call_by_call() {
    let sandbox = Sandbox::new();
    let case = generate::case(7);
    let done = sandbox.say("replay 7").done();
    let head = format!("case 7: {}", case.kind);
    assert!(done.out.starts_with(&head), "{done:#?}");
    let done = done.says(&[
        "\nrecover\n  library  Answer { number: ",
        "\n  oracle   Answer { number: ",
        ", 0 differences\n",
    ]);
    assert!(!done.out.contains("log_forward"));
    sandbox
        .say("replay 7 --all")
        .done()
        .says(&["\nlog_forward from ", "\ncrc32c of log "]);

    let json = sandbox.say("replay 7 --json").done().json();
    assert_eq!((json.number("seed"), json.number("cases")), (7, 1));
    assert_eq!(json.text("kind"), case.kind);
    assert!(json.number("calls") > 20 && json.list("differences").is_empty());
    for answer in json.list("answers") {
        assert_eq!(answer.text("library"), answer.text("oracle"));
    }
}

#[test]
fn many_cases_are_told_in_sum() {
    let sandbox = Sandbox::new();
    let done = sandbox.say("replay 100 --count 50").done();
    assert!(
        done.out.starts_with("50 cases, ") && done.out.ends_with(", 0 differences\n"),
        "{done:#?}"
    );
    let json = sandbox.say("replay 100 --count 50 --json").done().json();
    assert_eq!(json.number("cases"), 50);
    assert_eq!(
        sandbox
            .say("replay 18446744073709551615 --count 9")
            .done()
            .out
            .lines()
            .count(),
        1
    );
}

#[test]
fn cases_at_the_limits_have_seeds_too() {
    let sandbox = Sandbox::new();
    let (seed, name, number) = limits()
        .find(|(_, name, _)| *name == "one slot more")
        .expect("a case");
    sandbox.say(&format!("replay {seed}")).done().says(&[
        &format!("case {seed}: {name}, made for {number} at 0"),
        "\nrecover\n  library  Answer { number: 14, place: 0,",
    ]);
}

/// The files of a case are given to the other commands.
#[test]
fn cases_are_written_to_files() {
    let sandbox = Sandbox::new();
    let seed = 12;
    let case = generate::case(seed);
    sandbox.say(&format!("replay {seed} --dir .")).done();
    assert_eq!(
        sandbox.names(),
        [format!("{seed}.log"), format!("{seed}.pages")]
    );
    assert!(sandbox.read(&format!("{seed}.pages")) == case.pages);
    assert!(sandbox.read(&format!("{seed}.log")) == case.log);
    sandbox
        .say(&format!("replay {seed} --dir ."))
        .fails(&["it exists already; --force replaces it"]);
    sandbox.write(&format!("{seed}.log"), b"another");
    sandbox
        .say(&format!("replay {seed} --dir . --force"))
        .done();
    assert!(sandbox.read(&format!("{seed}.log")) == case.log);
    sandbox
        .say(&format!("replay {seed} --dir missing"))
        .fails(&["cannot write missing/12.pages"]);
}
