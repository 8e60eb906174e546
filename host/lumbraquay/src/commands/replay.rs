//! `replay`: a case of the tests, by its seed, on the library and on the second program.

use std::path::Path;

use compare::{check, sweep, Seen, Told};
use generate::Case;
use library::PAGE_BYTES;

use crate::args::{Choice, Command, Parsed, JSON};
use crate::failure::Failure;
use crate::files;
use crate::json::Json;
use crate::output::Output;
use crate::show;

pub const COMMAND: Command = Command {
    name: "replay",
    about: "compares the library with the second program on a case of the tests",
    takes: &[("SEED", "the number of the case")],
    options: &[
        Choice::value("--count", "N", "so many cases from SEED on, told in sum"),
        Choice::flag(
            "--all",
            "print the steps over the log and the checksums too",
        ),
        Choice::value(
            "--dir",
            "DIR",
            "write the case to SEED.pages and SEED.log in this directory",
        ),
        Choice::flag("--force", "replace these files if they exist"),
        JSON,
    ],
    more: "Exit status 1 means that the two differ.",
    run,
};

fn run(parsed: &Parsed, output: &mut Output) -> Result<(), Failure> {
    let seed = parsed.number(0, u64::MAX)?;
    if let Some(count) = parsed.chosen_number("--count")? {
        if ["--all", "--dir", "--force"]
            .iter()
            .any(|name| parsed.flag(name))
        {
            let what = "--count goes with none of --all, --dir and --force";
            return Err(parsed.wrong(what.to_string()));
        }
        return many(parsed, output, seed, count);
    }
    let case = compare::case(seed);
    if let Some(directory) = parsed.chosen_path("--dir") {
        write(&case, directory, parsed.flag("--force"))?;
    }
    let mut seen = Seen::telling(true);
    check(&case, &mut seen);
    let shown: Vec<&Told> = seen
        .told
        .iter()
        .filter(|told| parsed.flag("--all") || is_telling(told))
        .collect();
    if parsed.flag("--json") {
        let mut fields = vec![("command", "replay".into()), result(&seen)];
        fields.extend(case_fields(&case));
        fields.extend(sum_fields(&seen));
        fields.push((
            "answers",
            Json::List(shown.into_iter().map(told_fields).collect()),
        ));
        output.line(Json::Object(fields))?;
        return agreed(&seen);
    }
    output.line(describe(&case))?;
    for told in shown {
        output.line(&told.call)?;
        output.line(format_args!("  library  {}", told.library))?;
        output.line(format_args!("  oracle   {}", told.oracle))?;
    }
    tell_sum(output, &seen)
}

/// Whether a call is told without --all: steps over the log and checksums are many and alike.
fn is_telling(told: &Told) -> bool {
    let is_one_of_many = told.call.starts_with("log_forward")
        || told.call.starts_with("log_backward")
        || told.call.starts_with("crc32c");
    !is_one_of_many || told.library != told.oracle
}

fn many(parsed: &Parsed, output: &mut Output, seed: u64, count: u64) -> Result<(), Failure> {
    let seen = sweep(seed..seed.saturating_add(count));
    if parsed.flag("--json") {
        let mut fields = vec![
            ("command", "replay".into()),
            result(&seen),
            ("seed", seed.into()),
        ];
        fields.extend(sum_fields(&seen));
        output.line(Json::Object(fields))?;
        return agreed(&seen);
    }
    tell_sum(output, &seen)
}

fn tell_sum(output: &mut Output, seen: &Seen) -> Result<(), Failure> {
    for difference in &seen.differences {
        output.line(format_args!("differs: {difference}"))?;
    }
    output.line(format_args!(
        "{}, {} of each program, {}",
        show::count(seen.cases, "case", "cases"),
        show::count(seen.calls(), "call", "calls"),
        show::count(seen.differences.len() as u64, "difference", "differences"),
    ))?;
    agreed(seen)
}

fn agreed(seen: &Seen) -> Result<(), Failure> {
    match seen.differences.is_empty() {
        true => Ok(()),
        false => Err(Failure::Differs(
            "the library and the second program differ".to_string(),
        )),
    }
}

fn describe(case: &Case) -> String {
    let aim = match case.aim {
        Some(aim) => format!(", made for {} at {}", aim.number, aim.place),
        None => String::new(),
    };
    format!(
        "case {}: {}{aim}; {} pages, {} log bytes; --magic {:#x} --floor {} --records {}",
        case.seed,
        case.kind,
        case.pages.len() / PAGE_BYTES,
        case.log.len(),
        case.magic,
        case.floor,
        case.records
    )
}

fn write(case: &Case, directory: &Path, replace: bool) -> Result<(), Failure> {
    for (ending, bytes) in [("pages", &case.pages), ("log", &case.log)] {
        let path = directory.join(format!("{}.{ending}", case.seed));
        files::write_new(&path, bytes, None, replace)?;
    }
    Ok(())
}

fn case_fields(case: &Case) -> Vec<(&'static str, Json)> {
    vec![
        ("seed", case.seed.into()),
        ("kind", case.kind.into()),
        ("pages", (case.pages.len() / PAGE_BYTES).into()),
        ("log_bytes", case.log.len().into()),
        ("magic", Json::text(format_args!("{:#x}", case.magic))),
        ("floor", case.floor.into()),
        ("records", case.records.into()),
    ]
}

fn result(seen: &Seen) -> (&'static str, Json) {
    let result = if seen.differences.is_empty() {
        "done"
    } else {
        "differs"
    };
    ("result", result.into())
}

fn sum_fields(seen: &Seen) -> Vec<(&'static str, Json)> {
    let differences = seen.differences.iter().map(Json::text).collect();
    vec![
        ("cases", seen.cases.into()),
        ("calls", seen.calls().into()),
        ("differences", Json::List(differences)),
    ]
}

fn told_fields(told: &Told) -> Json {
    Json::Object(vec![
        ("call", Json::text(&told.call)),
        ("library", Json::text(&told.library)),
        ("oracle", Json::text(&told.oracle)),
    ])
}
