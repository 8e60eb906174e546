//! The constants of the C header are those that Rust callers use, and the refusals those of the proved code and of its
//! rules.

use std::collections::BTreeMap;

use library::refusal::{DONE, REFUSALS};
use library::{
    Answer, Contents, Finding, FoundOrder, FreeMap, Listed, Listing, Record, Repair,
    RepeatedOrders, Row, Step, Summary, SummaryRow, SummaryStep, Table, Verdict, Visible, Written,
};

const HEADER: &str = include_str!("../../../../include/lumbraquay.h");
const CODE: &str = include_str!("../../../../crates/refusals/src/lib.rt");
const RULES: &str = include_str!("../../../../crates/refusals/specs/Refusal.antt");

/// Every `LQ_NAME = number`, `#define LQ_NAME number` and `X(number, LQ_NAME, ..)` of the header.
fn constants() -> BTreeMap<String, u64> {
    let mut constants = BTreeMap::new();
    for line in HEADER.lines() {
        let words: Vec<&str> = line
            .split([' ', ',', '{', '}', '('])
            .filter(|it| !it.is_empty())
            .collect();
        for three in words.windows(3) {
            let (name, number) = match three {
                ["#define", name, number] | [name, "=", number] | ["X", number, name] => {
                    (name, number)
                }
                _ => continue,
            };
            if let (Some(name), Ok(number)) = (name.strip_prefix("LQ_"), number.parse()) {
                let other = constants.insert(name.to_string(), number);
                assert_eq!(other, None, "LQ_{name} stands twice");
            }
        }
    }
    constants
}

/// The constants of an answer: the index of each of its numbers, and how many it has.
fn indices(answer: &str, names: &[&str]) -> Vec<(String, u64)> {
    let index = |(at, name): (u64, &&str)| (format!("{answer}_{}", name.to_uppercase()), at);
    let count = (format!("{answer}_NUMBERS"), names.len() as u64);
    (0..).zip(names).map(index).chain([count]).collect()
}

#[test]
fn names_and_numbers_are_the_same() {
    let mut expected: BTreeMap<String, u64> = [
        ("VERSION", u64::from(library::VERSION)),
        ("PAGE_BYTES", library::PAGE_BYTES as u64),
        ("PAGE_LIMIT", library::PAGE_LIMIT as u64),
        ("LOG_LIMIT_BYTES", library::LOG_LIMIT_BYTES as u64),
        ("STEP_ENTRY", library::STEP_ENTRY),
        ("STEP_END", library::STEP_END),
        ("STEP_TORN", library::STEP_TORN),
        ("STEP_UNUSED", library::STEP_UNUSED),
        ("STEP_DAMAGED", library::STEP_DAMAGED),
        ("ENDED_EXACTLY", library::ENDED_EXACTLY),
        ("ENDED_TORN", library::ENDED_TORN),
        ("ENDED_UNUSED", library::ENDED_UNUSED),
        ("UNENDED", library::UNENDED),
        ("COMMITTED", library::COMMITTED),
        ("ROLLED_BACK", library::ROLLED_BACK),
        ("FROM_NOWHERE", library::FROM_NOWHERE),
        ("FROM_LOG", library::FROM_LOG),
        ("FROM_PAGES", library::FROM_PAGES),
        (
            "DOUBLEWRITE_SLOT_BYTES",
            library::DOUBLEWRITE_SLOT_BYTES as u64,
        ),
        ("HEAP", library::HEAP),
        ("CLUSTERED", library::CLUSTERED),
        ("TABLE_LIMIT_BYTES", library::TABLE_LIMIT_BYTES as u64),
        ("MARK_BYTES", library::MARK_BYTES as u64),
        ("ORDER_BYTES", library::ORDER_BYTES as u64),
        ("DONE", DONE),
    ]
    .map(|(name, number)| (name.to_string(), number))
    .into();
    expected.extend(
        REFUSALS
            .iter()
            .map(|refusal| (refusal.name.to_string(), refusal.number)),
    );
    for (answer, names) in [
        ("LOG_OPEN", &Verdict::NAMES[..]),
        ("LOG_STEP", &Step::NAMES),
        ("VERIFY", &Verdict::NAMES),
        ("RECOVER", &Answer::NAMES),
        ("RECORD", &Record::NAMES),
        ("READ_ROW", &Row::NAMES),
        ("JUDGE", &Finding::NAMES),
        ("NEXT_VISIBLE", &Visible::NAMES),
        ("LIST_VISIBLE", &Listing::NAMES),
        ("ROW", &Listed::NAMES),
        ("FREE_MAP", &FreeMap::NAMES),
        ("DOUBLEWRITE_READ", &Contents::NAMES),
        ("REPAIR", &Repair::NAMES),
        ("DOUBLEWRITE_WRITE", &Written::NAMES),
        ("SUMMARY_WRITE", &Written::NAMES),
        ("SUMMARY_READ", &Summary::NAMES),
        ("SUMMARY_ROW", &SummaryRow::NAMES),
        ("SUMMARY_STEP", &SummaryStep::NAMES),
        ("TABLE_READ", &Table::NAMES),
        ("TABLE_WRITE", &Written::NAMES),
        ("FIND_ORDER", &FoundOrder::NAMES),
        ("REPEATED_ORDERS", &RepeatedOrders::NAMES),
    ] {
        expected.extend(indices(answer, names));
    }
    assert_eq!(constants(), expected);
    assert_eq!(library::version(), library::VERSION);
    assert!(REFUSALS.is_sorted_by(|one, other| one.number < other.number));
}

/// `PAGE_AREA` as the proved code spells it, `PageArea`.
fn in_code(name: &str) -> String {
    name.split('_')
        .map(|word| format!("{}{}", &word[..1], word[1..].to_lowercase()))
        .collect()
}

#[test]
fn refusals_are_one_list() {
    let code: Vec<String> = CODE
        .lines()
        .map(|line| line.trim().to_string())
        .filter(|line| line.starts_with("Refusal::"))
        .collect();
    let rules: Vec<String> = RULES
        .lines()
        .filter(|line| line.contains(" = "))
        .map(String::from)
        .collect();
    let expected = |line: fn(&str, u64) -> String| -> Vec<String> {
        REFUSALS.iter().map(|it| line(it.name, it.number)).collect()
    };
    assert_eq!(
        code,
        expected(|name, number| format!("Refusal::{} => {number},", in_code(name)))
    );
    let mut numbers = expected(|name, number| format!("{} = {number}", name.to_lowercase()));
    numbers.extend(expected(|name, _| {
        format!("number_of {} = {}", in_code(name), name.to_lowercase())
    }));
    assert_eq!(rules, numbers);
}
