//! `repeats`: whether any request mark stands on two orders.

use crate::advice::unless_refused;
use crate::args::{Choice, Command, Parsed, JSON, MAGIC};
use crate::failure::Failure;
use crate::input::{head_fields, Pages, Read};
use crate::intake::{found_order, repeating, Order};
use crate::json::Json;
use crate::output::Output;
use crate::show;

pub const COMMAND: Command = Command {
    name: "repeats",
    about: "says whether any request mark stands on two orders",
    takes: &[super::PAGES],
    options: &[
        Choice::flag("--all", "list every mark that stands more than once, with all its orders"),
        MAGIC,
        JSON,
    ],
    more: "The pair that is shown is the first order that has its mark again behind it, and the first behind it that has. An order is a\n\
           visible row whose payload has 24 bytes or more. Rows come as they stand in the file: recover it first. The exit status is 0\n\
           whatever is found, 3 refused.",
    run,
};

fn run(parsed: &Parsed, output: &mut Output) -> Result<(), Failure> {
    let pages = Pages::read(parsed)?;
    let pair = library::repeated_orders(pages.magic, &pages.bytes);
    unless_refused(parsed, output, pair.verdict(), Read::pages(&pages))?;

    let is_found = pair.found == 1;
    let both = [
        [pair.page, pair.slot, pair.part, pair.quantity],
        [
            pair.later_page,
            pair.later_slot,
            pair.later_part,
            pair.later_quantity,
        ],
    ];
    let pair: Vec<Order> = match is_found {
        true => both
            .into_iter()
            .filter_map(|numbers| found_order(&pages, numbers))
            .collect(),
        false => Vec::new(),
    };
    // Where there is no pair, no mark stands more than once.
    let all = parsed.flag("--all").then(|| match is_found {
        true => repeating(&pages),
        false => Vec::new(),
    });
    if parsed.flag("--json") {
        let verdict = library::Verdict::default();
        let mut fields = head_fields(parsed, "done", verdict);
        fields.extend(pages.fields());
        fields.push(("found", is_found.into()));
        fields.push(("pair", Json::List(pair.iter().map(Order::fields).collect())));
        if let Some(all) = &all {
            let marks = all.iter().map(|orders| mark_fields(orders)).collect();
            fields.push(("marks", Json::List(marks)));
        }
        return output.line(Json::Object(fields));
    }
    output.line(pages.line())?;
    let Some(order) = pair.first() else {
        return output.line("no mark stands on two orders");
    };
    output.line(format_args!(
        "mark {} stands on two orders, the first pair of all:",
        show::hex(order.mark())
    ))?;
    for order in &pair {
        output.line(format_args!("  {}", order.words()))?;
    }
    for orders in all.iter().flatten() {
        output.line(format_args!(
            "mark {}: {}",
            show::hex(orders[0].mark()),
            show::count(orders.len() as u64, "order", "orders")
        ))?;
        for order in orders {
            output.line(format_args!("  {}", order.words()))?;
        }
    }
    match &all {
        Some(all) => output.line(format_args!(
            "{} more than once",
            show::count(all.len() as u64, "mark stands", "marks stand")
        )),
        None => Ok(()),
    }
}

fn mark_fields(orders: &[Order]) -> Json {
    Json::Object(vec![
        ("mark", Json::Text(show::hex(orders[0].mark()))),
        (
            "orders",
            Json::List(orders.iter().map(Order::fields).collect()),
        ),
    ])
}
