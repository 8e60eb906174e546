//! `order`: whether a press was seen: the first visible order with its request mark.

use crate::advice::unless_refused;
use crate::args::{Command, Parsed, JSON, MAGIC};
use crate::failure::Failure;
use crate::input::{head_fields, Pages, Read};
use crate::intake::{asked, found_order, mark_of, Order};
use crate::json::Json;
use crate::output::Output;
use crate::show;

pub const COMMAND: Command = Command {
    name: "order",
    about: "says whether an order with a request mark is there",
    takes: &[
        super::PAGES,
        ("MARK", "the request mark: 32 hexadecimal digits, or a UUID, its bytes as written"),
    ],
    options: &[MAGIC, JSON],
    more: "The first visible row counts whose payload has 24 bytes or more and begins with this mark; shorter ones are counted. Rows come\n\
           as they stand in the file: recover it first. The exit status is 0 where there is one, 1 where there is none, 3 refused.",
    run,
};

fn run(parsed: &Parsed, output: &mut Output) -> Result<(), Failure> {
    let text = parsed.word(1);
    let mark = mark_of(&text).ok_or_else(|| {
        parsed.wrong(format!(
            "MARK is '{text}', neither 32 hexadecimal digits nor a UUID"
        ))
    })?;
    let pages = Pages::read(parsed)?;
    let found = library::find_order(pages.magic, &pages.bytes, &mark);
    unless_refused(parsed, output, found.verdict(), Read::pages(&pages))?;

    let is_found = found.found == 1;
    let numbers @ [page, slot, part, quantity] =
        [found.page, found.slot, found.part, found.quantity];
    // With the rest of its row, which the library does not give.
    let order = match is_found {
        true => found_order(&pages, numbers),
        false => None,
    };
    if parsed.flag("--json") {
        let mut fields = head_fields(parsed, "done", found.verdict());
        fields.extend(pages.fields());
        fields.extend([
            ("asked", Json::Text(show::hex(&mark))),
            ("found", is_found.into()),
            ("order", order.as_ref().map_or(Json::Null, Order::fields)),
            ("short_payloads", found.short.into()),
        ]);
        output.line(Json::Object(fields))?;
    } else {
        output.line(pages.line())?;
        let words = match is_found {
            true => {
                let row = order.as_ref().map_or(String::new(), Order::row_words);
                format!("{}{row}", asked(page, slot, part, quantity))
            }
            false => "no visible order has it".to_string(),
        };
        output.line(format_args!("mark {}: {words}", show::hex(&mark)))?;
        output.line(format_args!(
            "{} under 24 bytes passed over",
            show::count(found.short, "visible payload", "visible payloads")
        ))?;
    }
    match is_found {
        true => Ok(()),
        false => Err(Failure::No),
    }
}
