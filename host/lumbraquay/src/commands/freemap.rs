//! `freemap`: which pages are free.

use crate::advice::unless_refused;
use crate::args::{Command, Parsed, JSON, MAGIC};
use crate::failure::Failure;
use crate::input::{head_fields, Pages, Read};
use crate::json::Json;
use crate::output::Output;
use crate::show;

pub const COMMAND: Command = Command {
    name: "freemap",
    about: "lists the free pages",
    takes: &[super::PAGES],
    options: &[MAGIC, JSON],
    more: "The map has one bit for each page, lowest bit first, in hexadecimal digits.",
    run,
};

fn run(parsed: &Parsed, output: &mut Output) -> Result<(), Failure> {
    let pages = Pages::read(parsed)?;
    let mut map = vec![0; pages.count().div_ceil(8)];
    let answer = library::free_map(pages.magic, &pages.bytes, &mut map);
    unless_refused(parsed, output, answer.verdict(), Read::pages(&pages))?;

    let is_free = |page: &u64| map[*page as usize / 8] >> (page % 8) & 1 == 1;
    let free: Vec<u64> = (0..pages.count() as u64).filter(is_free).collect();
    if parsed.flag("--json") {
        let mut fields = head_fields(parsed, "done", answer.verdict());
        fields.extend(pages.fields());
        fields.push(("free", answer.free.into()));
        fields.push((
            "free_pages",
            Json::List(free.into_iter().map(Json::from).collect()),
        ));
        fields.push(("map", Json::text(show::hex(&map))));
        return output.line(Json::Object(fields));
    }
    output.line(pages.line())?;
    output.line(format_args!(
        "{} of {} pages are free",
        answer.free,
        pages.count()
    ))?;
    for page in free {
        output.line(format_args!("  page {page}"))?;
    }
    output.line(format_args!("map: {}", show::hex(&map)))
}
