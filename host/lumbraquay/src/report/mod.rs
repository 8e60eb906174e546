//! One page of HTML about a recovery. It holds all that it needs: styles and pictures stand in it, and no script.

mod picture;
mod tables;

use library::{ENDED_TORN, ENDED_UNUSED};

use crate::advice;
use crate::mended::Mended;
use crate::plain::plain;
use crate::show;

const STYLE: &str = include_str!("style.css");

/// Text as HTML: nothing in it is taken for a tag, and no letter steers the direction of others.
fn safe(text: &str) -> String {
    let mut html = String::new();
    for letter in plain(text).chars() {
        match letter {
            '&' => html += "&amp;",
            '<' => html += "&lt;",
            '>' => html += "&gt;",
            '"' => html += "&quot;",
            '\'' => html += "&#39;",
            letter => html.push(letter),
        }
    }
    html
}

/// The whole page.
pub fn page(mended: &Mended) -> String {
    let name = mended.pages.path.file_name().unwrap_or_default();
    let name = safe(&name.to_string_lossy());
    let mut html = format!(
        "<!doctype html>\n<html lang=\"en\">\n<meta charset=\"utf-8\">\n\
         <meta http-equiv=\"Content-Security-Policy\" content=\"default-src 'none'; style-src 'unsafe-inline'\">\n\
         <meta name=\"viewport\" content=\"width=device-width, initial-scale=1\">\n\
         <title>Recovery of {name}</title>\n<style>\n{STYLE}</style>\n<main>\n"
    );
    html += &head(mended, &name);
    if mended.answer.number == 0 {
        let changes = mended.changes();
        html += &sums(mended, changes.len());
        html += &section("Pages", &picture::pages(mended));
        html += &section("Transactions over the log", &picture::transactions(mended));
        html += &section("Changed rows", &tables::changes(mended, &changes));
        html += &section("Transactions", &tables::transactions(mended));
    } else {
        html += &section("Pages as they stand", &picture::pages(mended));
    }
    html + &foot(mended) + "</main>\n</html>\n"
}

fn section(title: &str, body: &str) -> String {
    format!("<section>\n<h2>{title}</h2>\n{body}</section>\n")
}

/// The outcome, in one sentence and a colour.
fn head(mended: &Mended, name: &str) -> String {
    let answer = &mended.answer;
    if answer.number != 0 {
        let text = advice::text(answer.verdict(), mended.read());
        let lines: Vec<&str> = text.lines().collect();
        let (first, rest) = lines
            .split_first()
            .map_or(("", &[][..]), |(first, rest)| (*first, rest));
        let mut html = format!(
            "<header class=\"refused\">\n<h1>{name} cannot be recovered by this log</h1>\n<p>{}</p>\n<dl>\n",
            safe(first)
        );
        for line in rest {
            if let Some((name, words)) = line.trim().split_once(": ") {
                html += &format!("<dt>{}</dt><dd>{}</dd>\n", safe(name), safe(words.trim()));
            }
        }
        return html + "</dl>\n</header>\n";
    }
    let outcome = match answer.pages_rewritten {
        0 => "Nothing is to be mended: the log changes no page.".to_string(),
        some => format!(
            "Recovery succeeds: {} of {} {} rewritten.",
            some,
            show::count(mended.pages.count() as u64, "page", "pages"),
            if some == 1 { "is" } else { "are" }
        ),
    };
    let last = format!(
        "its last {} bytes, from offset {} on, are",
        mended.left_out_bytes(),
        answer.tail_offset
    );
    let tail = match answer.ending {
        ENDED_TORN => format!("{last} torn and left out"),
        ENDED_UNUSED => format!("{last} zero, room that was set aside"),
        _ => "nothing of it is torn".to_string(),
    };
    format!(
        "<header class=\"done\">\n<h1>Recovery of {name}</h1>\n<p>{outcome}</p>\n<p>The log reaches LSN {}, and {tail}.</p>\n</header>\n",
        answer.last_lsn
    )
}

/// The numbers that are looked for first.
fn sums(mended: &Mended, changed: usize) -> String {
    let answer = &mended.answer;
    let mut html = String::from("<ul class=\"sums\">\n");
    for (class, number, name) in [
        ("committed", answer.committed, "committed"),
        ("rolled", answer.rolled_back, "rolled back"),
        ("unended", answer.unended, "never ended"),
        ("touched", answer.pages_rewritten, "pages rewritten"),
        ("touched", changed as u64, "rows changed"),
    ] {
        html += &format!("<li class=\"{class}\"><b>{number}</b> {name}</li>\n");
    }
    html + "</ul>\n"
}

fn foot(mended: &Mended) -> String {
    let lines = [
        mended.pages.line(),
        format!("{}, floor {}", mended.log.line(), mended.floor),
    ];
    let lines = lines.map(|line| format!("<p>{}</p>\n", safe(&line)));
    format!("<footer>\n{}</footer>\n", lines.concat())
}
