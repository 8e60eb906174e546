//! `report`: a page of HTML that holds all it needs, and nothing that files could put into it.

use generate::{live_tuple, log_header, DataPage, Entry, Slots};

use crate::sandbox::Sandbox;

const MAGIC: u64 = u64::from_le_bytes(*b"CRANES01");

/// Every tag that needs an end has one, and nothing is fetched or run.
fn assert_sound(html: &str) {
    assert!(html.starts_with("<!doctype html>\n<html lang=\"en\">") && html.ends_with("</html>\n"));
    for tag in [
        "main", "header", "section", "div", "table", "tr", "td", "svg", "g", "title", "text", "ul",
        "li", "dl", "p", "span", "code", "small", "footer", "style", "h1", "h2",
    ] {
        let starts =
            html.matches(&format!("<{tag}>")).count() + html.matches(&format!("<{tag} ")).count();
        assert_eq!(starts, html.matches(&format!("</{tag}>")).count(), "{tag}");
    }
    for never in [
        "<script", "src=", "href=", "url(", "@import", "://", "onload",
    ] {
        assert!(!html.contains(never), "{never}");
    }
    assert!(html.contains("default-src 'none'"));
}

fn read(sandbox: &Sandbox, name: &str) -> String {
    String::from_utf8(sandbox.read(name)).unwrap()
}

#[test]
fn tells_of_unused_room() {
    let sandbox = Sandbox::with_outage();
    let mut log = sandbox.read("outage.log");
    log.truncate(1_072);
    log.resize(2_000, 0);
    sandbox.write("outage.log", &log);
    sandbox.say("report outage.pages outage.log").done();
    let html = read(&sandbox, "report.html");
    assert_sound(&html);
    for text in [
        "its last 928 bytes, from offset 1072 on, are zero, room that was set aside",
        "<title>unused, from offset 1072 on</title>",
    ] {
        assert!(html.contains(text), "no '{text}' in {html}");
    }
}

#[test]
fn tells_all_of_the_outage() {
    let sandbox = Sandbox::with_outage();
    let before = sandbox.contents();
    sandbox
        .say("report outage.pages outage.log")
        .done()
        .says(&["pages:        2 of 4 rewritten\nreport: written to report.html\n"]);
    let html = read(&sandbox, "report.html");
    assert_sound(&html);
    for text in [
        "<h1>Recovery of outage.pages</h1>",
        "Recovery succeeds: 2 of 4 pages are rewritten.",
        "its last 61 bytes, from offset 1072 on, are torn and left out",
        "<b>2</b> committed",
        "<b>5</b> rows changed",
        "&quot;order 1002: 40 hoist ropes for Quay 2&quot;",
        "taken back: transaction 9, from LSN 107 on",
        "<title>page 1, data, 264 of 16320 bytes taken, 4 slots, rewritten</title>",
        "<title>page 3, free</title>",
        "<title>transaction 8, rolled back, 1 change</title>",
        "<span class=\"mark touched\"></span>rewritten",
        "<span class=\"mark unended\"></span>never ended</td>",
        "<title>checkpoint at offset 986</title>",
    ] {
        assert!(html.contains(text), "no '{text}' in {html}");
    }
    assert_eq!(html.matches("<g class=").count(), 4);
    std::fs::remove_file(sandbox.path.join("report.html")).unwrap();
    assert!(sandbox.contents() == before);
}

#[test]
fn goes_where_it_is_told() {
    let sandbox = Sandbox::with_outage();
    let words = "report outage.pages outage.log";
    sandbox
        .say(&format!("{words} --out new.html --quiet"))
        .done();
    sandbox
        .say(&format!("{words} --out new.html"))
        .fails(&["it exists already; --force replaces it"]);
    sandbox
        .say(&format!("{words} --out new.html --force"))
        .done();
    sandbox
        .say(&format!("{words} --out outage.log --force"))
        .fails(&["it is one of the files that are read"]);
    let piped = sandbox.say(&format!("{words} --out -")).done();
    assert_eq!(piped.out, read(&sandbox, "new.html"));
    let told = sandbox.say(&format!("{words} --json")).done().json();
    assert_eq!(
        (told.text("written_to"), told.number("pages_rewritten")),
        ("report.html", 2)
    );
}

#[test]
fn shows_a_refusal() {
    let sandbox = Sandbox::with_outage();
    let mut pages = sandbox.read("outage.pages");
    pages[40_000] ^= 1;
    sandbox.write("outage.pages", &pages);
    sandbox
        .say("report outage.pages outage.log")
        .refuses(&["refused: 18 PAGE_CHECKSUM at page 2"])
        .says(&["report: written to report.html\n"]);
    let html = read(&sandbox, "report.html");
    assert_sound(&html);
    for text in [
        "cannot be recovered by this log",
        "refused: 18 PAGE_CHECKSUM at page 2",
        "<dt>what to do</dt><dd>the page is torn or damaged: put it back",
        "<g class=\"data faulty\"><title>page 2, ",
        "<span class=\"mark unended\"></span>refused",
    ] {
        assert!(html.contains(text), "no '{text}' in {html}");
    }
    assert!(!html.contains("rewritten"));
}

/// Whatever rows and file names hold is shown as text.
#[test]
fn nothing_gets_in() {
    let sandbox = Sandbox::new();
    let evil = "</code><script src=x>alert('1')</script>&lt;\u{202e}";
    let row = live_tuple(3, evil.as_bytes());
    let page = DataPage::plain(MAGIC, 0, 1, Slots::new()).packed();
    let name = "<img onload=x>.pages";
    sandbox.write(name, &page);
    let mut log = log_header(&[0; 26]);
    log.extend(Entry::insert(0, 0, 0, &row).with_lsn(4).encode());
    sandbox.write("log", &log);
    sandbox.run(&["report", name, "log"]).done();
    let html = read(&sandbox, "report.html");
    for text in [
        "&lt;/code&gt;&lt;script src=x&gt;alert(&#39;1&#39;)&lt;/script&gt;&amp;lt;\\u{202e}",
        "<h1>Recovery of &lt;img onload=x&gt;.pages</h1>",
    ] {
        assert!(html.contains(text), "no '{text}' in {html}");
    }
    let tags = html
        .replace("&lt;script src=x&gt;", "")
        .replace("&lt;img onload=x&gt;", "");
    assert_sound(&tags);
}

/// Pages and logs at their largest, and random ones, give a page too.
#[test]
fn every_case_gives_a_page() {
    let sandbox = Sandbox::new();
    let mut done = 0;
    for case in (0..60)
        .map(generate::case)
        .filter(|case| !case.pages.is_empty())
    {
        sandbox.write("pages", &case.pages);
        sandbox.write("log", &case.log);
        let words = format!(
            "report pages log --force --quiet --magic {} --floor {}",
            case.magic, case.floor
        );
        let ended = sandbox.say(&words);
        assert!(matches!(ended.status, Some(0 | 3)), "{ended:#?}");
        assert_sound(&read(&sandbox, "report.html"));
        done += u64::from(ended.status == Some(0));
    }
    assert!(done > 10);
}
