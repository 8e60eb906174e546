//! `demo`, and the bundled sample that it makes.

use crate::sandbox::{repository, Sandbox};

const FILES: [&str; 3] = ["outage.log", "outage.pages", "outage.pages.recovered"];

#[test]
fn tells_what_became_of_each_order() {
    let sandbox = Sandbox::new();
    let done = sandbox.say("demo --dir .").done();
    for order in 1001..=1009 {
        assert!(done.out.contains(&format!("\n  {order}  ")), "{done:#?}");
    }
    done.says(&[
        "outage.pages: 4 pages, magic 0x313053454e415243 (read off page 0)",
        "torn tail of 61 bytes at offset 1072",
        "2 committed, 1 rolled back, 2 unended",
        "on disk    \"order 1002: 40 hoist ropes for Quay 2\"",
        "recovered  \"order 1002: 4 hoist ropes for Quay 2\"",
        "recovered  \"order 1003: 8 rail buffers for Quay 2\", marked deleted",
        "on disk    \"order 1007: 3 trolley motors for Quay 3\"\n        recovered  no row",
        "9 of 9 orders are as they should be\n",
        "recovered  page 0 slot 1: part 3310, quantity 6; the second press finds the first order\n",
        "recovered  no order has this mark; the second press places the order\n",
        "2 of 2 presses find what they should\n",
    ]);
    assert_eq!(sandbox.names(), FILES);
}

#[test]
fn as_json() {
    let sandbox = Sandbox::new();
    let done = sandbox.say("demo --json --dir new/folder").done().json();
    assert_eq!((done.number("number"), done.text("name")), (0, "DONE"));
    assert_eq!(done.text("directory"), "new/folder");
    assert_eq!(done.at("recovery").number("pages_rewritten"), 2);
    let orders = done.list("orders");
    assert_eq!(orders.len(), 9);
    for order in orders {
        assert!(order.flag("as_it_should_be"), "{order:?}");
    }
    let presses = done.list("second_presses");
    assert_eq!(presses.len(), 2);
    assert!(presses.iter().all(|press| press.flag("as_it_should_be")));
    assert!(presses.iter().all(|press| press.is_null("on_disk")));
    assert_eq!(presses[0].at("recovered").number("part"), 3310);
    assert!(presses[1].is_null("recovered"));
    assert_eq!(orders[2].at("recovered").text("state"), "deleted");
    assert_eq!(orders[6].at("on_disk").text("state"), "live");
    assert_eq!(orders[6].at("recovered").text("state"), "none");
}

#[test]
fn makes_the_bundled_sample() {
    let sandbox = Sandbox::new();
    sandbox.say("demo --dir .").done();
    for name in ["outage.pages", "outage.log"] {
        let bundled = std::fs::read(repository().join("samples").join(name)).unwrap();
        assert!(sandbox.read(name) == bundled, "{name}");
    }
}

#[test]
fn replaces_files_only_by_force() {
    let sandbox = Sandbox::new();
    sandbox.write("outage.pages.recovered", b"mine");
    sandbox
        .say("demo --dir .")
        .fails(&["cannot write ./outage.pages.recovered: it exists already"]);
    assert_eq!(sandbox.names(), ["outage.pages.recovered"]);
    assert_eq!(sandbox.read("outage.pages.recovered"), b"mine");
    sandbox.say("demo --dir . --force").done();
    assert_ne!(sandbox.read("outage.pages.recovered"), b"mine");
    sandbox.say("demo --dir . --force").done();
    assert_eq!(sandbox.names(), FILES);
}

#[test]
fn finds_a_directory_by_itself() {
    let sandbox = Sandbox::new();
    for made in 1..=2 {
        sandbox
            .shell("TMPDIR=. \"$LQ\" demo")
            .done()
            .says(&["9 of 9 orders"]);
        let names = sandbox.names();
        assert_eq!(names.len(), made, "{names:?}");
        assert!(names
            .iter()
            .all(|name| name.starts_with("lumbraquay-demo-")));
    }
    sandbox
        .shell("TMPDIR=./missing \"$LQ\" demo")
        .fails(&["cannot make directory"]);
    sandbox.write("file", b"");
    sandbox
        .say("demo --dir file")
        .fails(&["cannot make directory file"]);
}
