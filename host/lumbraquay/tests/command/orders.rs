//! `order` and `repeats`: what they print is what the library and the second program say.

use std::collections::BTreeMap;

use generate::{live_tuple, mark_again, orders, plain_page, DataPage, Mark, Orders, Rng, Slots};

use crate::json::Value;
use crate::sandbox::{repository, Sandbox};

const MAGIC: u64 = u64::from_le_bytes(*b"CRANES01");
const META: u8 = 0;

const QUAY_1: Mark = *b"press by Quay 1.";
const QUAY_4: Mark = *b"press by Quay 4.";
const QUAY_6: Mark = *b"press by Quay 6.";

fn payload(mark: Mark, part: u32, quantity: u32, rest: &[u8]) -> Vec<u8> {
    let numbers = [part.to_le_bytes(), quantity.to_le_bytes()].concat();
    [&mark[..], &numbers, rest].concat()
}

/// The bundled orders: one of Quay 1 cancelled and made anew, one of Quay 4 pressed twice, a row that is no order, one of
/// Quay 6, and that of Quay 1 pressed again.
fn bundled() -> Vec<u8> {
    let mut cancelled = live_tuple(2, &payload(QUAY_1, 7012, 2, b""));
    cancelled[8..16].copy_from_slice(&6u64.to_le_bytes());
    cancelled[16] = 1;
    let rows = [
        cancelled,
        live_tuple(6, &payload(QUAY_1, 7012, 4, b"")),
        live_tuple(7, &payload(QUAY_4, 3310, 6, b"for Quay 4")),
        live_tuple(7, b"stock note"),
        live_tuple(8, &payload(QUAY_4, 3310, 6, b"pressed again")),
        live_tuple(8, &payload(QUAY_6, 118, 12, b"")),
        live_tuple(9, &payload(QUAY_1, 7012, 4, b"pressed again")),
    ];
    let slots: Slots = (0..).zip(rows).collect();
    [
        plain_page(MAGIC, META, 0, 0),
        DataPage::plain(MAGIC, 1, 90, slots).packed(),
    ]
    .concat()
}

fn hex(bytes: &[u8]) -> String {
    bytes.iter().map(|byte| format!("{byte:02x}")).collect()
}

fn with_orders() -> Sandbox {
    let sandbox = Sandbox::new();
    sandbox.write("orders.pages", &bundled());
    sandbox
}

#[test]
fn the_bundled_orders() {
    let sample = std::fs::read(repository().join("samples/orders.pages")).unwrap();
    assert!(sample == bundled());
}

#[test]
fn order_in_words() {
    let sandbox = with_orders();
    let order = |mark: &str, status| {
        let done = sandbox.say(&format!("order orders.pages {mark}"));
        done.ends(status)
    };
    let quay_4 = "7072657373206279205175617920342e";
    for mark in [
        quay_4,
        "7072657373206279205175617920342E",
        "70726573-7320-6279-2051-75617920342e",
    ] {
        order(mark, 0).says(&[
            "orders.pages: 2 pages, magic 0x313053454e415243 (read off page 0)\n",
            &format!("mark {quay_4}: page 1 slot 2: part 3310, quantity 6; xmin 7, payload of 34 bytes at offset "),
            " of the pages, then \"for Quay 4\"\n1 visible payload under 24 bytes passed over\n",
        ]);
    }
    // The cancelled order of the same mark is passed over.
    order(&hex(&QUAY_1), 0).says(&["page 1 slot 1: part 7012, quantity 4; xmin 6"]);
    let none = order(&hex(b"press by Quay 5."), 1);
    assert_eq!(none.err, "");
    none.says(&[
        "mark 7072657373206279205175617920352e: no visible order has it\n1 visible payload under",
    ]);
    for wrong in [
        "7",
        "7072657373206279205175617920342",
        "70726573-73206279-2051-75617920342e",
    ] {
        order(wrong, 2);
    }
    sandbox
        .say("order orders.pages 7")
        .fails(&["MARK is '7', neither 32 hexadecimal digits nor a UUID"]);
    sandbox
        .say("order orders.pages")
        .fails(&["MARK is missing: the request mark"]);
    sandbox
        .say(&format!("order orders.pages {quay_4} --magic 7"))
        .ends(3);
}

#[test]
fn repeats_in_words() {
    let sandbox = with_orders();
    let quay_1 = hex(&QUAY_1);
    let pair = sandbox.say("repeats orders.pages").done().says(&[
        "orders.pages: 2 pages, magic 0x313053454e415243 (read off page 0)\n",
        &format!("mark {quay_1} stands on two orders, the first pair of all:\n"),
        "  page 1 slot 1: part 7012, quantity 4; xmin 6, payload of 24 bytes at offset ",
        "  page 1 slot 6: part 7012, quantity 4; xmin 9, payload of 37 bytes at offset ",
        " of the pages, then \"pressed again\"\n",
    ]);
    assert!(!pair.out.contains(&hex(&QUAY_4)));
    sandbox.say("repeats orders.pages --all").done().says(&[
        &format!("mark {quay_1}: 2 orders\n"),
        &format!("mark {}: 2 orders\n", hex(&QUAY_4)),
        "\n2 marks stand more than once\n",
    ]);
    sandbox.write("none.pages", &bundled()[..16_384]);
    for words in ["repeats none.pages", "repeats none.pages --all"] {
        sandbox
            .say(words)
            .done()
            .says(&["no mark stands on two orders\n"]);
    }
    sandbox.say("repeats orders.pages --magic 7").ends(3);
}

/// Random orders and marks.
fn cases() -> impl Iterator<Item = (Orders, Mark)> {
    (0..60).map(|seed| {
        let mut rng = Rng::new(seed);
        let orders = orders(&mut rng);
        let mark = mark_again(&mut rng, &orders.rows);
        (orders, mark)
    })
}

fn place(order: &Value) -> [u64; 4] {
    ["page", "slot", "part", "quantity"].map(|name| order.number(name))
}

#[test]
fn order_as_json() {
    let sandbox = Sandbox::new();
    let mut seen = [0; 2];
    for (own, mark) in cases() {
        sandbox.write("pages", &own.pages);
        let expected = oracle::find_order(own.magic, &own.pages, &mark);
        assert_eq!(expected.number, 0);
        seen[expected.found as usize] += 1;
        let words = format!("order pages {} --magic {} --json", hex(&mark), own.magic);
        let told = sandbox.say(&words).ends(1 - expected.found as i32).json();
        assert_eq!(told.text("result"), "done");
        assert_eq!(told.text("asked"), hex(&mark));
        assert_eq!(told.flag("found"), expected.found == 1);
        assert_eq!(told.number("short_payloads"), expected.short);
        match expected.found {
            1 => {
                let order = told.at("order");
                assert_eq!(
                    place(order),
                    [
                        expected.page,
                        expected.slot,
                        expected.part,
                        expected.quantity
                    ]
                );
                assert!(order.text("payload").starts_with(order.text("mark")));
            }
            _ => assert!(told.is_null("order")),
        }
    }
    assert!(seen.iter().all(|&times| times > 5), "{seen:?}");
}

#[test]
fn repeats_as_json() {
    let sandbox = Sandbox::new();
    let mut seen = [0; 2];
    for (own, _) in cases() {
        sandbox.write("pages", &own.pages);
        let expected = oracle::repeated_orders(own.magic, &own.pages);
        seen[expected.found as usize] += 1;
        let words = format!("repeats pages --all --magic {} --json", own.magic);
        let told = sandbox.say(&words).done().json();
        assert_eq!(told.flag("found"), expected.found == 1);
        let pair: Vec<[u64; 4]> = told.list("pair").iter().map(place).collect();
        match expected.found {
            1 => assert_eq!(
                pair,
                [
                    [
                        expected.page,
                        expected.slot,
                        expected.part,
                        expected.quantity
                    ],
                    [
                        expected.later_page,
                        expected.later_slot,
                        expected.later_part,
                        expected.later_quantity
                    ]
                ]
            ),
            _ => assert!(pair.is_empty()),
        }
        // Every mark that stands more than once, with each of its orders, by its first.
        let mut marks: BTreeMap<&[u8], Vec<(u64, u64)>> = BTreeMap::new();
        for row in own.rows.iter().filter(|row| row.is_visible) {
            if row.payload.len() >= 24 {
                let at = (row.page, row.slot.into());
                marks.entry(&row.payload[..16]).or_default().push(at);
            }
        }
        let mut repeating: Vec<(String, Vec<(u64, u64)>)> = marks
            .into_iter()
            .filter(|(_, places)| places.len() > 1)
            .map(|(mark, places)| (hex(mark), places))
            .collect();
        repeating.sort_by_key(|(_, places)| places[0]);
        let told: Vec<(String, Vec<(u64, u64)>)> = told
            .list("marks")
            .iter()
            .map(|of| {
                let places = of.list("orders").iter();
                let places = places.map(|it| (it.number("page"), it.number("slot")));
                (of.text("mark").to_string(), places.collect())
            })
            .collect();
        assert_eq!(told, repeating);
    }
    assert!(seen.iter().all(|&times| times > 10), "{seen:?}");
}
