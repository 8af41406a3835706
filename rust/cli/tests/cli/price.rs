//! Amount and listed price of a sale, and stores with sales that have no price.

use crate::store::Till;
use std::fs;

/// A store of four cells as the tool of version 0.7.0 has written it: two sales, and a free cell of
/// zeros behind them.
const OF_0_7_0: [&str; 3] = [
    "02000300000000000000000000000000000000000000000000000000000000000000000000000000000000000000000000000000000000000000000000000000",
    "0000010b0000000100000021222324252627287e149df5effa6f0318333c9d6633ac6fee0b8ce6f4108ad192ca4f7a5809bfe4482acbf60952da0ea22a8fe227",
    "0100010b000000020000003132333435363738bc7dc0cdc218f3a1fde796abe5af010cb4787c3b3f232d7ea2eaf790d1c6ea4f71fdffea6d79f76cf5dbb23d79",
];

/// The first four and the last two bytes of its first sale's clock, as numbers.
const PRICE: u32 = 0x0201_07e8;
const DAY: u16 = 0x0403;

fn of_0_7_0(name: &str) -> Till {
    let till = Till::new(name);
    let digits = OF_0_7_0.concat();
    let byte = |at| u8::from_str_radix(&digits[at..at + 2], 16).unwrap();
    let mut bytes: Vec<u8> = (0..digits.len()).step_by(2).map(byte).collect();
    bytes.resize(4 * 64, 0);
    fs::write(&till.file, bytes).unwrap();
    till
}

/// Changes the kind of a cell in the file.
fn set_kind(till: &Till, cell: usize, kind: u8) {
    let mut bytes = fs::read(&till.file).unwrap();
    assert_ne!(bytes[64 * cell + 2], kind);
    bytes[64 * cell + 2] = kind;
    fs::write(&till.file, bytes).unwrap();
}

fn named<'a>(command: &'a str, sale: &'a str) -> [&'a str; 5] {
    [command, "--machine", "11", "--sale", sale]
}

fn take(till: &Till, sale: &str, amount: &str, price: &str) {
    let rest = [
        "--column=4",
        "--means=coin",
        "--amount",
        amount,
        "--price",
        price,
    ];
    till.keyed_text(&[&named("take", sale)[..], &rest].concat());
}

#[test]
fn amount_and_price() {
    let till = Till::formatted("price", 5);
    for (sale, amount, price) in [
        ("1", "150", "149"),
        ("2", "0", "4294967295"),
        ("3", "5", "0"),
    ] {
        take(&till, sale, amount, price);
        let before = fs::read(&till.file).unwrap();
        let text = till.keyed_text(&named("price", sale));
        assert_eq!(text, format!("amount {amount} price {price}\n"));
        assert_eq!(fs::read(&till.file).unwrap(), before);
    }
    till.refuses(&till.keyed(&named("price", "4")), 16);
    let short = [&till.args(&named("price", "1"))[..], &["--key", "00"]].concat();
    till.refuses(&short, 3);
    let other = "20".repeat(32);
    let wrong = [&till.args(&named("price", "3"))[..], &["--key", &other]].concat();
    let error = till.refuses(&wrong, 9);
    assert!(error.ends_with("tag differs in cell 3\n"), "{error}");
    // The amount comes back, whatever the price.
    assert_eq!(till.keyed_text(&named("cancel", "2")), "0\n");
    assert_eq!(till.keyed_text(&["total"]), "155\n");
}

#[test]
fn a_price_of_zero_is_not_no_price() {
    let till = Till::formatted("no-price", 2);
    take(&till, "1", "150", "0");
    let price = named("price", "1");
    assert_eq!(till.keyed_text(&price), "amount 150 price 0\n");
    set_kind(&till, 1, 1);
    assert_eq!(till.keyed_text(&price), "amount 150 no price\n");
}

#[test]
fn a_store_of_version_0_7_0() {
    let till = of_0_7_0("of-0-7-0");
    let first = "cell 1 machine 11 sale 1 amount 150 column 4 means coin clock e80701020304\n";
    let second = "cell 2 machine 11 sale 2 amount 410 column 9 means card clock 000000000000\n";
    assert_eq!(till.keyed_text(&["list"]), format!("{second}{first}"));
    assert_eq!(till.text(&["check"]), "cells 4 sales 2 free 1\n");
    assert_eq!(
        till.keyed_text(&named("price", "1")),
        "amount 150 no price\n"
    );
    assert_eq!(
        till.keyed_text(&named("price", "2")),
        "amount 410 no price\n"
    );
    let read = till.keyed_text(&named("read", "1"));
    assert_eq!(read.lines().next(), Some(&OF_0_7_0[1][6..]));
    assert_eq!(read.lines().nth(1), first["cell 1 ".len()..].lines().next());
    assert_eq!(till.keyed_text(&["total"]), "150\n");

    // A sale of this version stands beside those.
    assert_eq!(till.take("3", "20", "coin"), "3\n");
    let third = "cell 3 machine 11 sale 3 amount 20 column 4 means coin price 149 day 0\n";
    assert_eq!(
        till.keyed_text(&["list"]),
        format!("{third}{second}{first}")
    );
    assert_eq!(till.text(&["check"]), "cells 4 sales 3 free 0\n");
    assert_eq!(till.keyed_text(&["total"]), "170\n");
    assert_eq!(till.keyed_text(&named("cancel", "1")), "150\n");
    assert_eq!(till.keyed_text(&["total"]), "20\n");
    assert_eq!(till.keyed_text(&named("cancel", "3")), "20\n");
    assert_eq!(till.keyed_text(&["list"]), second);
}

/// What the help says: the kind is the byte before those that are read.
#[test]
fn kinds_are_listed_without_a_key() {
    let till = of_0_7_0("kinds");
    till.take("3", "20", "coin");
    let kinds = [("3", 2), ("2", 1), ("1", 1)];
    let line = |(sale, kind)| format!("cell {sale} machine 11 sale {sale} kind {kind}\n");
    let listed: String = kinds.map(line).concat();
    assert_eq!(till.text(&["list"]), listed);
    let bytes = fs::read(&till.file).unwrap();
    let digits: String = bytes.iter().map(|byte| format!("{byte:02x}")).collect();
    for (sale, kind) in kinds {
        let part = till.text(&named("read", sale));
        let cell = format!("{kind:02x}{}", part.trim_end());
        assert!(digits.contains(&cell), "{cell}");
    }
}

/// What the help says: the kind is not sealed. Amount and total do not depend on it.
#[test]
fn a_changed_kind_shows_a_clock_as_a_price() {
    let till = of_0_7_0("changed-kind");
    set_kind(&till, 1, 2);
    let text = till.keyed_text(&named("price", "1"));
    assert_eq!(text, format!("amount 150 price {PRICE}\n"));
    let listed = till.keyed_text(&["list"]);
    let fields = format!(" amount 150 column 4 means coin price {PRICE} day {DAY}\n");
    assert!(listed.ends_with(&fields), "{listed}");
    assert_eq!(till.keyed_text(&["total"]), "150\n");
    assert_eq!(till.keyed_text(&named("cancel", "1")), "150\n");

    for (cell, kind) in [(2, 0), (2, 3), (3, 2)] {
        let till = of_0_7_0("changed-kind");
        set_kind(&till, cell, kind);
        let error = till.refuses(&till.keyed(&named("price", "1")), 20);
        assert!(error.contains(&format!("cell {cell} ")), "{error}");
    }
}

/// A price and a day with the bytes of a clock are sealed as that was: the kinds alone differ.
#[test]
fn sales_are_sealed_as_by_version_0_7_0() {
    let till = Till::formatted("sealed-alike", 4);
    let (price, day) = (PRICE.to_string(), DAY.to_string());
    let first = [
        "--amount=150",
        "--column=4",
        "--means=coin",
        "--price",
        &price,
        "--day",
        &day,
    ];
    let second = ["--amount=410", "--column=9", "--means=card", "--price=0"];
    let tails = [
        "--nonce-tail=2122232425262728",
        "--nonce-tail=3132333435363738",
    ];
    till.keyed_text(&[&named("take", "1")[..], &first, &tails[..1]].concat());
    till.keyed_text(&[&named("take", "2")[..], &second, &tails[1..]].concat());
    set_kind(&till, 1, 1);
    set_kind(&till, 2, 1);
    let earlier = of_0_7_0("sealed-earlier");
    assert_eq!(
        fs::read(&till.file).unwrap(),
        fs::read(&earlier.file).unwrap()
    );
}
