//! Why a parcel won't open: single ones, and folders of them.

use crate::convert::{damaged, new, nonce, sealed, Card};
use crate::{fails, run, run_after, sealing, succeeds, KEY, NONCE};
use reference::{Start, MRO, OPP};

const AS_ASKED: &str = "opens as asked";
const NONE: &str = "none of the sixteen";

/// Exit status, standard output and error.
fn answer(args: &[&str], input: &[u8]) -> (Option<i32>, String, String) {
    let output = run(args, input);
    let [out, error] = [output.stdout, output.stderr].map(String::from_utf8);
    (output.status.code(), out.unwrap(), error.unwrap())
}

/// Asks with the key and nonce of `sealed`, and expects this line.
fn says(asked: &[&str], parcel: &[u8], line: &str) {
    let status = Some(i32::from(line == NONE));
    let expected = (status, format!("{line}\n"), String::new());
    let answer = answer(&sealing("why", asked), parcel);
    assert_eq!(answer, expected, "{asked:?}");
}

/// "tea", without a header.
fn tea(start: Start, mode: u32, rounds: u32) -> Vec<u8> {
    sealed(start, (mode, rounds), [&nonce(), b"", b"tea"])
}

#[test]
fn names_what_opens_and_what_differs() {
    for (parcel, line) in [
        (tea(Start::New, MRO, 6), AS_ASKED),
        (
            tea(Start::Old, MRO, 6),
            "opens with old start, MRO, 6 rounds: start differs",
        ),
        (
            tea(Start::New, OPP, 6),
            "opens with new start, OPP, 6 rounds: mode differs",
        ),
        (
            tea(Start::New, MRO, 12),
            "opens with new start, MRO, 12 rounds: rounds differ",
        ),
        (
            tea(Start::Old, OPP, 4),
            "opens with old start, OPP, 4 rounds: start, mode, rounds differ",
        ),
    ] {
        says(&[], &parcel, line);
        says(&["--mode", "mro", "--rounds", "6"], &parcel, line);
    }
    let asked = ["--old-start", "-m", "opp", "-r", "4"];
    let parcel = tea(Start::Old, OPP, 4);
    says(&asked, &parcel, AS_ASKED);
    assert_eq!(succeeds(&sealing("open", &asked), &parcel), b"tea");
    says(
        &asked,
        &tea(Start::New, OPP, 4),
        "opens with new start, OPP, 4 rounds: start differs",
    );
}

#[test]
fn statuses_and_refusals() {
    let parcel = new(b"tea");
    says(&[], &damaged(parcel.clone()), NONE);
    says(&["--header", "00"], &parcel, NONE);
    let (long, header) = (vec![0; 65_569], "00".repeat(4097));
    let refused: [(&[&str], &[u8], u32); 6] = [
        (&sealing("why", &["-r", "5"]), b"", 2),
        (&["why", "--key", "00", "--nonce", "00"], b"", 3),
        (&["why", "--key", KEY, "--nonce", "00"], b"", 4),
        (&sealing("why", &["--header", &header]), b"", 5),
        (&sealing("why", &[]), &long, 6),
        (&sealing("why", &["--old-start"]), &long[..31], 8),
    ];
    for (args, input, number) in refused {
        let error = fails(args, input, 1);
        let start = format!("calmbaize: refused with {number}: ");
        assert!(error.starts_with(&start), "{error}");
    }
    for (args, message) in [
        (
            &sealing("why", &["--output=x"])[..],
            "unknown option '--output'",
        ),
        (&sealing("why", &["--hex"]), "unknown option '--hex'"),
        (
            &sealing("why", &["--engine=run"]),
            "unknown option '--engine'",
        ),
        (&sealing("why", &["-i", "/nowhere"]), "can't read /nowhere"),
        (&["why", "--key", KEY], "--nonce or --nonce-file is needed"),
    ] {
        let error = fails(args, b"", 2);
        assert!(error.contains(message), "{error}");
    }
    let full = run_after("exec >/dev/full", &sealing("why", &[]), &parcel);
    assert_eq!(full.status.code(), Some(2));
}

/// Asks about a folder, with the header 'post'.
fn why(card: &Card, more: &[&str]) -> (Option<i32>, String, String) {
    let folder = card.folder.to_str().unwrap();
    let why = ["why", "--key", KEY, "--header", "706f7374", "-i", folder];
    answer(&[&why, more].concat(), b"")
}

fn post(start: Start, nonce: [u8; 16], header: &[u8]) -> Vec<u8> {
    sealed(start, (MRO, 6), [&nonce, header, b"tea"])
}

/// Parcels with every outcome, and a name whose line stays one.
fn mixed(name: &str) -> Card {
    let card = Card::new(name);
    let given = post(Start::New, nonce(), b"post");
    // The first two open with their own nonce and header alone.
    card.put("a\n\x1b[2J", post(Start::Old, [1; 16], b"post"));
    card.put("a\n\x1b[2J.nonce", [1; 16]);
    card.put("b", post(Start::New, [2; 16], b"own"));
    card.put("b.nonce", [2; 16]);
    card.put("b.header", b"own");
    card.put("c", &given);
    card.put("c.lock", b"");
    // What is given would open these, but their own counts.
    card.put("d", &given);
    card.put("d.nonce", [4; 16]);
    card.put("e", &given);
    card.put("e.nonce", nonce());
    card.put("e.header", b"");
    card.put("f", &given[..31]);
    card.put("f.nonce", nonce());
    card.put("g.nonce", nonce());
    card
}

#[test]
fn a_folder_with_every_outcome() {
    let card = mixed("why-mixed");
    let passed_over = "g.nonce: passed over: there is no parcel of that name without the ending\n";
    let refused = "f: refused with 8: parcel is under 32 bytes\n";
    let out = "a??[2J: opens with old start, MRO, 6 rounds: start differs\n\
               b: opens as asked\n\
               c: opens as asked\n\
               d: none of the sixteen\n\
               e: none of the sixteen\n\
               opens as asked 2, opens otherwise 1, none of the sixteen 2, refused 1, \
               passed over 1\n";
    let expected = (Some(1), out.into(), [passed_over, refused].concat());
    assert_eq!(why(&card, &["--nonce", NONCE]), expected);

    let failed = "c: c.nonce is not there, and no nonce is given\n";
    let out = "a??[2J: opens with old start, MRO, 6 rounds: start differs\n\
               b: opens as asked\n\
               d: none of the sixteen\n\
               e: none of the sixteen\n\
               opens as asked 1, opens otherwise 1, none of the sixteen 2, refused 1, failed 1, \
               passed over 1\n";
    let expected = (Some(2), out.into(), [passed_over, failed, refused].concat());
    assert_eq!(why(&card, &[]), expected);
}

/// Names, bytes, permissions and times stay.
#[test]
fn nothing_in_a_folder_changes() {
    let card = mixed("why-unchanged");
    let before = card.age();
    why(&card, &["--nonce", NONCE]);
    assert_eq!(card.states(), before);
    // Of a parcel that is named itself, what stands beside it does not count.
    let path = card.path("d").to_str().unwrap().to_string();
    says(&["--header", "706f7374", "-i", &path], b"", AS_ASKED);
    assert_eq!(card.states(), before);
}

/// What opens otherwise is not broken. The start asked holds for all.
#[test]
fn a_folder_in_which_all_opens() {
    let card = Card::new("why-opens");
    card.put("b", post(Start::New, nonce(), b"post"));
    card.put("a", post(Start::Old, nonce(), b"post"));
    for (more, out) in [
        (
            &["--nonce", NONCE][..],
            "a: opens with old start, MRO, 6 rounds: start differs\n\
             b: opens as asked\n",
        ),
        (
            &["--nonce", NONCE, "--old-start"],
            "a: opens as asked\n\
             b: opens with new start, MRO, 6 rounds: start differs\n",
        ),
    ] {
        let counts = "opens as asked 1, opens otherwise 1, none of the sixteen 0, refused 0\n";
        let expected = (Some(0), [out, counts].concat(), String::new());
        assert_eq!(why(&card, more), expected);
    }
    // One that does not open is enough for 1.
    card.put("c", [0; 32]);
    assert_eq!(why(&card, &["--nonce", NONCE]).0, Some(1));
}
