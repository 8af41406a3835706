//! Both engines write the same bytes and are refused alike.

use crate::convert::damaged;
use crate::{as_of_0_3_0, fails, folder, sealing, succeeds, KEY, OF_0_3_0};
use calmbaize::Rounds;

const ENGINES: [&str; 2] = ["step", "run"];

fn by<'a>(engine: &'a str, args: &[&'a str]) -> Vec<&'a str> {
    [args, &["--engine", engine]].concat()
}

/// What both engines write.
fn by_both(args: &[&str], input: &[u8]) -> Vec<u8> {
    let [step, run] = ENGINES.map(|engine| succeeds(&by(engine, args), input));
    assert!(step == run, "{args:?}, {} bytes", input.len());
    run
}

/// Up to twenty whole blocks, with leftovers and without, and the longest messages.
fn lengths() -> impl Iterator<Item = usize> {
    let short = (0..=20).flat_map(|blocks| [0, 77].map(|leftover| blocks * 128 + leftover));
    short.chain([65_535, 65_536])
}

/// Headers are longer than the short messages, and shorter than the others.
fn seals_and_opens_alike(mode: &str) {
    for rounds in Rounds::ALL {
        let rounds = rounds.count().to_string();
        for len in lengths() {
            let message: Vec<u8> = (0..len).map(|at| (at % 251) as u8).collect();
            let header = "a5".repeat(2700_usize.saturating_sub(len));
            let settings = ["--mode", mode, "-r", &rounds, "--header", &header];
            let parcel = by_both(&sealing("seal", &settings), &message);
            let opened = by_both(&sealing("open", &settings), &parcel);
            assert!(opened == message, "{mode}, {rounds} rounds, {len} bytes");
        }
    }
}

#[test]
fn opp_by_both() {
    seals_and_opens_alike("opp");
}

#[test]
fn mro_by_both() {
    seals_and_opens_alike("mro");
}

#[test]
fn both_are_refused_alike() {
    let parcel = damaged(succeeds(&sealing("seal", &[]), &[7; 1000]));
    let long = vec![0; 70_000];
    let header = "00".repeat(4097);
    let short_key = ["seal", "--key", "00", "--nonce", "00"];
    let short_nonce = ["open", "--key", KEY, "--nonce", "00"];
    let cases: [(&[&str], &[u8], &str); 9] = [
        (&sealing("seal", &["-r", "5"]), b"", "2: "),
        (&short_key, b"", "3: "),
        (&short_nonce, b"", "4: "),
        (&sealing("open", &["--header", &header]), b"", "5: "),
        (&sealing("seal", &[]), &long, "6: "),
        (&sealing("open", &[]), &long, "6: "),
        (&sealing("open", &[]), &parcel[..31], "8: "),
        (&sealing("open", &[]), &parcel, "9: tag differs\n"),
        (
            &sealing("open", &["-m", "opp"]),
            &parcel,
            "9: tag differs\n",
        ),
    ];
    for (args, input, refusal) in cases {
        let [step, run] = ENGINES.map(|engine| fails(&by(engine, args), input, 1));
        assert_eq!(step, run);
        let start = format!("calmbaize: refused with {refusal}");
        assert!(run.starts_with(&start), "{run}");
    }
}

#[test]
fn a_refused_run_writes_nothing() {
    let output = folder("engine").join("output");
    let output = output.to_str().unwrap();
    let open = by("run", &sealing("open", &["-o", output]));
    fails(&open, &[1; 200], 1);
    assert!(!std::fs::exists(output).unwrap());
}

/// The old start has one engine, which may be named too.
#[test]
fn an_engine_need_not_be_named() {
    let (mode, old) = OF_0_3_0[0];
    let seal = as_of_0_3_0("seal", mode);
    assert_eq!(succeeds(&seal, b"sale"), by_both(&seal, b"sale"));
    let open = [&as_of_0_3_0("open", mode)[..], &["--old-start"]].concat();
    assert_eq!(succeeds(&by("step", &open), old), b"sale");
}
