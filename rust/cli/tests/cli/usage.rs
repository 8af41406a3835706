//! Options, help, and what is wrong usage.

use crate::{fails, run, sealing, succeeds, KEY, NONCE};
use calmbaize::Rounds;

const COMMANDS: [&[&str]; 14] = [
    &["seal"],
    &["open"],
    &["convert"],
    &["why"],
    &["walk"],
    &["jump"],
    &["store", "format"],
    &["store", "take"],
    &["store", "cancel"],
    &["store", "price"],
    &["store", "total"],
    &["store", "read"],
    &["store", "list"],
    &["store", "check"],
];

fn help(command: &[&str]) -> String {
    let text = succeeds(&[command, &["--help"]].concat(), b"");
    String::from_utf8(text).unwrap()
}

/// Arguments, and what the error says.
const WRONG: [(&[&str], &str); 44] = [
    (&[], "no command"),
    (&["wrap"], "unknown command 'wrap'"),
    (&["seal"], "--key or --key-file is needed"),
    (&["seal", "--key", KEY], "--nonce or --nonce-file is needed"),
    (&["seal", "--steps", "a"], "unknown option '--steps'"),
    (&["seal", "--old-start"], "unknown option '--old-start'"),
    (&["open", "--old-start=yes"], "--old-start takes no value"),
    (
        &["seal", "--engine", "fast"],
        "--engine is step or run; see 'calmbaize seal --help'",
    ),
    (&["open", "--engine="], "--engine is step or run"),
    (
        &["open", "--old-start", "--engine", "run"],
        "--engine run and --old-start exclude each other",
    ),
    (&["convert", "--engine=step"], "unknown option '--engine'"),
    (&["walk", "--engine=run"], "unknown option '--engine'"),
    (
        &["store", "list", "a", "--engine=run"],
        "unknown option '--engine'",
    ),
    (&["convert"], "--key or --key-file is needed"),
    (
        &["convert", "--key", KEY, "-i", "x"],
        "--nonce or --nonce-file is needed; see 'calmbaize convert --help'",
    ),
    (&["convert", "--old-start"], "unknown option '--old-start'"),
    (&["seal", "--key"], "--key needs a value"),
    (
        &["seal", "--key", "0"],
        "the value of --key is not pairs of hexadecimal digits",
    ),
    (
        &["seal", "--key", KEY, "--key", KEY],
        "--key is given twice",
    ),
    (
        &["seal", "-o", "x", "--output=y"],
        "--output is given twice",
    ),
    (
        &["seal", "--key", KEY, "--key-file", "x"],
        "--key and --key-file exclude each other",
    ),
    (&["walk", "--hex=1"], "--hex takes no value"),
    (
        &["jump", "--alpha", "x"],
        "the value of --alpha is not a number in range",
    ),
    (
        &["jump", "-g=-1"],
        "--gamma has '=' behind its long name only",
    ),
    (&["store"], "no command; see 'calmbaize store --help'"),
    (&["store", "open"], "unknown command 'open'"),
    (&["seal", "FILE"], "unknown option 'FILE'"),
    (&["store", "list"], "FILE is needed"),
    (&["store", "list", "-"], "unknown option '-'"),
    (&["store", "check"], "FILE is needed"),
    (
        &["store", "check", "a", "--key=00"],
        "unknown option '--key'",
    ),
    (&["store", "list", "a", "b"], "more than one FILE"),
    (
        &["store", "list", "a", "--sale=1"],
        "unknown option '--sale'",
    ),
    (
        &["store", "format", "a"],
        "--cells or --force is needed; see 'calmbaize store format --help'",
    ),
    (
        &["store", "format", "a", "--cells=2", "--force"],
        "--cells and --force exclude each other",
    ),
    (
        &["store", "format", "a", "--cells=-2"],
        "the value of --cells is not a number in range",
    ),
    (&["store", "total", "a"], "--key or --key-file is needed"),
    (&["store", "cancel", "a", "--sale=1"], "--machine is needed"),
    (&["store", "price"], "FILE is needed"),
    (&["store", "price", "a", "--machine=1"], "--sale is needed"),
    (
        &["store", "price", "a", "--machine=1", "--sale=1"],
        "--key or --key-file is needed; see 'calmbaize store price --help'",
    ),
    (
        &["store", "take", "a", "--clock=000000000000"],
        "unknown option '--clock'",
    ),
    (&["store", "read", "a", "--machine=1"], "--sale is needed"),
    (
        &["store", "read", "a", "--machine=1", "--sale=4294967296"],
        "the value of --sale is not a number in range",
    ),
];

#[test]
fn wrong_usage() {
    for (args, message) in WRONG {
        let error = fails(args, b"", 2);
        assert!(error.contains(message), "{error}");
    }
    let error = fails(&sealing("seal", &["--mode", "gcm"]), b"", 2);
    assert!(
        error.contains("--mode is opp or mro; see 'calmbaize seal --help'"),
        "{error}"
    );
}

/// A key on the command line is seen by others, so it must be asked for by its long name, and is
/// not repeated in an error.
#[test]
fn no_short_option_takes_a_key() {
    let error = fails(&["seal", "-k", KEY, "--nonce", NONCE], b"", 2);
    assert!(error.contains("unknown option '-k'"), "{error}");
    for attached in ["-k=", "--kye=", "--key-fil="] {
        let error = fails(&["seal", &format!("{attached}{KEY}")], b"", 2);
        assert!(!error.contains(KEY), "{error}");
    }
    for command in COMMANDS {
        let help = help(command);
        let mut lines = help.lines();
        let secret = lines.find(|line| line.contains("--key HEX") || line.contains("--start HEX"));
        let keyless = [["store", "format"], ["store", "check"]];
        assert_eq!(
            secret.is_none(),
            keyless.iter().any(|c| c == command),
            "{help}"
        );
        if let Some(secret) = secret {
            assert!(secret.starts_with("      --"), "{help}");
            assert!(lines.next().unwrap().contains("list of processes"));
        }
    }
}

#[test]
fn counts_are_those_of_the_library() {
    let help = help(&["open"]);
    let line = format!("rounds of the permutation: {} [6]", Rounds::LIST);
    assert!(help.contains(&line), "{help}");
    for count in 0..20 {
        let seal = run(&sealing("seal", &["--rounds", &count.to_string()]), b"");
        let allowed = Rounds::try_from(count).is_ok();
        assert_eq!(seal.status.code(), Some(i32::from(!allowed)), "{count}");
    }
}

#[test]
fn help_for_each_command() {
    for command in COMMANDS {
        let (text, name) = (help(command), command.join(" "));
        assert!(
            text.contains(&format!("usage: calmbaize {name} ")),
            "{text}"
        );
        let mut options = text.lines().filter(|line| line.contains(" --"));
        assert!(
            options.all(|line| line.starts_with("  -") || line.starts_with("      --")),
            "{text}"
        );
        assert!(text.lines().all(|line| line.len() <= 80), "{text}");
        let short = succeeds(&[command, &["-h"]].concat(), b"");
        assert_eq!(short, text.as_bytes());
    }
    for (group, usage) in [(&[][..], "COMMAND"), (&["store"], "store COMMAND")] {
        let general = help(group);
        assert!(
            general.contains(&format!("usage: calmbaize {usage}")),
            "{general}"
        );
        assert!(general.lines().all(|line| line.len() <= 80), "{general}");
    }
}

/// What take must be told.
const NEEDED: [&str; 7] = [
    "--machine=11",
    "--sale=1",
    "--amount=150",
    "--column=4",
    "--means=coin",
    "--price=149",
    "--key=00",
];

fn name(option: &str) -> &str {
    option.split('=').next().unwrap()
}

/// What take says, with these options in the place of that name's.
fn take_fails(named: &str, instead: &[&str]) -> String {
    let others = NEEDED.iter().filter(|field| name(field) != named);
    let options: Vec<&str> = others.chain(instead).copied().collect();
    fails(&[&["store", "take", "FILE"], &options[..]].concat(), b"", 2)
}

#[test]
fn every_field_of_a_sale_is_needed() {
    for field in NEEDED {
        let error = take_fails(name(field), &[]);
        let start = format!("calmbaize: {} ", name(field));
        assert!(error.starts_with(&start), "{error}");
        assert!(error.contains(" is needed; "), "{error}");
    }
}

#[test]
fn fields_that_are_out_of_range() {
    let wrong = [
        (
            "--amount=-1",
            "the value of --amount is not a number in range",
        ),
        (
            "--column=65536",
            "the value of --column is not a number in range",
        ),
        ("--means=cash", "--means is coin, card or 0 to 255"),
        ("--means=256", "--means is coin, card or 0 to 255"),
        (
            "--price=4294967296",
            "the value of --price is not a number in range",
        ),
        ("--price=", "the value of --price is not a number in range"),
        ("--day=65536", "the value of --day is not a number in range"),
        (
            "--nonce-tail=000102030405060708",
            "the value of --nonce-tail is not 8 bytes",
        ),
    ];
    for (option, message) in wrong {
        let error = take_fails(name(option), &[option]);
        assert!(error.contains(message), "{error}");
    }
}
