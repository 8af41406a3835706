//! The commands over a store of sales in a file.

use crate::files::{mode, names, set_mode, FILES_OF_ONE_BLOCK, NO_FILES};
use crate::{fails, folder, run, run_after, succeeds, Link, KEY, TOOL};
use std::fs;
use std::path::{Path, PathBuf};
use std::process::{Command, Stdio};

/// A store in a folder of its own.
pub struct Till {
    folder: PathBuf,
    pub file: String,
}

impl Till {
    pub fn new(name: &str) -> Self {
        let folder = folder(name);
        let file = folder.join("till").to_str().unwrap().to_string();
        Self { folder, file }
    }

    pub fn formatted(name: &str, cells: u32) -> Self {
        let till = Self::new(name);
        let cells = cells.to_string();
        assert_eq!(till.text(&["format", "--cells", &cells]), "");
        till
    }

    pub fn args<'a>(&'a self, command: &[&'a str]) -> Vec<&'a str> {
        [&["store", command[0], &self.file], &command[1..]].concat()
    }

    /// With the key.
    pub fn keyed<'a>(&'a self, command: &[&'a str]) -> Vec<&'a str> {
        [&self.args(command)[..], &["--key", KEY]].concat()
    }

    pub fn text(&self, command: &[&str]) -> String {
        String::from_utf8(succeeds(&self.args(command), b"")).unwrap()
    }

    pub fn keyed_text(&self, command: &[&str]) -> String {
        String::from_utf8(succeeds(&self.keyed(command), b"")).unwrap()
    }

    /// Refused with a number, which leaves the file as it was and nothing beside it.
    pub fn refuses(&self, args: &[&str], number: u32) -> String {
        let before = fs::read(&self.file).ok();
        let left = names(&self.folder).len();
        let error = fails(args, b"", 1);
        let start = format!("calmbaize: refused with {number}: ");
        assert!(error.starts_with(&start), "{args:?}: {error}");
        assert_eq!(fs::read(&self.file).ok(), before);
        assert_eq!(names(&self.folder).len(), left);
        error
    }

    /// The options of a sale.
    pub fn take(&self, sale: &str, amount: &str, means: &str) -> String {
        self.keyed_text(&sale_options(sale, amount, means))
    }

    fn lock(&self) -> PathBuf {
        self.folder.join("till.lock")
    }
}

fn sale_options<'a>(sale: &'a str, amount: &'a str, means: &'a str) -> Vec<&'a str> {
    let machine = ["take", "--machine", "11", "--column", "4"];
    let rest = ["--sale", sale, "--amount", amount, "--means", means];
    [&machine[..], &rest, &["--price", "149"]].concat()
}

#[test]
fn a_day_at_a_machine() {
    let till = Till::formatted("day", 4);
    assert_eq!(fs::read(&till.file).unwrap().len(), 4 * 64);
    assert_eq!(till.keyed_text(&["total"]), "0\n");
    assert_eq!(till.text(&["list"]), "");
    assert_eq!(till.take("1", "150", "coin"), "1\n");
    assert_eq!(till.take("2", "4294967295", "coin"), "2\n");
    assert_eq!(till.take("3", "410", "card"), "3\n");
    till.refuses(&till.keyed(&sale_options("3", "1", "coin")), 16);
    till.refuses(&till.keyed(&sale_options("4", "1", "coin")), 15);
    assert_eq!(till.keyed_text(&["total"]), "4294967445\n");
    let second = ["cancel", "--machine", "11", "--sale", "2"];
    assert_eq!(till.keyed_text(&second), "4294967295\n");
    till.refuses(&till.keyed(&second), 16);
    assert_eq!(till.keyed_text(&["total"]), "150\n");
    assert_eq!(till.take("2", "20", "255"), "2\n");
    assert_eq!(
        till.keyed_text(&["list"]),
        "cell 2 machine 11 sale 2 amount 20 column 4 means 255 price 149 day 0\n\
         cell 3 machine 11 sale 3 amount 410 column 4 means card price 149 day 0\n\
         cell 1 machine 11 sale 1 amount 150 column 4 means coin price 149 day 0\n"
    );
    assert_eq!(names(&till.folder), ["till"]);
}

#[test]
fn every_field_is_kept() {
    let till = Till::formatted("fields", 2);
    let take = [
        "take",
        "--machine=4294967295",
        "--sale=16909060",
        "--amount=4294967294",
        "--column=65535",
        "--means=2",
        "--price=4294967293",
        "--day=65534",
        "--nonce-tail=2122232425262728",
    ];
    assert_eq!(till.keyed_text(&take), "1\n");
    let fields = "machine 4294967295 sale 16909060 amount 4294967294 column 65535 \
                  means card price 4294967293 day 65534\n";
    let read = ["read", "--machine=4294967295", "--sale=16909060"];
    let hex = till.text(&read);
    assert_eq!(till.keyed_text(&read), format!("{hex}{fields}"));
    assert_eq!(till.keyed_text(&["list"]), format!("cell 1 {fields}"));
    let clear = "cell 1 machine 4294967295 sale 16909060 kind 2\n";
    assert_eq!(till.text(&["list"]), clear);

    let bytes = fs::read(&till.file).unwrap();
    let digits: String = bytes[67..]
        .iter()
        .map(|byte| format!("{byte:02x}"))
        .collect();
    assert_eq!(hex, digits + "\n");
    assert!(hex.starts_with("ffffffff040302012122232425262728"), "{hex}");
    let output = till.folder.join("part");
    let read = [&read[..], &["-o", output.to_str().unwrap()]].concat();
    assert_eq!(till.text(&read), "");
    assert_eq!(fs::read(&output).unwrap(), bytes[67..]);
    assert_eq!(till.keyed_text(&read), fields);
}

#[test]
fn the_store_is_not_written_over_by_a_sale() {
    let till = Till::formatted("written-over", 2);
    till.take("1", "150", "coin");
    let bytes = fs::read(&till.file).unwrap();
    let link = Link::new("till", till.folder.join("link"));
    for output in [&till.file, link.0.to_str().unwrap()] {
        let read = till.args(&["read", "-o", output, "--machine=11", "--sale=1"]);
        let error = fails(&read, b"", 2);
        assert!(error.contains("--output is the store itself"), "{error}");
        assert_eq!(fs::read(&till.file).unwrap(), bytes);
    }
}

#[test]
fn keys_come_from_files_too() {
    let till = Till::formatted("key-file", 2);
    let key = till.folder.join("key");
    fs::write(&key, (0..32).collect::<Vec<u8>>()).unwrap();
    let file = ["--key-file", key.to_str().unwrap()];
    let take = till.args(&sale_options("1", "150", "coin"));
    assert_eq!(succeeds(&[&take[..], &file].concat(), b""), b"1\n");
    assert_eq!(till.keyed_text(&["total"]), "150\n");
    fs::write(&key, [0; 31]).unwrap();
    till.refuses(&[&till.args(&["total"])[..], &file].concat(), 3);
}

#[test]
fn tails_are_fresh() {
    let till = Till::formatted("tails", 3);
    till.take("1", "150", "coin");
    till.take("2", "150", "coin");
    let bytes = fs::read(&till.file).unwrap();
    assert_ne!(bytes[64 + 11..64 + 19], bytes[128 + 11..128 + 19]);
}

#[test]
fn a_file_that_is_there_is_formatted_on_demand_only() {
    let till = Till::formatted("format", 3);
    till.take("1", "150", "coin");
    let before = fs::read(&till.file).unwrap();
    let error = fails(&till.args(&["format", "--cells=3"]), b"", 2);
    assert!(error.contains("till: it is there already"), "{error}");
    assert_eq!(fs::read(&till.file).unwrap(), before);
    assert_eq!(till.text(&["format", "--force"]), "");
    assert_eq!(till.keyed_text(&["total"]), "0\n");
    assert_eq!(fs::read(&till.file).unwrap().len(), before.len());

    let link = Link::new("nowhere", till.folder.join("link"));
    let format = ["store", "format", link.0.to_str().unwrap(), "--cells=3"];
    let error = fails(&format, b"", 2);
    assert!(error.contains("link: it is there already"), "{error}");
    assert_eq!(names(&till.folder).len(), 2);
}

#[test]
fn lengths_of_a_store() {
    for (cells, right) in [("0", false), ("1", false), ("1024", true), ("1025", false)] {
        let till = Till::new("lengths");
        let format = till.args(&["format", "--cells", cells]);
        if right {
            assert_eq!(succeeds(&format, b""), b"");
        } else {
            till.refuses(&format, 18);
            assert!(!Path::new(&till.file).exists());
        }
    }
    let till = Till::new("lengths");
    till.refuses(
        &till.args(&["format", "--cells", "18446744073709551615"]),
        18,
    );
    for len in [0, 64, 127, 129, 65_537, 65_600, 200_000] {
        fs::write(&till.file, vec![0; len]).unwrap();
        till.refuses(&till.args(&["format", "--force"]), 18);
    }
}

#[test]
fn what_is_no_store_is_refused() {
    let till = Till::new("no-store");
    let named = ["--machine", "11", "--sale", "1"];
    let length = "store is not 128 to 65,536 bytes in cells of 64\n";
    let index = "index held by cell 0 is past the last cell, or of a cell reached before; \
                 see 'calmbaize store check FILE'\n";
    let kind = "cell 1 is in neither chain, or its kind does not fit its chain; \
                see 'calmbaize store check FILE'\n";
    for (content, number, text) in [
        (vec![], 18, length),
        (b"150 cents".to_vec(), 18, length),
        (vec![0; 65_600], 18, length),
        (vec![1; 128], 19, index),
        (vec![0; 128], 20, kind),
    ] {
        fs::write(&till.file, content).unwrap();
        let calls = [
            till.keyed(&sale_options("1", "150", "coin")),
            [&till.keyed(&["cancel"])[..], &named].concat(),
            [&till.keyed(&["price"])[..], &named].concat(),
            till.keyed(&["total"]),
            [&till.args(&["read"])[..], &named].concat(),
            till.args(&["list"]),
        ];
        for call in calls {
            let error = till.refuses(&call, number);
            assert!(error.ends_with(&format!(": {text}")), "{error}");
        }
    }
    // A key of another length counts first.
    till.refuses(&[&till.args(&["total"])[..], &["--key", "00"]].concat(), 3);
    fs::remove_file(&till.file).unwrap();
    let error = fails(&till.args(&["list"]), b"", 2);
    assert!(error.contains("can't read "), "{error}");
    let error = fails(&till.args(&["format", "--force"]), b"", 2);
    assert!(error.contains("can't change "), "{error}");
    let folder = ["store", "format", till.folder.to_str().unwrap(), "--force"];
    let error = fails(&folder, b"", 2);
    assert!(error.contains("it is no file"), "{error}");
}

#[test]
fn sales_that_wont_open() {
    let till = Till::formatted("damaged", 4);
    for sale in ["1", "2", "3"] {
        till.take(sale, "150", "coin");
    }
    let mut bytes = fs::read(&till.file).unwrap();
    for cell in [1, 2] {
        bytes[cell * 64 + 30] ^= 1;
    }
    fs::write(&till.file, bytes).unwrap();
    let named = ["--machine", "11", "--sale", "1"];
    for command in ["cancel", "price"] {
        let error = till.refuses(&[&till.keyed(&[command])[..], &named].concat(), 9);
        assert!(error.ends_with("tag differs in cell 1\n"), "{error}");
    }
    let error = till.refuses(&till.keyed(&["total"]), 9);
    assert!(error.ends_with("tag differs in cell 2\n"), "{error}");
    till.refuses(&[&till.keyed(&["read"])[..], &named].concat(), 9);
    assert_eq!(till.text(&[&["read"], &named[..]].concat()).len(), 123);

    let list = run(&till.keyed(&["list"]), b"");
    assert_eq!(list.status.code(), Some(1));
    let text = String::from_utf8(list.stdout).unwrap();
    assert_eq!(
        text,
        "cell 3 machine 11 sale 3 amount 150 column 4 means coin price 149 day 0\n\
         cell 2 machine 11 sale 2 won't open\n\
         cell 1 machine 11 sale 1 won't open\n"
    );
    let error = String::from_utf8(list.stderr).unwrap();
    assert_eq!(error, "calmbaize: refused with 9: tag differs in cell 2\n");
}

#[test]
fn permissions_and_links_are_kept() {
    let till = Till::formatted("permissions", 3);
    let link = Link::new("till", till.folder.join("link"));
    set_mode(Path::new(&till.file), 0o660);
    let mut args = till.keyed(&sale_options("1", "150", "coin"));
    args[2] = link.0.to_str().unwrap();
    let output = run_after("umask 077", &args, b"");
    assert_eq!(output.stdout, b"1\n");
    assert_eq!(mode(Path::new(&till.file)), 0o660);
    assert!(fs::symlink_metadata(&link.0).unwrap().is_symlink());
    assert_eq!(till.keyed_text(&["total"]), "150\n");

    let new = till.folder.join("new");
    let format = ["store", "format", new.to_str().unwrap(), "--cells=2"];
    run_after("umask 027", &format, b"");
    assert_eq!(mode(&new), 0o640);
}

#[test]
fn the_file_stays_as_it_was_where_writing_fails() {
    let till = Till::formatted("unwritten", 9);
    let before = fs::read(&till.file).unwrap();
    let take = till.keyed(&sale_options("1", "150", "coin"));
    let failed = run_after(FILES_OF_ONE_BLOCK, &take, b"");
    let error = String::from_utf8(failed.stderr).unwrap();
    assert_eq!(failed.status.code(), Some(2), "{error}");
    assert!(error.contains("can't change "), "{error}");
    assert_eq!(failed.stdout, b"");
    assert_eq!(fs::read(&till.file).unwrap(), before);
    assert_eq!(names(&till.folder), ["till"]);
}

/// What the help says: the store is written before anything is printed.
#[test]
fn a_sale_is_taken_where_printing_fails() {
    let till = Till::formatted("unprinted", 2);
    let take = till.keyed(&sale_options("1", "150", "coin"));
    let failed = run_after("exec >/dev/full", &take, b"");
    assert_eq!(failed.status.code(), Some(2));
    assert_eq!(till.keyed_text(&["total"]), "150\n");
}

/// A run that was killed leaves its lock, which keeps others off until it is removed.
#[test]
fn a_lock_keeps_others_off() {
    let till = Till::formatted("locked", 3);
    set_mode(Path::new(&till.file), 0o640);
    let before = fs::read(&till.file).unwrap();
    let take = till.keyed(&sale_options("1", "150", "coin"));
    let limits = format!("umask 0; {NO_FILES}");
    let killed = run_after(&limits, &take, b"");
    assert_eq!(killed.status.code(), None, "killed");
    // Others get their share with the name.
    assert_eq!(mode(&till.lock()), 0o600);
    for args in [&take, &till.args(&["format", "--force"])] {
        let error = fails(args, b"", 2);
        assert!(error.contains("till.lock is there: another run"), "{error}");
        assert_eq!(fs::read(&till.file).unwrap(), before);
        assert!(till.lock().exists());
    }
    assert_eq!(till.keyed_text(&["total"]), "0\n");
    fs::remove_file(till.lock()).unwrap();
    assert_eq!(till.take("1", "150", "coin"), "1\n");
}

/// Of runs at the same time each takes its sale or says that it did not.
#[test]
fn no_sale_is_lost_to_another_run() {
    let till = Till::formatted("at-once", 64);
    let start = |sale: u32| {
        Command::new(TOOL)
            .args(till.keyed(&sale_options(&sale.to_string(), "1", "coin")))
            .stdout(Stdio::piped())
            .stderr(Stdio::piped())
            .spawn()
            .unwrap()
    };
    let runs: Vec<_> = (1..=32).map(start).collect();
    let mut taken = 0;
    for run in runs {
        let output = run.wait_with_output().unwrap();
        match output.status.code() {
            Some(0) => taken += 1,
            _ => assert!(String::from_utf8_lossy(&output.stderr).contains("another run")),
        }
    }
    assert!(taken > 0);
    assert_eq!(till.keyed_text(&["total"]), format!("{taken}\n"));
    assert_eq!(names(&till.folder), ["till"]);
}
