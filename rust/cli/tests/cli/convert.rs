//! Parcels of the old start brought over: single ones, and folders of them.

use crate::files::{make_pipe, mode, names, set_mode, FILES_OF_ONE_BLOCK, NO_FILES};
use crate::{as_of_0_3_0, fails, folder, run_after, sealing, succeeds};
use crate::{Link, KEY, NONCE, OF_0_3_0};
use calmbaize::Rounds;
use reference::{seal_under, Start, MRO, OPP};
use std::collections::BTreeMap;
use std::ffi::{OsStr, OsString};
use std::fs::{self, File};
use std::os::unix::ffi::OsStrExt;
use std::os::unix::fs::{chown, MetadataExt};
use std::path::{Path, PathBuf};
use std::time::{Duration, SystemTime};

pub const DIFFERS: &str = "refused with 9: tag differs\n";
const DONE: &str = "calmbaize: refused with 17: done already: parcel opens under the new start, \
                    and not under the old\n";

/// A parcel with the bytes of `KEY`.
pub fn sealed(start: Start, (mode, rounds): (u32, u32), inputs: [&[u8]; 3]) -> Vec<u8> {
    let [nonce, header, message] = inputs;
    let key: Vec<u8> = (0..32).collect();
    let mut parcel = vec![0; message.len() + 32];
    let inputs = [&key[..], nonce, header, message];
    seal_under(start, mode, rounds, inputs, &mut parcel).unwrap();
    parcel
}

/// The bytes of `NONCE`.
pub fn nonce() -> [u8; 16] {
    std::array::from_fn(|at| 0x20 + at as u8)
}

/// With the settings of `sealing`.
pub fn old(message: &[u8]) -> Vec<u8> {
    sealed(Start::Old, (MRO, 6), [&nonce(), b"", message])
}

pub fn new(message: &[u8]) -> Vec<u8> {
    sealed(Start::New, (MRO, 6), [&nonce(), b"", message])
}

pub fn damaged(mut parcel: Vec<u8>) -> Vec<u8> {
    parcel[0] ^= 1;
    parcel
}

/// What a file is, apart from its name.
#[derive(Clone, Debug, PartialEq)]
pub struct State {
    pub bytes: Vec<u8>,
    pub permissions: u32,
    modified: SystemTime,
    number: u64,
}

/// A folder of parcels.
pub struct Card {
    pub folder: PathBuf,
}

impl Card {
    pub fn new(name: &str) -> Self {
        let folder = folder(name);
        Self { folder }
    }

    pub fn path(&self, name: impl AsRef<OsStr>) -> PathBuf {
        self.folder.join(name.as_ref())
    }

    pub fn put(&self, name: impl AsRef<OsStr>, bytes: impl AsRef<[u8]>) {
        fs::write(self.path(name), bytes).unwrap();
    }

    fn bytes(&self, name: &str) -> Vec<u8> {
        fs::read(self.path(name)).unwrap()
    }

    /// Without a nonce.
    pub fn args<'a>(&'a self, more: &[&'a str]) -> Vec<&'a str> {
        let folder = self.folder.to_str().unwrap();
        [&["convert", "--key", KEY, "-i", folder], more].concat()
    }

    /// Converts after some commands of the shell. Returns exit status, standard output and error.
    fn convert_after(&self, before: &str, more: &[&str]) -> (Option<i32>, String, String) {
        let output = run_after(before, &self.args(more), b"");
        let [out, error] = [output.stdout, output.stderr].map(String::from_utf8);
        (output.status.code(), out.unwrap(), error.unwrap())
    }

    pub fn convert(&self, more: &[&str]) -> (Option<i32>, String, String) {
        self.convert_after("", more)
    }

    /// Converts with the nonce, and expects this.
    fn converts(&self, status: i32, counts: &str, error: &str) {
        let expected = (Some(status), format!("{counts}\n"), error.to_string());
        assert_eq!(self.convert(&["--nonce", NONCE]), expected);
    }

    /// Every file, and the folder itself.
    pub fn states(&self) -> BTreeMap<OsString, State> {
        let state = |path: &Path| {
            let found = fs::symlink_metadata(path).unwrap();
            let bytes = found.is_file().then(|| fs::read(path).unwrap());
            State {
                bytes: bytes.unwrap_or_default(),
                permissions: found.mode(),
                modified: found.modified().unwrap(),
                number: found.ino(),
            }
        };
        let names = names(&self.folder).into_iter().chain([".".into()]);
        names
            .map(|name| (name.clone(), state(&self.path(name))))
            .collect()
    }

    /// Makes all that is there old, so that a change is seen by its time.
    pub fn age(&self) -> BTreeMap<OsString, State> {
        let past = SystemTime::UNIX_EPOCH + Duration::from_secs(1_000_000_000);
        for name in names(&self.folder).into_iter().chain([".".into()]) {
            let path = self.path(name);
            let kind = fs::symlink_metadata(&path).unwrap().file_type();
            if kind.is_file() || kind.is_dir() {
                File::open(path).unwrap().set_modified(past).unwrap();
            }
        }
        self.states()
    }
}

#[test]
fn converts_with_every_mode_and_count() {
    for (name, mode) in [("opp", OPP), ("mro", MRO)] {
        for rounds in Rounds::ALL {
            let count = rounds.count().to_string();
            let more = ["--mode", name, "-r", &count, "--header", "706f7374"];
            for message in [&b""[..], b"150 cents", &[7; 1000], &[8; 65_536]] {
                let inputs = [&nonce()[..], b"post", message];
                let old = sealed(Start::Old, (mode, rounds.count()), inputs);
                let new = succeeds(&sealing("convert", &more), &old);
                assert!(new == succeeds(&sealing("seal", &more), message));
                assert!(succeeds(&sealing("open", &more), &new) == message);
                assert_eq!(fails(&sealing("convert", &more), &new, 1), DONE);
            }
        }
    }
}

#[test]
fn converts_parcels_of_version_0_3_0() {
    for (mode, parcel) in OF_0_3_0 {
        let new = succeeds(&as_of_0_3_0("convert", mode), parcel);
        assert_eq!(succeeds(&as_of_0_3_0("open", mode), &new), b"sale");
        assert_eq!(fails(&as_of_0_3_0("convert", mode), &new, 1), DONE);
    }
}

/// As for open, and the parcel that is written may be seen by anyone.
#[test]
fn one_parcel_goes_from_file_to_file() {
    let card = Card::new("convert-one");
    card.put("old", old(b"tea"));
    let paths = ["old", "new"].map(|name| card.path(name).to_str().unwrap().to_string());
    let convert = sealing("convert", &["-i", &paths[0], "-o", &paths[1]]);
    let output = run_after("umask 027", &convert, b"");
    assert_eq!((output.status.code(), output.stdout), (Some(0), vec![]));
    assert_eq!(card.bytes("new"), new(b"tea"));
    assert_eq!(card.bytes("old"), old(b"tea"));
    assert_eq!(mode(&card.path("new")), 0o640);
    let hex: String = new(b"tea").iter().map(|b| format!("{b:02x}")).collect();
    let written = succeeds(&sealing("convert", &["--hex", "-i", "-"]), &old(b"tea"));
    assert_eq!(String::from_utf8(written).unwrap(), hex + "\n");
}

#[test]
fn a_refused_parcel_writes_nothing() {
    let card = Card::new("convert-refused");
    let output = card.path("output").to_str().unwrap().to_string();
    let convert = sealing("convert", &["-o", &output]);
    let differs = format!("calmbaize: {DIFFERS}");
    for before in [None, Some("before")] {
        before.inspect(|before| card.put("output", before));
        assert_eq!(fails(&convert, &new(b"tea"), 1), DONE);
        assert_eq!(fails(&convert, &damaged(old(b"tea")), 1), differs);
        assert_eq!(fails(&convert, &damaged(new(b"tea")), 1), differs);
        assert_eq!(fs::read_to_string(&output).ok().as_deref(), before);
        assert_eq!(names(&card.folder).len(), usize::from(before.is_some()));
    }
    let long = vec![0; 65_569];
    let header = "00".repeat(4097);
    let cases: [(&[&str], &[u8], u32); 6] = [
        (&sealing("convert", &["-r", "5"]), b"", 2),
        (&["convert", "--key", "00", "--nonce", "00"], b"", 3),
        (&["convert", "--key", KEY, "--nonce", "00"], b"", 4),
        (&sealing("convert", &["--header", &header]), b"", 5),
        (&sealing("convert", &[]), &long, 6),
        (&sealing("convert", &[]), &long[..31], 8),
    ];
    for (args, input, number) in cases {
        let error = fails(args, input, 1);
        let start = format!("calmbaize: refused with {number}: ");
        assert!(error.starts_with(&start), "{error}");
    }
}

#[test]
fn a_folder_is_converted_in_place() {
    let card = Card::new("convert-folder");
    card.put("b", old(b"150 cents"));
    card.put("a", old(&[9; 65_536]));
    card.put("c", new(b"done"));
    set_mode(&card.path("a"), 0o640);
    set_mode(&card.path("b"), 0o606);
    card.converts(0, "converted 2, done already 1, refused 0", "");
    assert_eq!(card.bytes("a"), new(&[9; 65_536]));
    assert_eq!(card.bytes("b"), new(b"150 cents"));
    assert_eq!(card.bytes("c"), new(b"done"));
    let modes = ["a", "b"].map(|name| mode(&card.path(name)));
    assert_eq!(modes, [0o640, 0o606]);
    assert_eq!(names(&card.folder).len(), 3);

    let before = card.age();
    card.converts(0, "converted 0, done already 3, refused 0", "");
    assert_eq!(card.states(), before);
}

#[test]
fn a_folder_may_have_no_parcel() {
    let card = Card::new("convert-none");
    card.converts(0, "converted 0, done already 0, refused 0", "");
    // A nonce is needed only where there is a parcel.
    let none = "converted 0, done already 0, refused 0\n".to_string();
    assert_eq!(card.convert(&[]), (Some(0), none, String::new()));
}

/// Each of them would be converted if it were taken for a parcel. What is hidden, or stands beside a
/// parcel, is not spoken of.
#[test]
fn what_is_no_parcel_is_passed_over() {
    let (card, other) = (Card::new("convert-others"), Card::new("convert-linked"));
    for name in [
        ".hidden",
        ".lock",
        "x.lock",
        "x.nonce",
        "x.nonce.lock",
        "x.header",
    ] {
        card.put(name, old(b"tea"));
    }
    other.put("parcel", old(b"tea"));
    let _link = Link::new(other.path("parcel"), card.path("link"));
    fs::create_dir(card.path("within")).unwrap();
    fs::copy(other.path("parcel"), card.path("within").join("parcel")).unwrap();
    make_pipe(&card.path("pipe"));
    let before = (card.age(), other.age());
    let no_file = "passed over: it is no regular file";
    let alone = "passed over: there is no parcel of that name without the ending";
    let mut lines = String::new();
    for (name, why) in [
        ("link", no_file),
        ("pipe", no_file),
        ("within", no_file),
        ("x.header", alone),
        ("x.lock", alone),
        ("x.nonce", alone),
        ("x.nonce.lock", alone),
    ] {
        lines += &format!("{name}: {why}\n");
    }
    let counts = "converted 0, done already 0, refused 0, passed over 7";
    card.converts(0, counts, &lines);
    assert_eq!((card.states(), other.states()), before);
    let within = card.path("within").join("parcel");
    assert_eq!(fs::read(within).unwrap(), old(b"tea"));
    // These are names of parcels all the same.
    for name in ["x.lock.1", "lock", "xnonce", "header"] {
        card.put(name, old(b"tea"));
    }
    let counts = "converted 4, done already 0, refused 0, passed over 7";
    card.converts(0, counts, &lines);
}

/// Only some may give files away, so what is expected is what this test itself can do.
#[test]
fn a_parcel_keeps_its_owner() {
    let card = Card::new("convert-owner");
    card.put("a", old(b"tea"));
    let owner = |card: &Card| {
        let found = fs::metadata(card.path("a")).unwrap();
        (found.uid(), found.gid())
    };
    chown(card.path("a"), Some(65534), Some(65533)).ok();
    let before = owner(&card);
    card.converts(0, "converted 1, done already 0, refused 0", "");
    assert_eq!(owner(&card), before);
    assert_eq!(card.bytes("a"), new(b"tea"));
}

#[test]
fn parcels_have_nonces_and_headers_of_their_own() {
    let card = Card::new("convert-own");
    let own = |at: u8, header: &[u8]| sealed(Start::Old, (MRO, 6), [&[at; 16], header, b"tea"]);
    let given = sealed(Start::Old, (MRO, 6), [&nonce(), b"post", b"tea"]);
    card.put("a", own(1, b"post"));
    card.put("a.nonce", [1; 16]);
    card.put("b", own(2, b"own"));
    card.put("b.nonce", [2; 16]);
    card.put("b.header", b"own");
    card.put("c", &given);
    card.put("d", own(4, b""));
    card.put("d.nonce", [4; 16]);
    card.put("d.header", b"");
    // The one given would open it, but its own counts.
    card.put("e", &given);
    card.put("e.nonce", [5; 16]);
    card.put("f", &given);
    card.put("f.header", b"own");
    card.put("g", &given);
    card.put("g.nonce", [7; 17]);
    card.put("h", &given);
    card.put("h.header", [0; 4097]);
    let before = card.age();
    let (status, counts, error) = card.convert(&["--nonce", NONCE, "--header", "706f7374"]);
    assert_eq!(counts, "converted 4, done already 0, refused 4\n");
    let expected = format!(
        "e: {DIFFERS}f: {DIFFERS}g: refused with 4: nonce is not 16 bytes\n\
         h: refused with 5: header is over 4,096 bytes\n"
    );
    assert_eq!((status, error), (Some(1), expected));
    let new = |nonce: [u8; 16], header| sealed(Start::New, (MRO, 6), [&nonce, header, b"tea"]);
    assert_eq!(card.bytes("a"), new([1; 16], b"post"));
    assert_eq!(card.bytes("b"), new([2; 16], b"own"));
    assert_eq!(card.bytes("c"), new(nonce(), b"post"));
    assert_eq!(card.bytes("d"), new([4; 16], b""));
    let mut after = card.states();
    for name in ["a", "b", "c", "d", "."] {
        after.insert(name.into(), before[OsStr::new(name)].clone());
    }
    assert_eq!(after, before);
}

#[test]
fn a_nonce_is_needed_for_each_parcel() {
    let card = Card::new("convert-nonces");
    card.put("a", old(b"tea"));
    card.put("b", old(b"tea"));
    card.put("a.nonce", nonce());
    let (status, counts, error) = card.convert(&[]);
    assert_eq!(counts, "converted 1, done already 0, refused 0, failed 1\n");
    let expected = "b: b.nonce is not there, and no nonce is given\n";
    assert_eq!((status, error.as_str()), (Some(2), expected));
    assert_eq!(card.bytes("a"), new(b"tea"));
    assert_eq!(card.bytes("b"), old(b"tea"));
    card.put("b.nonce", nonce());
    let counts = "converted 1, done already 1, refused 0\n".to_string();
    assert_eq!(card.convert(&[]), (Some(0), counts, String::new()));
}

/// What is wrong for all parcels is said once, and no parcel is looked at.
#[test]
fn wrong_usage_of_a_folder() {
    let card = Card::new("convert-usage");
    card.put("a", old(b"tea"));
    let before = card.age();
    let in_place =
        "is not for a folder, which is converted in place; see 'calmbaize convert --help'";
    for (option, more) in [("--output", &["-o", "x"][..]), ("--hex", &["--hex"])] {
        let error = fails(&card.args(more), b"", 2);
        assert_eq!(error, format!("calmbaize: {option} {in_place}\n"));
    }
    let error = fails(&card.args(&["--mode", "gcm"]), b"", 2);
    assert!(error.contains("--mode is opp or mro"), "{error}");
    let folder = card.folder.to_str().unwrap();
    let error = fails(&["convert", "--nonce", NONCE, "-i", folder], b"", 2);
    assert!(error.contains("--key or --key-file is needed"), "{error}");
    let error = fails(&card.args(&["-r", "5"]), b"", 1);
    assert!(error.starts_with("calmbaize: refused with 2: "), "{error}");
    let error = fails(&card.args(&["--nonce", "00"]), b"", 1);
    assert!(error.starts_with("calmbaize: refused with 4: "), "{error}");
    let long = "00".repeat(4097);
    let error = fails(&card.args(&["--nonce", NONCE, "--header", &long]), b"", 1);
    assert!(error.starts_with("calmbaize: refused with 5: "), "{error}");
    // In the order of the library's checks.
    let error = fails(&card.args(&["-r", "5", "--header", &long]), b"", 1);
    assert!(error.starts_with("calmbaize: refused with 2: "), "{error}");
    assert_eq!(card.states(), before);
    // The key may come by standard input, since the parcels do not.
    let key: Vec<u8> = (0..32).collect();
    let piped = ["convert", "--key-file=-", "--nonce", NONCE, "-i", folder];
    let counts = b"converted 1, done already 0, refused 0\n";
    assert_eq!(succeeds(&piped, &key), counts);
}

#[test]
fn the_run_goes_on_where_a_file_fails() {
    let card = Card::new("convert-failed");
    for name in ["a", "b", "c", "d"] {
        card.put(name, old(b"tea"));
    }
    card.put("a.lock", b"");
    fs::create_dir(card.path("b.nonce")).unwrap();
    let _link = Link::new("nowhere", card.path("c.header"));
    card.put("e", damaged(old(b"tea")));
    let before = card.age();
    let (status, counts, error) = card.convert(&["--nonce", NONCE]);
    assert_eq!(counts, "converted 1, done already 0, refused 1, failed 3\n");
    assert_eq!(status, Some(2));
    let lines: Vec<&str> = error.lines().collect();
    let folder = card.folder.to_str().unwrap();
    let expected = [
        format!("a: can't change {folder}/a: "),
        format!("b: can't read {folder}/b.nonce: "),
        format!("c: can't read {folder}/c.header: "),
        format!("e: {}", DIFFERS.trim_end()),
    ];
    assert_eq!(lines.len(), expected.len(), "{error}");
    for (line, start) in lines.iter().zip(&expected) {
        assert!(line.starts_with(start), "{error}");
    }
    assert!(lines[0].contains("a.lock is there: another run"), "{error}");
    assert_eq!(card.bytes("d"), new(b"tea"));
    let mut after = card.states();
    for name in ["d", "."] {
        after.insert(name.into(), before[OsStr::new(name)].clone());
    }
    assert_eq!(after, before);
}

/// Permissions do not bind everyone, so what is expected is what this test itself can do.
#[test]
fn a_file_without_permissions_fails_where_they_bind() {
    let card = Card::new("convert-unreadable");
    card.put("a", old(b"tea"));
    card.put("b", old(b"tea"));
    set_mode(&card.path("a"), 0);
    let bound = File::open(card.path("a")).is_err();
    let (status, counts, error) = card.convert(&["--nonce", NONCE]);
    if bound {
        assert_eq!(counts, "converted 1, done already 0, refused 0, failed 1\n");
        let start = format!("a: can't read {}: ", card.path("a").display());
        assert!(error.starts_with(&start), "{error}");
    } else {
        assert_eq!(counts, "converted 2, done already 0, refused 0\n");
    }
    assert_eq!(status, Some(if bound { 2 } else { 0 }));
    assert_eq!(mode(&card.path("a")), 0);
    assert_eq!(card.bytes("b"), new(b"tea"));
}

#[test]
fn a_folder_that_cannot_be_written_to_is_as_it_was() {
    let card = Card::new("convert-unwritten");
    card.put("a", old(&[7; 1000]));
    card.put("b", old(b"tea"));
    card.put("c", old(&[8; 1000]));
    let before = card.age();
    let (status, counts, error) = card.convert_after(FILES_OF_ONE_BLOCK, &["--nonce", NONCE]);
    assert_eq!(counts, "converted 1, done already 0, refused 0, failed 2\n");
    assert_eq!((status, error.lines().count()), (Some(2), 2));
    assert!(error.starts_with("a: can't change "), "{error}");
    assert_eq!(card.bytes("b"), new(b"tea"));
    let after = card.states();
    assert_eq!(after.len(), before.len());
    for name in ["a", "c"].map(OsStr::new) {
        assert_eq!(after[name], before[name]);
    }
}

/// A run that was killed while it wrote leaves the parcel as it was, and a lock.
#[test]
fn a_killed_run_leaves_its_parcel_whole() {
    let card = Card::new("convert-killed");
    card.put("a", old(b"tea"));
    card.put("b", new(b"tea"));
    let (status, _, _) = card.convert_after(NO_FILES, &["--nonce", NONCE]);
    assert_eq!(status, None, "killed");
    assert_eq!(card.bytes("a"), old(b"tea"));
    let (status, counts, error) = card.convert(&["--nonce", NONCE]);
    assert_eq!(counts, "converted 0, done already 1, refused 0, failed 1\n");
    assert!(error.contains("a.lock is there: another run"), "{error}");
    assert_eq!((status, card.bytes("a")), (Some(2), old(b"tea")));
    fs::remove_file(card.path("a.lock")).unwrap();
    card.converts(0, "converted 1, done already 1, refused 0", "");
}

/// A name is any bytes, and its line stays one.
#[test]
fn names_keep_their_bytes() {
    let card = Card::new("convert-names");
    for name in [&b"\xff"[..], b"-", b"--hex"] {
        card.put(OsStr::from_bytes(name), old(b"tea"));
    }
    card.put("a\n\x1b[2J", damaged(old(b"tea")));
    let expected = format!("a??[2J: {DIFFERS}");
    card.converts(1, "converted 3, done already 0, refused 1", &expected);
    let converted = fs::read(card.path(OsStr::from_bytes(b"\xff"))).unwrap();
    assert_eq!(converted, new(b"tea"));
}
