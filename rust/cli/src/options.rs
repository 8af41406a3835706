//! The options of a command line.

use crate::Failure;
use std::ffi::{OsStr, OsString};
use std::os::unix::ffi::OsStrExt;
use std::str::FromStr;

/// Names of one letter, and the long names they stand for. The key has none: it belongs into a
/// file.
const SHORT: [(&str, &str); 11] = [
    ("-n", "--nonce"),
    ("-m", "--mode"),
    ("-r", "--rounds"),
    ("-i", "--input"),
    ("-o", "--output"),
    ("-x", "--hex"),
    ("-h", "--help"),
    ("-s", "--steps"),
    ("-a", "--alpha"),
    ("-b", "--beta"),
    ("-g", "--gamma"),
];

/// Options without a value.
const FLAGS: [&str; 4] = ["--hex", "--help", "--force", "--old-start"];

/// The argument without an option's name, among the options of a command that takes one.
pub const FILE: &str = "FILE";

/// Options by their long names, each with its value.
pub struct Options {
    given: Vec<(&'static str, OsString)>,
}

impl Options {
    /// Reads the arguments behind a command that takes the options `known`.
    pub fn parse(
        mut args: impl Iterator<Item = OsString>,
        known: &[&'static str],
    ) -> Result<Self, Failure> {
        let mut options = Self { given: Vec::new() };
        while let Some(arg) = args.next() {
            if known.contains(&FILE) && !arg.as_bytes().starts_with(b"-") {
                if options.has(FILE) {
                    return Err(Failure::Usage("more than one FILE".into()));
                }
                options.given.push((FILE, arg));
                continue;
            }
            let (written, attached) = split(&arg);
            let name = known_name(written, known)?;
            let wrong = |what: &str| Err(Failure::Usage(format!("{name} {what}")));
            let value = match (FLAGS.contains(&name), attached) {
                _ if options.has(name) => return wrong("is given twice"),
                (true, None) => OsString::new(),
                (true, Some(_)) => return wrong("takes no value"),
                (false, Some(value)) if written == name => value.to_os_string(),
                (false, Some(_)) => return wrong("has '=' behind its long name only"),
                (false, None) => match args.next() {
                    Some(value) => value,
                    None => return wrong("needs a value"),
                },
            };
            options.given.push((name, value));
        }
        Ok(options)
    }

    /// The value of an option, if it is given.
    pub fn value(&self, name: &str) -> Option<&OsStr> {
        let found = self.given.iter().find(|(other, _)| *other == name);
        found.map(|(_, value)| value.as_os_str())
    }

    /// Whether an option is given.
    pub fn has(&self, name: &str) -> bool {
        self.value(name).is_some()
    }

    /// The value of an option as text.
    pub fn text(&self, name: &str) -> Result<Option<&str>, Failure> {
        self.value(name)
            .map(|value| value.to_str().ok_or_else(|| bad(name, "is not text")))
            .transpose()
    }

    /// The value of an option as a number, if it is given.
    pub fn number<T: FromStr>(&self, name: &str) -> Result<Option<T>, Failure> {
        let number = self.text(name)?.map(str::parse).transpose();
        number.map_err(|_| bad(name, "is not a number in range"))
    }

    /// The value of an option that must be given, as a number.
    pub fn needed<T: FromStr>(&self, name: &str) -> Result<T, Failure> {
        self.number(name)?.ok_or_else(|| needed(name))
    }

    /// The value of an option as so many bytes in hexadecimal.
    pub fn array<const N: usize>(&self, name: &str) -> Result<Option<[u8; N]>, Failure> {
        let array = self.hex(name)?.map(<[u8; N]>::try_from).transpose();
        array.map_err(|_| bad(name, &format!("is not {N} bytes")))
    }

    /// The value of an option as bytes in hexadecimal.
    pub fn hex(&self, name: &str) -> Result<Option<Vec<u8>>, Failure> {
        let Some(text) = self.text(name)? else {
            return Ok(None);
        };
        let digit = |c: char| c.to_digit(16).map(|digit| digit as u8);
        let digits: Option<Vec<u8>> = text.chars().map(digit).collect();
        match digits {
            Some(digits) if digits.len() % 2 == 0 => Ok(Some(
                digits
                    .chunks(2)
                    .map(|pair| pair[0] << 4 | pair[1])
                    .collect(),
            )),
            _ => Err(bad(name, "is not pairs of hexadecimal digits")),
        }
    }
}

/// An option up to '=', and the value behind that with all its bytes, which need not be text.
fn split(arg: &OsStr) -> (&OsStr, Option<&OsStr>) {
    let bytes = arg.as_bytes();
    match bytes.iter().position(|&byte| byte == b'=') {
        Some(at) => (
            OsStr::from_bytes(&bytes[..at]),
            Some(OsStr::from_bytes(&bytes[at + 1..])),
        ),
        None => (arg, None),
    }
}

/// The long name among `known` that an option is written for.
fn known_name(written: &OsStr, known: &[&'static str]) -> Result<&'static str, Failure> {
    let short = SHORT.iter().find(|(short, _)| written == *short);
    let long = short.map_or(written, |(_, long)| OsStr::new(long));
    let found = known.iter().find(|name| long == **name);
    found.copied().ok_or_else(|| {
        let written = written.to_string_lossy();
        Failure::Usage(format!("unknown option '{written}'"))
    })
}

/// What is wrong where an option must be given and is not.
pub fn needed(name: &str) -> Failure {
    Failure::Usage(format!("{name} is needed"))
}

fn bad(name: &str, what: &str) -> Failure {
    Failure::Usage(format!("the value of {name} {what}"))
}
