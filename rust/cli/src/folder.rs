//! A folder of parcels, gone through in the order of their names.

use crate::commands::{Given, MAX_PARCEL_LEN};
use crate::files;
use crate::options::Options;
use crate::progress::Progress;
use crate::Failure;
use calmbaize::{Aead, Ground, Nonce, Refusal, MAX_HEADER_LEN, NONCE_LEN};
use std::collections::BTreeMap;
use std::ffi::{OsStr, OsString};
use std::fmt;
use std::os::unix::ffi::OsStrExt;
use std::path::{Path, PathBuf};

/// Behind a parcel's name: its own nonce, and its own header.
const NONCE: &str = ".nonce";
const HEADER: &str = ".header";
/// Endings of what is no parcel.
const BESIDE: [&str; 3] = [".lock", NONCE, HEADER];

/// The folder that is the input, where it is one.
pub fn named(options: &Options) -> Option<&OsStr> {
    let input = options.value("--input");
    let input = input.filter(|path| !files::is_standard(path));
    input.filter(|path| Path::new(path).is_dir())
}

/// A line about a name, which may have any characters: one line it stays. Its line feed is left out.
pub fn line(name: &OsStr, said: impl fmt::Display) -> String {
    format!("{}: {said}", name.to_string_lossy()).replace(char::is_control, "?")
}

/// A folder of parcels.
pub struct Folder {
    path: PathBuf,
    /// Each with whether it is a regular file.
    names: BTreeMap<OsString, bool>,
    pub aead: Aead,
    /// For parcels that have none of their own, as the header is.
    nonce: Option<Nonce>,
    header: Vec<u8>,
}

/// A parcel with the nonce and header that hold for it.
pub struct Parcel<'a> {
    pub name: &'a OsStr,
    pub path: OsString,
    pub nonce: Nonce,
    pub header: Vec<u8>,
    pub bytes: Vec<u8>,
}

impl Folder {
    pub fn new(options: &Options, path: &OsStr) -> Result<Self, Failure> {
        let given = Given::new(options)?;
        let aead = given.aead()?;
        let nonce = given.nonce.as_deref().map(Nonce::try_from).transpose()?;
        if given.header.len() > MAX_HEADER_LEN {
            return Err(Refusal::from(Ground::HeaderTooLong).into());
        }
        Ok(Self {
            aead,
            nonce,
            header: given.header,
            names: files::names(path)?,
            path: path.into(),
        })
    }

    /// Hands each parcel to `visit`. What is refused, has failed or is passed over gets a line on
    /// standard error and is counted, and the run goes on.
    pub fn each(&self, mut visit: impl FnMut(&Parcel<'_>) -> Result<(), Failure>) -> Others {
        let is_parcel = |(_, entry): &(&OsStr, Entry)| *entry == Entry::Parcel;
        let (parcels, others): (Vec<_>, Vec<_>) = self.entries().partition(is_parcel);
        let mut counts = Others::default();
        let mut progress = Progress::new(parcels.len());
        for (name, entry) in others {
            if let Entry::PassedOver(why) = entry {
                counts.passed_over += 1;
                progress.line(&line(name, format!("passed over: {why}")));
            }
        }
        for (name, _) in parcels {
            let visited = self.parcel(name).and_then(|parcel| visit(&parcel));
            if let Err(failure) = visited {
                counts.add(&failure);
                progress.line(&line(name, failure));
            }
            progress.step();
        }
        progress.clear();
        counts
    }

    /// What each name stands for, in their order.
    fn entries(&self) -> impl Iterator<Item = (&OsStr, Entry)> {
        let names = self.names.iter();
        names.map(|(name, is_file)| (name.as_os_str(), self.entry(name, *is_file)))
    }

    fn entry(&self, name: &OsStr, is_file: bool) -> Entry {
        let bytes = name.as_bytes();
        let mut endings = BESIDE.iter();
        let beside = endings.find_map(|end| bytes.strip_suffix(end.as_bytes()));
        match beside.map(OsStr::from_bytes) {
            _ if bytes.starts_with(b".") => Entry::Silent,
            Some(parcel) if self.is_parcel(parcel) => Entry::Silent,
            Some(_) => Entry::PassedOver("there is no parcel of that name without the ending"),
            None if is_file => Entry::Parcel,
            None => Entry::PassedOver("it is no regular file"),
        }
    }

    fn is_parcel(&self, name: &OsStr) -> bool {
        let found = self.names.get(name);
        found.is_some_and(|is_file| self.entry(name, *is_file) == Entry::Parcel)
    }

    fn parcel<'a>(&self, name: &'a OsStr) -> Result<Parcel<'a>, Failure> {
        let (nonce, header) = (self.nonce(name)?, self.header(name)?);
        let path = self.path.join(name).into_os_string();
        let bytes = files::read(Some(&path), MAX_PARCEL_LEN)?;
        Ok(Parcel {
            name,
            path,
            nonce,
            header,
            bytes,
        })
    }

    fn nonce(&self, name: &OsStr) -> Result<Nonce, Failure> {
        match self.own(name, NONCE, NONCE_LEN)? {
            Some(own) => Ok(Nonce::try_from(&own[..])?),
            None => self.nonce.ok_or_else(|| no_nonce(name)),
        }
    }

    fn header(&self, name: &OsStr) -> Result<Vec<u8>, Failure> {
        let own = self.own(name, HEADER, MAX_HEADER_LEN)?;
        Ok(own.unwrap_or_else(|| self.header.clone()))
    }

    /// The bytes of a file beside a parcel, if it is there.
    fn own(&self, name: &OsStr, ending: &str, limit: usize) -> Result<Option<Vec<u8>>, Failure> {
        let mut own = name.to_os_string();
        own.push(ending);
        let found = self.names.contains_key(&own);
        let path = found.then(|| self.path.join(own).into_os_string());
        path.map(|path| files::read(Some(&path), limit)).transpose()
    }
}

fn no_nonce(name: &OsStr) -> Failure {
    let name = name.to_string_lossy();
    Failure::File(format!("{name}{NONCE} is not there, and no nonce is given"))
}

/// What a name in the folder stands for.
#[derive(PartialEq)]
enum Entry {
    Parcel,
    /// Nothing is said of it: a hidden file, or one beside a parcel.
    Silent,
    PassedOver(&'static str),
}

/// How many parcels were refused or have failed, and how many names were passed over.
#[derive(Default)]
pub struct Others {
    refused: usize,
    failed: usize,
    passed_over: usize,
}

impl Others {
    fn add(&mut self, failure: &Failure) {
        match failure {
            Failure::Refused(_) => self.refused += 1,
            _ => self.failed += 1,
        }
    }

    /// The exit status, as far as these decide it.
    pub fn status(&self) -> u8 {
        match (self.failed, self.refused) {
            (0, 0) => 0,
            (0, _) => 1,
            _ => 2,
        }
    }
}

impl fmt::Display for Others {
    fn fmt(&self, f: &mut fmt::Formatter<'_>) -> fmt::Result {
        write!(f, "refused {}", self.refused)?;
        for (what, count) in [("failed", self.failed), ("passed over", self.passed_over)] {
            if count > 0 {
                write!(f, ", {what} {count}")?;
            }
        }
        Ok(())
    }
}
