//! Parcels of the old start sealed under the new one: a single parcel, or all of a folder in place.

use crate::commands::{input, output, written, Settings, MAX_PARCEL_LEN};
use crate::files::{self, Access};
use crate::folder::{self, Folder, Parcel};
use crate::options::Options;
use crate::Failure;
use calmbaize::{Aead, Ground, Header, Nonce, Refusal};
use std::ffi::OsStr;

pub fn run(options: &Options) -> Result<(), Failure> {
    match folder::named(options) {
        Some(path) => convert_folder(options, path),
        None => output(options, convert_input(options)?, Access::Ordinary),
    }
}

fn convert_input(options: &Options) -> Result<Vec<u8>, Failure> {
    let with = Settings::new(options)?;
    let parcel = input(options, MAX_PARCEL_LEN)?;
    Ok(convert(&with.aead, &with.nonce, &with.header, &parcel)?)
}

/// The new parcel.
fn convert(aead: &Aead, nonce: &Nonce, header: &[u8], parcel: &[u8]) -> Result<Vec<u8>, Refusal> {
    written(parcel.len(), |output| {
        aead.convert(nonce, Header(header), parcel, output)
    })
}

fn convert_folder(options: &Options, path: &OsStr) -> Result<(), Failure> {
    for option in ["--output", "--hex"] {
        if options.has(option) {
            let message = format!("{option} is not for a folder, which is converted in place");
            return Err(Failure::Usage(message));
        }
    }
    let folder = Folder::new(options, path)?;
    let (mut converted, mut done_already) = (0, 0);
    let others = folder.each(|parcel| {
        match convert_in_place(&folder.aead, parcel) {
            Err(Failure::Refused(refusal)) if refusal.ground == Ground::DoneAlready => {
                done_already += 1;
            }
            result => {
                result?;
                converted += 1;
            }
        }
        Ok(())
    });
    let counts = format!("converted {converted}, done already {done_already}, {others}\n");
    files::print(&counts)?;
    Failure::said(others.status())
}

/// A parcel is tried before its file is locked: where it is refused, nothing in the folder
/// changes, not even for a moment.
fn convert_in_place(aead: &Aead, old: &Parcel<'_>) -> Result<(), Failure> {
    let convert = |parcel: &[u8]| convert(aead, &old.nonce, &old.header, parcel);
    let new = convert(&old.bytes)?;
    files::change(&old.path, MAX_PARCEL_LEN, |parcel| {
        // Another run may have come between: what is there now counts.
        let new = if *parcel == old.bytes[..] {
            new
        } else {
            convert(parcel)?
        };
        parcel.copy_from_slice(&new);
        Ok(())
    })
}
