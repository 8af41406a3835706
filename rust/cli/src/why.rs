//! Why a parcel won't open: the reason for a single one, or for each of a folder. Nothing is changed,
//! and no message comes out.

use crate::commands::{input, Settings, MAX_PARCEL_LEN};
use crate::files;
use crate::folder::{self, Folder};
use crate::options::Options;
use crate::Failure;
use calmbaize::{Header, Reason, Start};
use std::ffi::OsStr;

pub fn run(options: &Options) -> Result<(), Failure> {
    let start = match options.has("--old-start") {
        true => Start::Old,
        false => Start::New,
    };
    match folder::named(options) {
        Some(path) => why_folder(options, start, path),
        None => why_input(options, start),
    }
}

fn why_input(options: &Options, start: Start) -> Result<(), Failure> {
    let with = Settings::new(options)?;
    let parcel = input(options, MAX_PARCEL_LEN)?;
    let header = Header(&with.header);
    let reason = with.aead.diagnose(start, &with.nonce, header, &parcel)?;
    files::print(&format!("{reason}\n"))?;
    Failure::said(u8::from(reason == Reason::NoneOfSixteen))
}

/// The reasons come with the counts, once all are known, and not between the lines of progress.
fn why_folder(options: &Options, start: Start, path: &OsStr) -> Result<(), Failure> {
    let folder = Folder::new(options, path)?;
    let mut reasons = String::new();
    let (mut as_asked, mut otherwise, mut none) = (0, 0, 0);
    let others = folder.each(|parcel| {
        let (nonce, header) = (&parcel.nonce, Header(&parcel.header));
        let reason = folder.aead.diagnose(start, nonce, header, &parcel.bytes)?;
        match reason {
            Reason::AsAsked => as_asked += 1,
            Reason::Other { .. } => otherwise += 1,
            Reason::NoneOfSixteen => none += 1,
        }
        reasons += &(folder::line(parcel.name, reason) + "\n");
        Ok(())
    });
    let opens = format!("opens as asked {as_asked}, opens otherwise {otherwise}");
    let counts = format!("{opens}, none of the sixteen {none}, {others}\n");
    files::print(&(reasons + &counts))?;
    Failure::said(others.status().max(u8::from(none > 0)))
}
