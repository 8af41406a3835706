//! The command line tool `calmbaize`.

mod commands;
mod convert;
mod engine;
mod fault;
mod files;
mod folder;
mod help;
mod options;
mod progress;
mod store;
mod why;

use calmbaize::{Ground, Refusal};
use commands::Command;
use options::Options;
use std::ffi::{OsStr, OsString};
use std::fmt;
use std::process::ExitCode;

/// Why a command did not succeed. A file that can't be written may be a pipe, a device or standard
/// output that has got a part, after a store was changed; otherwise nothing was written, but for
/// a list with sales that won't open, the report on a broken store, the parcels of a folder and the
/// reason why one won't open.
enum Failure {
    Usage(String),
    File(String),
    Refused(Refusal),
    /// What is wrong was said already, of a broken store, of a parcel that won't open or of each
    /// of a folder: the exit status.
    Said(u8),
}

impl Failure {
    /// How a command ends that has said itself what is wrong, if something is.
    fn said(status: u8) -> Result<(), Self> {
        match status {
            0 => Ok(()),
            _ => Err(Self::Said(status)),
        }
    }

    fn status(&self) -> u8 {
        match self {
            Self::Usage(_) | Self::File(_) => 2,
            Self::Refused(_) => 1,
            Self::Said(status) => *status,
        }
    }
}

impl fmt::Display for Failure {
    fn fmt(&self, f: &mut fmt::Formatter<'_>) -> fmt::Result {
        match self {
            Self::Usage(message) | Self::File(message) => f.write_str(message),
            Self::Refused(refusal) => {
                write!(f, "refused with {}: {refusal}", refusal.number())?;
                match refusal.ground {
                    Ground::StoreIndex | Ground::StoreKind => f.write_str(SEE_CHECK),
                    _ => Ok(()),
                }
            }
            Self::Said(_) => f.write_str("as said already"),
        }
    }
}

/// Behind the refusal of a broken store.
const SEE_CHECK: &str = "; see 'calmbaize store check FILE'";

impl From<Refusal> for Failure {
    fn from(refusal: Refusal) -> Self {
        Self::Refused(refusal)
    }
}

fn main() -> ExitCode {
    let mut args = std::env::args_os().skip(1).peekable();
    let (group, commands, help) = match args.next_if(|arg| arg == "store") {
        Some(_) => (
            "calmbaize store",
            &store::COMMANDS[..],
            help::store::GENERAL,
        ),
        None => ("calmbaize", &commands::COMMANDS[..], help::GENERAL),
    };
    let name = args.next().unwrap_or_default();
    let (result, hint) = match commands.iter().find(|command| name == command.name) {
        Some(command) => (execute(command, args), format!("{group} {}", command.name)),
        None => (general(&name, help), group.into()),
    };
    let Err(failure) = result else {
        return ExitCode::SUCCESS;
    };
    match failure {
        Failure::Said(_) => {}
        Failure::Usage(_) => eprintln!("calmbaize: {failure}; see '{hint} --help'"),
        Failure::File(_) | Failure::Refused(_) => eprintln!("calmbaize: {failure}"),
    }
    ExitCode::from(failure.status())
}

fn general(name: &OsStr, help: &str) -> Result<(), Failure> {
    match name.to_string_lossy().as_ref() {
        "--help" | "-h" | "help" => files::print(help),
        "--version" | "-V" => files::print(concat!("calmbaize ", env!("CARGO_PKG_VERSION"), "\n")),
        "" => Err(Failure::Usage("no command".into())),
        other => Err(Failure::Usage(format!("unknown command '{other}'"))),
    }
}

fn execute(command: &Command, args: impl Iterator<Item = OsString>) -> Result<(), Failure> {
    let known = [&["--help"], command.options].concat();
    let options = Options::parse(args, &known)?;
    if options.has("--help") {
        return files::print(&(command.help)());
    }
    (command.run)(&options)
}
