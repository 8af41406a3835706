//! Reading inputs, and writing a file whole or not at all.

use crate::Failure;
use std::collections::BTreeMap;
use std::ffi::{OsStr, OsString};
use std::fs::{self, File, Metadata, OpenOptions};
use std::io::{self, Read, Write};
use std::os::unix::fs::{fchown, MetadataExt, OpenOptionsExt, PermissionsExt};
use std::path::{Path, PathBuf};
use std::process;

/// Who may read a file that is written.
#[derive(Clone, Copy)]
pub enum Access {
    /// Its owner alone, whatever permissions a file of that name had.
    Owner,
    /// Those that the file's permissions say or, for a new file, the umask.
    Ordinary,
}

/// Whether a path stands for standard input or standard output.
pub fn is_standard(path: &OsStr) -> bool {
    path == "-"
}

/// Whether two paths lead to one file.
pub fn is_same(one: &OsStr, other: &OsStr) -> bool {
    let one = fs::canonicalize(one);
    one.is_ok_and(|one| fs::canonicalize(other).is_ok_and(|other| one == other))
}

/// The bytes of a file, or of standard input where none is named. Reading stops one byte past
/// `limit`, which is enough to be refused.
pub fn read(path: Option<&OsStr>, limit: usize) -> Result<Vec<u8>, Failure> {
    let mut bytes = Vec::new();
    let limit = limit as u64 + 1;
    match path.filter(|path| !is_standard(path)) {
        Some(path) => File::open(path)
            .and_then(|file| file.take(limit).read_to_end(&mut bytes))
            .map_err(|error| failed("read", path, &error))?,
        None => io::stdin()
            .take(limit)
            .read_to_end(&mut bytes)
            .map_err(|error| failed("read", "standard input", &error))?,
    };
    Ok(bytes)
}

/// The names in a folder, each with whether it is a regular file, which a link is not.
pub fn names(folder: &OsStr) -> Result<BTreeMap<OsString, bool>, Failure> {
    let entries = fs::read_dir(folder).and_then(|entries| {
        entries
            .map(|entry| {
                let entry = entry?;
                // One that can't be told is taken for a file, so that reading it says why.
                let is_file = entry.file_type().map_or(true, |kind| kind.is_file());
                Ok((entry.file_name(), is_file))
            })
            .collect()
    });
    entries.map_err(|error| failed("read", folder, &error))
}

/// Bytes from the system's source of random ones.
pub fn random<const N: usize>() -> Result<[u8; N], Failure> {
    const SOURCE: &str = "/dev/urandom";
    let mut bytes = [0; N];
    File::open(SOURCE)
        .and_then(|mut source| source.read_exact(&mut bytes))
        .map_err(|error| failed("read", SOURCE, &error))?;
    Ok(bytes)
}

/// Writes `bytes` to a file, or to standard output where none is named.
pub fn write(path: Option<&OsStr>, bytes: &[u8], access: Access) -> Result<(), Failure> {
    match path.filter(|path| !is_standard(path)) {
        Some(path) => write_path(Path::new(path), bytes, access)
            .map_err(|error| failed("write", path, &error)),
        None => {
            let mut stdout = io::stdout().lock();
            let written = stdout.write_all(bytes).and_then(|()| stdout.flush());
            written.map_err(|error| failed("write", "standard output", &error))
        }
    }
}

/// Writes text to standard output.
pub fn print(text: &str) -> Result<(), Failure> {
    write(None, text.as_bytes(), Access::Ordinary)
}

/// Hands the bytes of a file to `change` and, where that succeeds, writes them. Reading stops one
/// byte past `limit`, which is enough to be refused.
pub fn change<T>(
    path: &OsStr,
    limit: usize,
    change: impl FnOnce(&mut [u8]) -> Result<T, Failure>,
) -> Result<T, Failure> {
    let failed = |error: io::Error| failed("change", path, &error);
    let replacement = lock_existing(path).map_err(failed)?;
    // A file that may not be written to is not replaced either.
    let mut file = OpenOptions::new();
    let file = file.read(true).write(true).open(&replacement.target);
    let mut bytes = Vec::new();
    file.and_then(|file| file.take(limit as u64 + 1).read_to_end(&mut bytes))
        .map_err(failed)?;
    let answer = change(&mut bytes)?;
    replacement.put(&bytes).map_err(failed)?;
    Ok(answer)
}

/// Writes a file that is not there yet.
pub fn create(path: &OsStr, bytes: &[u8]) -> Result<(), Failure> {
    let created = lock(PathBuf::from(path), None).and_then(|replacement| {
        // A link that leads nowhere is there too.
        if fs::symlink_metadata(path).is_ok() {
            return Err(io::Error::other("it is there already"));
        }
        replacement.put(bytes)
    });
    created.map_err(|error| failed("create", path, &error))
}

/// A file appears under its name once it is whole. What is no file, such as a pipe, is written to
/// as it stands.
fn write_path(path: &Path, bytes: &[u8], access: Access) -> io::Result<()> {
    let existing = fs::metadata(path).ok();
    if existing.as_ref().is_some_and(|found| !found.is_file()) {
        return OpenOptions::new().write(true).open(path)?.write_all(bytes);
    }
    let target = fs::canonicalize(path).unwrap_or_else(|_| path.to_path_buf());
    let temporary = temporary_name(&target)?;
    Replacement::new(target, temporary, access, existing)?.put(bytes)
}

/// A name beside the target, so that a rename stays within one file system.
fn temporary_name(target: &Path) -> io::Result<PathBuf> {
    target.file_name().ok_or(io::ErrorKind::InvalidInput)?;
    Ok(target.with_file_name(format!(".calmbaize.{}.tmp", process::id())))
}

fn lock_existing(path: &OsStr) -> io::Result<Replacement> {
    let target = fs::canonicalize(path)?;
    let existing = fs::metadata(&target)?;
    if !existing.is_file() {
        return Err(io::Error::other("it is no file"));
    }
    lock(target, Some(existing))
}

/// A replacement whose name no two runs of the tool can have at a time, so that none of them
/// undoes what another has written.
fn lock(target: PathBuf, kept: Option<Metadata>) -> io::Result<Replacement> {
    let mut path = target.clone().into_os_string();
    path.push(".lock");
    let name = path.to_string_lossy().into_owned();
    let locked = Replacement::new(target, path.into(), Access::Ordinary, kept);
    locked.map_err(|error| match error.kind() {
        io::ErrorKind::AlreadyExists => io::Error::other(format!(
            "{name} is there: another run is changing the file, or was killed and left that behind"
        )),
        _ => error,
    })
}

/// A new file that is to take the place of another. Where it does not, it is removed again.
struct Replacement {
    file: File,
    path: PathBuf,
    target: PathBuf,
    /// Whom it may be open to in the end; some file systems open a file to more.
    mode: u32,
    kept: Option<Metadata>,
    in_place: bool,
}

impl Replacement {
    /// `kept` is of the file that is there, whose permissions and owner an ordinary one takes over.
    /// The new one is never open to more readers than in the end, not even while it is empty: who
    /// has opened it can read what is written later. So the group, which may be another one at
    /// first, gets its share last.
    fn new(
        target: PathBuf,
        path: PathBuf,
        access: Access,
        kept: Option<Metadata>,
    ) -> io::Result<Self> {
        let (mode, kept) = match (access, kept) {
            (Access::Owner, _) => (0o600, None),
            (Access::Ordinary, None) => (0o666, None),
            (Access::Ordinary, Some(kept)) => (kept.mode() & 0o777, Some(kept)),
        };
        let at_first = if kept.is_some() { mode & 0o700 } else { mode };
        let mut options = OpenOptions::new();
        let file = options.write(true).create_new(true).mode(at_first);
        let file = file.open(&path);
        Ok(Self {
            file: file?,
            path,
            target,
            mode,
            kept,
            in_place: false,
        })
    }

    fn put(mut self, bytes: &[u8]) -> io::Result<()> {
        // Some file systems have no permissions of their own.
        if self.file.metadata()?.permissions().mode() & 0o066 & !self.mode != 0 {
            return Err(io::Error::other("others could read or change it there"));
        }
        self.file.write_all(bytes)?;
        if let Some(kept) = self.kept.take() {
            // Who may not give a file away keeps it, as any that is made anew.
            fchown(&self.file, Some(kept.uid()), Some(kept.gid()))
                .or_else(|_| fchown(&self.file, None, Some(kept.gid())))
                .ok();
            self.file.set_permissions(kept.permissions())?;
        }
        self.file.sync_all()?;
        fs::rename(&self.path, &self.target)?;
        self.in_place = true;
        Ok(())
    }
}

impl Drop for Replacement {
    fn drop(&mut self) {
        // Once it is in place, its first name may be another run's.
        if !self.in_place {
            fs::remove_file(&self.path).ok();
        }
    }
}

fn failed(verb: &str, what: impl AsRef<OsStr>, error: &io::Error) -> Failure {
    Failure::File(format!(
        "can't {verb} {}: {error}",
        what.as_ref().to_string_lossy()
    ))
}
