//! The commands but those of a store, each over one of the library's calls.

use crate::convert;
use crate::engine::{Engine, Words};
use crate::files::{self, Access};
use crate::help;
use crate::options::{needed, Options};
use crate::why;
use crate::Failure;
use calmbaize::{slices, Aead, Header, Key, Mode, Nonce, Refusal, Rounds};
use calmbaize::{BLOCK_LEN, KEY_LEN, MAX_HEADER_LEN, MAX_MESSAGE_LEN, MAX_STEPS};
use calmbaize::{NONCE_LEN, TAG_LEN};

/// A command's name, its help, its options beside `--help`, and what it does.
pub struct Command {
    pub name: &'static str,
    pub help: fn() -> String,
    pub options: &'static [&'static str],
    pub run: fn(&Options) -> Result<(), Failure>,
}

/// In an order by which the options of the commands below are parts of it.
const OPENING: [&str; 13] = [
    "--engine",
    "--output",
    "--hex",
    "--key",
    "--key-file",
    "--nonce",
    "--nonce-file",
    "--header",
    "--header-file",
    "--mode",
    "--rounds",
    "--input",
    "--old-start",
];

const SEALING: &[&str] = OPENING.split_at(12).0;
const CONVERTING: &[&str] = SEALING.split_at(1).1;
const ASKING_WHY: &[&str] = OPENING.split_at(3).1;

/// A parcel may be seen by anyone. A mask is as secret as the key, since its steps and the
/// permutation have ways back.
pub const COMMANDS: [Command; 6] = [
    Command {
        name: "seal",
        help: help::seal,
        options: SEALING,
        run: |options| output(options, seal(options)?, Access::Ordinary),
    },
    Command {
        name: "open",
        help: help::open,
        options: &OPENING,
        run: |options| output(options, open(options)?, Access::Owner),
    },
    Command {
        name: "convert",
        help: help::convert,
        options: CONVERTING,
        run: convert::run,
    },
    Command {
        name: "why",
        help: help::why,
        options: ASKING_WHY,
        run: why::run,
    },
    Command {
        name: "walk",
        help: help::walk,
        options: &["--steps", "--start", "--input", "--output", "--hex"],
        run: |options| output(options, walk(options)?, Access::Owner),
    },
    Command {
        name: "jump",
        help: help::jump,
        options: &[
            "--alpha", "--beta", "--gamma", "--start", "--input", "--output", "--hex",
        ],
        run: |options| output(options, jump(options)?, Access::Owner),
    },
];

/// The rounds where none are given.
pub const DEFAULT_ROUNDS: Rounds = Rounds::Six;

/// The longest parcel.
pub const MAX_PARCEL_LEN: usize = MAX_MESSAGE_LEN + TAG_LEN;

/// What the options say of the settings. The library has checked none of it.
pub struct Given {
    mode: Mode,
    rounds: u32,
    key: Vec<u8>,
    pub nonce: Option<Vec<u8>>,
    pub header: Vec<u8>,
}

impl Given {
    pub fn new(options: &Options) -> Result<Self, Failure> {
        check_standard_input(options)?;
        let mode = match options.text("--mode")? {
            None | Some("mro") => Mode::Mro,
            Some("opp") => Mode::Opp,
            Some(_) => return Err(Failure::Usage("--mode is opp or mro".into())),
        };
        let default = DEFAULT_ROUNDS.count();
        Ok(Self {
            mode,
            rounds: options.number("--rounds")?.unwrap_or(default),
            key: key_bytes(options)?.ok_or_else(key_needed)?,
            nonce: bytes(options, "--nonce", "--nonce-file", NONCE_LEN)?,
            header: bytes(options, "--header", "--header-file", MAX_HEADER_LEN)?
                .unwrap_or_default(),
        })
    }

    pub fn aead(&self) -> Result<Aead, Refusal> {
        let (rounds, key) = (
            Rounds::try_from(self.rounds)?,
            Key::try_from(&self.key[..])?,
        );
        Ok(Aead::new(self.mode, rounds, key))
    }
}

/// The settings of one message.
pub struct Settings {
    pub aead: Aead,
    pub nonce: Nonce,
    pub header: Vec<u8>,
}

impl Settings {
    pub fn new(options: &Options) -> Result<Self, Failure> {
        let given = Given::new(options)?;
        let nonce = given.nonce.as_deref();
        let nonce = nonce.ok_or_else(|| needed("--nonce or --nonce-file"))?;
        Ok(Self {
            aead: given.aead()?,
            nonce: Nonce::try_from(nonce)?,
            header: given.header,
        })
    }
}

fn seal(options: &Options) -> Result<Vec<u8>, Failure> {
    let engine = Engine::new(options)?;
    let with = Settings::new(options)?;
    let message = input(options, MAX_MESSAGE_LEN)?;
    let (aead, nonce, header) = (&with.aead, &with.nonce, Header(&with.header));
    let parcel = written(message.len() + TAG_LEN, |output| match engine {
        Engine::Step => aead.seal(nonce, header, &message, output),
        Engine::Run => {
            let mut words = Words::new(header, message.len());
            aead.seal_run(nonce, header, &message, output, &mut words.0)
        }
    });
    Ok(parcel?)
}

fn open(options: &Options) -> Result<Vec<u8>, Failure> {
    let engine = Engine::new(options)?;
    let with = Settings::new(options)?;
    let parcel = input(options, MAX_PARCEL_LEN)?;
    let (aead, nonce, header) = (&with.aead, &with.nonce, Header(&with.header));
    let len = parcel.len().saturating_sub(TAG_LEN);
    let message = written(len, |output| match engine {
        Engine::Step if options.has("--old-start") => aead.open_old(nonce, header, &parcel, output),
        Engine::Step => aead.open(nonce, header, &parcel, output),
        Engine::Run => {
            let mut words = Words::new(header, len);
            aead.open_run(nonce, header, &parcel, output, &mut words.0)
        }
    });
    Ok(message?)
}

/// What a call writes to an output of that length.
pub fn written(
    len: usize,
    call: impl FnOnce(&mut [u8]) -> Result<usize, Refusal>,
) -> Result<Vec<u8>, Refusal> {
    let mut output = vec![0; len];
    let written = call(&mut output)?;
    output.truncate(written);
    Ok(output)
}

fn walk(options: &Options) -> Result<Vec<u8>, Failure> {
    // What is no letter of a step becomes 0, which is no step either and is refused at its place.
    let step = |letter| "abgABG".find(letter).map_or(0, |place| place as u8 + 1);
    let letters = options.text("--steps")?.unwrap_or_default();
    let steps: Vec<u8> = letters.chars().take(MAX_STEPS + 1).map(step).collect();
    let mut reached = vec![0; BLOCK_LEN];
    slices::walk(&start(options)?, &steps, &mut reached)?;
    Ok(reached)
}

fn jump(options: &Options) -> Result<Vec<u8>, Failure> {
    let alpha = options.number("--alpha")?.unwrap_or(0);
    let beta = options.number("--beta")?.unwrap_or(0);
    let gamma = options.number("--gamma")?.unwrap_or(0);
    let mut reached = vec![0; BLOCK_LEN];
    slices::jump(&start(options)?, alpha, beta, gamma, &mut reached)?;
    Ok(reached)
}

fn start(options: &Options) -> Result<Vec<u8>, Failure> {
    match bytes(options, "--start", "--input", BLOCK_LEN)? {
        Some(start) => Ok(start),
        None => input(options, BLOCK_LEN),
    }
}

pub fn input(options: &Options, limit: usize) -> Result<Vec<u8>, Failure> {
    files::read(options.value("--input"), limit)
}

pub fn output(options: &Options, mut bytes: Vec<u8>, access: Access) -> Result<(), Failure> {
    if options.has("--hex") {
        bytes = (hex(&bytes) + "\n").into_bytes();
    }
    files::write(options.value("--output"), &bytes, access)
}

/// Bytes in hexadecimal.
pub fn hex(bytes: &[u8]) -> String {
    bytes.iter().map(|byte| format!("{byte:02x}")).collect()
}

/// What is given as a key, of any length.
pub fn key_bytes(options: &Options) -> Result<Option<Vec<u8>>, Failure> {
    bytes(options, "--key", "--key-file", KEY_LEN)
}

/// What is wrong where no key is given.
pub fn key_needed() -> Failure {
    needed("--key or --key-file")
}

/// Bytes from one of two options: hexadecimal, or a file.
fn bytes(
    options: &Options,
    hex: &str,
    file: &str,
    limit: usize,
) -> Result<Option<Vec<u8>>, Failure> {
    match (options.hex(hex)?, options.value(file)) {
        (Some(_), Some(_)) => Err(Failure::Usage(format!(
            "{hex} and {file} exclude each other"
        ))),
        (Some(bytes), None) => Ok(Some(bytes)),
        (None, Some(path)) => files::read(Some(path), limit).map(Some),
        (None, None) => Ok(None),
    }
}

/// Standard input can be read for one option only.
fn check_standard_input(options: &Options) -> Result<(), Failure> {
    let settings = ["--key-file", "--nonce-file", "--header-file"];
    let named = settings.iter().filter_map(|name| options.value(name));
    let count = named.filter(|path| files::is_standard(path)).count();
    let input = options.value("--input").is_none_or(files::is_standard);
    if count + usize::from(input) > 1 {
        return Err(Failure::Usage(
            "only one of --key-file, --nonce-file, --header-file and --input can be \
             standard input"
                .into(),
        ));
    }
    Ok(())
}
