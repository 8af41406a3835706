//! The commands over a store of sales in a file.

use crate::commands::{hex, key_bytes, key_needed, Command};
use crate::fault;
use crate::files::{self, Access};
use crate::help::store as help;
use crate::options::{needed, Options, FILE};
use crate::Failure;
use calmbaize::{Detail, Key, LookUp, Occupancy, Sale, SealedSale, Store, StoredSale};
use calmbaize::{CELL_LEN, MAX_STORE_LEN, MEANS_CARD, MEANS_COIN, NONCE_TAIL_LEN};
use std::ffi::OsStr;

pub const COMMANDS: [Command; 8] = [
    Command {
        name: "format",
        help: help::format,
        options: &[FILE, "--cells", "--force"],
        run: format,
    },
    Command {
        name: "take",
        help: help::take,
        options: &[
            FILE,
            "--key",
            "--key-file",
            "--machine",
            "--sale",
            "--amount",
            "--column",
            "--means",
            "--price",
            "--day",
            "--nonce-tail",
        ],
        run: take,
    },
    Command {
        name: "cancel",
        help: help::cancel,
        options: &[FILE, "--key", "--key-file", "--machine", "--sale"],
        run: cancel,
    },
    Command {
        name: "price",
        help: help::price,
        options: &[FILE, "--key", "--key-file", "--machine", "--sale"],
        run: price,
    },
    Command {
        name: "total",
        help: help::total,
        options: &[FILE, "--key", "--key-file"],
        run: total,
    },
    Command {
        name: "read",
        help: help::read,
        options: &[
            FILE,
            "--key",
            "--key-file",
            "--machine",
            "--sale",
            "--output",
        ],
        run: read,
    },
    Command {
        name: "list",
        help: help::list,
        options: &[FILE, "--key", "--key-file"],
        run: list,
    },
    Command {
        name: "check",
        help: help::check,
        options: &[FILE],
        run: check,
    },
];

/// A file that is there may hold sales, so it is formatted only where that is asked for.
fn format(options: &Options) -> Result<(), Failure> {
    let file = file(options)?;
    match (options.number::<usize>("--cells")?, options.has("--force")) {
        (None, false) => Err(needed("--cells or --force")),
        (Some(_), true) => Err(Failure::Usage(
            "--cells and --force exclude each other".into(),
        )),
        (None, true) => change(file, |store| Ok(store.format()?)),
        (Some(cells), false) => {
            // One cell more than there may be is enough to be refused.
            let cells = cells.min(MAX_STORE_LEN / CELL_LEN + 1);
            let mut bytes = vec![0; cells * CELL_LEN];
            Store::new(&mut bytes).format()?;
            files::create(file, &bytes)
        }
    }
}

fn take(options: &Options) -> Result<(), Failure> {
    let file = file(options)?;
    let (machine, sale) = named(options)?;
    let sale = Sale {
        machine,
        sale,
        amount: options.needed("--amount")?,
        column: options.needed("--column")?,
        means: means(options)?,
        price: options.needed("--price")?,
        day: options.number("--day")?.unwrap_or_default(),
    };
    let tail = options.array("--nonce-tail")?;
    let key = key(options)?.ok_or_else(key_needed)?;
    let tail: [u8; NONCE_TAIL_LEN] = tail.map_or_else(files::random, Ok)?;
    let cell = change(file, |store| Ok(store.take(&key, &tail, &sale)?))?;
    files::print(&format!("{cell}\n"))
}

fn cancel(options: &Options) -> Result<(), Failure> {
    let file = file(options)?;
    let (machine, sale) = named(options)?;
    let key = key(options)?.ok_or_else(key_needed)?;
    let amount = change(file, |store| Ok(store.cancel(&key, machine, sale)?))?;
    files::print(&format!("{amount}\n"))
}

fn price(options: &Options) -> Result<(), Failure> {
    let file = file(options)?;
    let (machine, sale) = named(options)?;
    let key = key(options)?.ok_or_else(key_needed)?;
    let found = Store::new(&mut contents(file)?).look_up(&key, machine, sale)?;
    let price = match found {
        LookUp::Priced { price, .. } => format!("price {price}"),
        LookUp::Unpriced { .. } => "no price".into(),
    };
    files::print(&format!("amount {} {price}\n", found.amount()))
}

fn total(options: &Options) -> Result<(), Failure> {
    let file = file(options)?;
    let key = key(options)?.ok_or_else(key_needed)?;
    let total = Store::new(&mut contents(file)?).total(&key)?;
    files::print(&format!("{total}\n"))
}

fn read(options: &Options) -> Result<(), Failure> {
    let file = file(options)?;
    let (machine, sale) = named(options)?;
    let output = options.value("--output");
    if output.is_some_and(|output| files::is_same(output, file)) {
        return Err(Failure::Usage("--output is the store itself".into()));
    }
    let key = key(options)?;
    let mut bytes = contents(file)?;
    let store = Store::new(&mut bytes);
    let sealed = store.read(machine, sale)?;
    let opened = key.map(|key| sealed.open(&key)).transpose()?;
    let mut text = String::new();
    match output {
        Some(_) => files::write(output, sealed.part, Access::Ordinary)?,
        None => text = hex(sealed.part) + "\n",
    }
    if let Some(sale) = opened {
        text += &format!("{} {}\n", numbers(&sealed), fields(&sale));
    }
    files::print(&text)
}

/// A sale that won't open is listed as such, and refused when all are listed.
fn list(options: &Options) -> Result<(), Failure> {
    let file = file(options)?;
    let key = key(options)?;
    let mut bytes = contents(file)?;
    let store = Store::new(&mut bytes);
    let mut text = String::new();
    let mut refused = None;
    for (cell, sealed) in store.sales()? {
        text += &format!("cell {cell} {}", numbers(&sealed));
        match key.as_ref().map(|key| sealed.open(key)) {
            None => text += &format!(" kind {}", sealed.kind),
            Some(Ok(sale)) => text += &format!(" {}", fields(&sale)),
            Some(Err(mut refusal)) => {
                text += " won't open";
                refusal.place = cell;
                refused = refused.or(Some(refusal));
            }
        }
        text.push('\n');
    }
    files::print(&text)?;
    refused.map_or(Ok(()), |refusal| Err(refusal.into()))
}

/// A broken store gets a report, which is what the command is for, and not a line of error.
fn check(options: &Options) -> Result<(), Failure> {
    let mut bytes = contents(file(options)?)?;
    match Store::new(&mut bytes).check() {
        Ok(Occupancy { cells, sales, free }) => {
            files::print(&format!("cells {cells} sales {sales} free {free}\n"))
        }
        Err(refusal) => {
            files::print(&fault::report(&bytes, refusal).ok_or(refusal)?)?;
            Err(Failure::Said(1))
        }
    }
}

fn file(options: &Options) -> Result<&OsStr, Failure> {
    options.value(FILE).ok_or_else(|| needed(FILE))
}

fn contents(file: &OsStr) -> Result<Vec<u8>, Failure> {
    files::read(Some(file), MAX_STORE_LEN)
}

fn change<T>(
    file: &OsStr,
    change: impl FnOnce(&mut Store<'_>) -> Result<T, Failure>,
) -> Result<T, Failure> {
    files::change(file, MAX_STORE_LEN, |bytes| change(&mut Store::new(bytes)))
}

fn key(options: &Options) -> Result<Option<Key>, Failure> {
    let bytes = key_bytes(options)?;
    Ok(bytes.map(|bytes| Key::try_from(&bytes[..])).transpose()?)
}

/// Machine and sale number of the sale that is meant.
fn named(options: &Options) -> Result<(u32, u32), Failure> {
    Ok((options.needed("--machine")?, options.needed("--sale")?))
}

fn means(options: &Options) -> Result<u8, Failure> {
    match options.text("--means")? {
        None => Err(needed("--means")),
        Some("coin") => Ok(MEANS_COIN),
        Some("card") => Ok(MEANS_CARD),
        Some(other) => other
            .parse()
            .map_err(|_| Failure::Usage("--means is coin, card or 0 to 255".into())),
    }
}

fn numbers(sealed: &SealedSale<'_>) -> String {
    let (machine, sale) = sealed.numbers();
    format!("machine {machine} sale {sale}")
}

/// What was sealed, in the words of the options, but for a clock, for which there is none any more.
fn fields(sale: &StoredSale) -> String {
    let means = match sale.means {
        MEANS_COIN => "coin".into(),
        MEANS_CARD => "card".into(),
        other => other.to_string(),
    };
    let detail = match sale.detail {
        Detail::Priced { price, day } => format!("price {price} day {day}"),
        Detail::Unpriced { clock } => format!("clock {}", hex(&clock)),
    };
    let (amount, column) = (sale.amount, sale.column);
    format!("amount {amount} column {column} means {means} {detail}")
}
