//! Histories of a store: thousands of calls from a format on, or on what another unit left, held against
//! a ledger.

use crate::call::Call;
use crate::calls::{self, on_numbers, on_store, CANCEL, FORMAT, LOOK_UP, READ, TAKE, TOTAL};
use crate::entry::Arg::{Key, Store, Total};
use crate::entry::Entry;
use crate::library::{refusal, Library};
use crate::met::Met;
use crate::prng::Prng;
use crate::report::{Check, Tally};
use crate::stores::look_up;
use crate::stores::sound::{coins, random_sale, sealed, set_index, Sound, KIND_AT, SALES};
use reference::store::{Sale, BODY_AT, CELL_LEN, PRICED};

/// Cells of the stores that get sales under one key.
const ONE_KEY: [usize; 16] = [
    2, 3, 4, 5, 8, 9, 16, 17, 33, 64, 100, 255, 257, 300, 513, 1024,
];
/// Cells of the stores that get sales under several.
const SEVERAL_KEYS: [usize; 8] = [2, 3, 5, 9, 17, 65, 256, 1023];

/// Two histories for each size. The ledger says what each call has to answer.
pub fn run(library: Library, seed: u64) -> Tally {
    let mut prng = Prng::new(seed);
    let mut check = Check::new(library);
    let mut met = Met::new(calls::of_store());
    let one = ONE_KEY.map(|cells| (cells, 1));
    let several = SEVERAL_KEYS.map(|cells| (cells, 3));
    for (cells, keys) in one.into_iter().chain(several) {
        let mut history = History::new(&mut prng, &mut check, &mut met, cells, keys);
        history.live();
        history.carry_on();
    }
    met.show();
    met.all(&mut check.tally);
    check.tally
}

/// A sale that was taken, or was there from the beginning.
struct Line {
    sold: Sale,
    kind: u8,
    key: usize,
    cell: u32,
}

struct History<'a> {
    prng: &'a mut Prng,
    check: &'a mut Check,
    met: &'a mut Met,
    /// The keys that sales are taken under, and behind them one that none is.
    keys: Vec<Vec<u8>>,
    store: Vec<u8>,
    /// The sales not cancelled in the order of their chain, the last one taken first.
    ledger: Vec<Line>,
}

impl<'a> History<'a> {
    fn new(
        prng: &'a mut Prng,
        check: &'a mut Check,
        met: &'a mut Met,
        cells: usize,
        keys: usize,
    ) -> Self {
        Self {
            keys: (0..=keys).map(|_| prng.bytes(32)).collect(),
            store: prng.bytes(CELL_LEN * cells),
            ledger: Vec::new(),
            prng,
            check,
            met,
        }
    }

    /// Formats the store, fills it, works on it, empties it and works on it again.
    fn live(&mut self) {
        let cells = self.cells();
        self.format();
        while self.ledger.len() + 1 < cells {
            self.call(70);
        }
        for _ in 0..cells / 2 + 50 {
            self.call(45);
        }
        while !self.ledger.is_empty() {
            self.call(10);
        }
        self.total();
        for _ in 0..cells / 4 + 50 {
            self.call(50);
        }
        self.total();
        self.format();
        self.total();
    }

    /// Works on a store that another unit left. Under one key, total accepts it.
    fn carry_on(&mut self) {
        self.inherit();
        self.total();
        for _ in 0..self.cells() / 2 + 50 {
            self.call(45);
        }
        self.total();
    }

    fn cells(&self) -> usize {
        self.store.len() / CELL_LEN
    }

    /// A call: `takes` of a hundred are take, five read, ten look_up, and the others cancel. Now and then a
    /// total, oftener the fewer cells there are.
    fn call(&mut self, takes: usize) {
        match self.prng.below(100) {
            0..5 => self.read(),
            5..15 => self.look_up(),
            n if n < 15 + takes => self.take(),
            _ => self.cancel(),
        }
        if self.prng.once_in(1 + self.cells() / 8) {
            self.total();
        }
        if self.prng.once_in(50) {
            self.refused();
        }
    }

    /// Compares a call and counts whether it answers `wanted`; one that is refused changes nothing.
    /// Returns the arguments afterwards.
    fn answers(&mut self, call: &Call, wanted: u64) -> Call {
        let after = self.check.answers(call, wanted);
        self.met.add(call, wanted);
        if wanted >> 32 != 0 {
            let unchanged = after.values == call.values;
            self.check
                .record(unchanged, || format!("{call}: refused, and changed"));
        }
        after
    }

    /// A call on the store with one of the keys.
    fn on(&self, entry: &'static Entry, key: usize, numbers: (u32, u32)) -> Call {
        on_numbers(entry, &self.keys[key], &self.store, numbers)
    }

    fn format(&mut self) {
        let formatted = self.answers(&self.on(&FORMAT, 0, (0, 0)), 0);
        self.store = formatted[Store].clone();
        self.ledger.clear();
    }

    /// The store becomes another, its sales of both kinds or of one, and now and then two of them alike.
    fn inherit(&mut self) {
        let (cells, sales) = (self.cells(), self.prng.below(self.cells()));
        let mut store = Sound::random(self.prng, cells, sales);
        self.ledger.clear();
        for n in 0..sales {
            let key = self.prng.below(self.keys.len() - 1);
            if self.prng.once_in(10) {
                let Sale { machine, sale, .. } = store.sold[self.prng.below(sales)];
                store.sold[n] = random_sale(self.prng, machine, sale);
            }
            let (sold, cell) = (store.sold[n], store.chains[SALES][n]);
            let body = sealed(&self.keys[key], &sold);
            store.body_mut(cell).copy_from_slice(&body);
            self.ledger.push(Line {
                sold,
                kind: *store.kind_mut(cell),
                key,
                cell: cell as u32,
            });
        }
        self.store = store.bytes;
    }

    fn take(&mut self) {
        let numbers = self.numbers();
        let sold = random_sale(self.prng, numbers.0, numbers.1);
        let key = self.prng.below(self.keys.len() - 1);
        let call = on_store(&TAKE, &self.keys[key], &self.store, &sold);
        if self.line(numbers).is_some() {
            self.answers(&call, refusal(16, 0));
            return;
        }
        if self.ledger.len() + 1 == self.cells() {
            self.answers(&call, refusal(15, 0));
            return;
        }
        let (answer, after) = self.check.compare(&call);
        self.met.add(&call, answer);
        let taken = self
            .ledger
            .iter()
            .any(|line| u64::from(line.cell) == answer);
        let free = (1..self.cells() as u64).contains(&answer) && !taken;
        self.check
            .record(free, || format!("{call}: the sale is in cell {answer:#x}"));
        let (kind, cell) = (PRICED, answer as u32);
        let line = Line {
            sold,
            kind,
            key,
            cell,
        };
        self.ledger.insert(0, line);
        self.store = after[Store].clone();
    }

    fn cancel(&mut self) {
        let numbers = self.numbers_often_there();
        let key = self.key_for(numbers);
        let call = self.on(&CANCEL, key, numbers);
        match self.opened(key, numbers) {
            Ok(at) => {
                let after = self.answers(&call, self.ledger[at].sold.amount.into());
                self.store = after[Store].clone();
                self.ledger.remove(at);
            }
            Err(refused) => drop(self.answers(&call, refused)),
        }
    }

    fn look_up(&mut self) {
        let numbers = self.numbers_often_there();
        let key = self.key_for(numbers);
        let call = self.on(&LOOK_UP, key, numbers);
        let at = match self.opened(key, numbers) {
            Ok(at) => at,
            Err(refused) => return drop(self.answers(&call, refused)),
        };
        let Line { sold, kind, .. } = self.ledger[at];
        let after = self.answers(&call, kind.into());
        look_up::finds(self.check, &call, &after, &sold, kind);
    }

    /// The cash total is the sum of the ledger's coins, of both kinds, unless a sale is under another key.
    fn total(&mut self) {
        let key = self.prng.below(self.keys.len());
        let key = if self.prng.once_in(8) { key } else { 0 };
        let call = self.on(&TOTAL, key, (0, 0));
        let shut = self.ledger.iter().find(|line| line.key != key);
        if let Some(cell) = shut.map(|line| line.cell) {
            self.answers(&call, refusal(9, cell));
            return;
        }
        let cash = coins(self.ledger.iter().map(|line| &line.sold));
        let total = &self.answers(&call, 0)[Total];
        self.check.record(*total == cash.to_ne_bytes(), || {
            format!("{call}: the total is {total:x?}, the ledger's {cash}")
        });
    }

    fn read(&mut self) {
        let numbers = self.numbers_often_there();
        let wanted = match self.line(numbers) {
            Some(at) => CELL_LEN as u64 * u64::from(self.ledger[at].cell) + BODY_AT as u64,
            None => refusal(16, 0),
        };
        self.answers(&self.on(&READ, 0, numbers), wanted);
    }

    /// Every call with a key of another length, with a broken store, and with both.
    fn refused(&mut self) {
        let (machine, sale) = self.numbers_often_there();
        let sold = random_sale(self.prng, machine, sale);
        let key = self.prng.pick(&[0, 1, 31, 33, 64]);
        let key = self.prng.bytes(key);
        let cut = CELL_LEN * self.prng.below(self.cells()) + 1 + self.prng.below(CELL_LEN - 1);
        let part = self.store[..self.prng.pick(&[0, CELL_LEN, cut, cut])].to_vec();
        // The index behind the last sale, and the kind of any cell.
        let last = self.ledger.last().map_or(0, |line| line.cell);
        let mut past = self.store.clone();
        set_index(&mut past, CELL_LEN * last as usize, self.cells());
        let cell = 1 + self.prng.below(self.cells() - 1);
        let mut misfit = self.store.clone();
        misfit[CELL_LEN * cell + KIND_AT] = self.prng.pick(&[3, 4, 255]);
        let broken = [(part, 18, 0), (past, 19, last), (misfit, 20, cell as u32)];
        for entry in calls::of_store() {
            let on = |key: &[u8], store: &[u8]| on_store(entry, key, store, &sold);
            for (store, number, place) in &broken {
                if entry.refuses(*number) {
                    self.answers(&on(&self.keys[0], store), refusal(*number, *place));
                }
            }
            if entry.takes(Key) {
                let sound = self.store.clone();
                for store in broken.iter().map(|broken| &broken.0).chain([&sound]) {
                    self.answers(&on(&key, store), refusal(3, 0));
                }
            }
        }
    }

    /// Where in the ledger the sale is that a call under a key opens, or how that is refused.
    fn opened(&self, key: usize, numbers: (u32, u32)) -> Result<usize, u64> {
        let at = self.line(numbers).ok_or(refusal(16, 0))?;
        match &self.ledger[at] {
            line if line.key == key => Ok(at),
            line => Err(refusal(9, line.cell)),
        }
    }

    /// Where in the ledger a sale is.
    fn line(&self, numbers: (u32, u32)) -> Option<usize> {
        let same = |line: &Line| (line.sold.machine, line.sold.sale) == numbers;
        self.ledger.iter().position(same)
    }

    /// Numbers of a machine and a sale, a few more than there are cells, and alike in some bytes.
    fn numbers(&mut self) -> (u32, u32) {
        let n = self.prng.below(self.cells() + 1) as u32;
        let numbers = [(7, n), (7, n << 24), (n, 7), (n << 16, u32::MAX)];
        self.prng.pick(&numbers)
    }

    /// Mostly those of a sale that is there.
    fn numbers_often_there(&mut self) -> (u32, u32) {
        if self.ledger.is_empty() || self.prng.once_in(6) {
            return self.numbers();
        }
        let last = self.ledger.len() - 1;
        let random = self.prng.below(self.ledger.len());
        let sold = &self.ledger[self.prng.pick(&[0, random, random, last])].sold;
        (sold.machine, sold.sale)
    }

    /// Mostly the key of that sale.
    fn key_for(&mut self, numbers: (u32, u32)) -> usize {
        match self.line(numbers) {
            Some(at) if !self.prng.once_in(10) => self.ledger[at].key,
            _ => self.prng.below(self.keys.len()),
        }
    }
}
