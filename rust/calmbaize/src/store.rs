//! A store of sealed sales in a lent buffer.

use crate::slices::store;
use crate::{Ground, Key, LookUp, Refusal, Sale, SealedSale, CELL_LEN, NONCE_TAIL_LEN, SALE_LEN};

/// A store of sealed sales over a lent buffer of [`MIN_STORE_LEN`](crate::MIN_STORE_LEN) to
/// [`MAX_STORE_LEN`](crate::MAX_STORE_LEN) bytes, a multiple of [`CELL_LEN`].
///
/// It keeps nothing beside the buffer. Each call but [`format`](Self::format) checks the whole
/// buffer's form, as [`check`](Self::check) does alone, and refuses what is no store. A refused call changes no byte.
///
/// Each cell but the first is free or holds one sale: its kind and its machine and sale number in the
/// clear, the rest sealed under MRO with six rounds. From any store that [`total`](Self::total)
/// accepts on, until the next [`format`](Self::format), with that key and these calls only, the total
/// is the first one plus the coin amounts taken less those cancelled, of both kinds.
///
/// ```
/// use calmbaize::{Key, Refusal, Sale, Store, CELL_LEN, MEANS_CARD, MEANS_COIN};
///
/// let mut buffer = [0; 8 * CELL_LEN];
/// let key = Key::new([7; 32]);
/// let mut store = Store::new(&mut buffer);
/// store.format()?;
///
/// let tea = Sale {
///     machine: 11, sale: 1, amount: 150, column: 4, means: MEANS_COIN, price: 149, day: 320,
/// };
/// let cake = Sale { sale: 2, amount: 320, column: 9, ..tea };
/// let soup = Sale { sale: 3, amount: 410, means: MEANS_CARD, ..tea };
/// for (sale, tail) in [tea, cake, soup].iter().zip(1_u64..) {
///     store.take(&key, &tail.to_le_bytes(), sale)?;
/// }
/// assert_eq!(store.total(&key), Ok(150 + 320));
/// assert_eq!(store.cancel(&key, 11, 1), Ok(150));
/// assert_eq!(store.total(&key), Ok(320));
/// # Ok::<(), Refusal>(())
/// ```
#[derive(Debug)]
pub struct Store<'a> {
    bytes: &'a mut [u8],
}

impl<'a> Store<'a> {
    /// The store in this buffer, which may be one already, or any bytes that are to be
    /// [formatted](Self::format).
    ///
    /// # Examples
    ///
    /// ```
    /// use calmbaize::{Ground, Store};
    ///
    /// let mut buffer = [0xaa; 128];
    /// let mut store = Store::new(&mut buffer);
    /// assert_eq!(store.read(11, 1), Err(Ground::StoreIndex.into()));
    /// assert_eq!(store.format(), Ok(()));
    /// assert_eq!(store.read(11, 1), Err(Ground::SaleNumbers.into()));
    /// ```
    pub const fn new(bytes: &'a mut [u8]) -> Self {
        Self { bytes }
    }

    /// Makes it a store with no sale, whatever was there.
    ///
    /// # Errors
    ///
    /// [`Ground::StoreLength`] where the buffer's length is not a store's.
    ///
    /// # Examples
    ///
    /// ```
    /// use calmbaize::{Ground, Store};
    ///
    /// assert_eq!(Store::new(&mut [0xaa; 128]).format(), Ok(()));
    /// assert_eq!(Store::new(&mut [0xaa; 64]).format(), Err(Ground::StoreLength.into()));
    /// ```
    pub fn format(&mut self) -> Result<(), Refusal> {
        store::format(self.bytes)
    }

    /// How many sales and free cells the store has, where its form is right. No key is needed, and
    /// no sale is opened.
    ///
    /// # Errors
    ///
    /// The first of these that holds:
    ///
    /// - [`Ground::StoreLength`]
    /// - [`Ground::StoreIndex`] on the way along the sales and then along the free cells: an index past
    ///   the last cell, or of a cell reached before in either chain, with the cell that holds it, which
    ///   is cell 0 for the first of a chain
    /// - [`Ground::StoreKind`] in the order of the cells: a cell whose kind does not fit its chain, or
    ///   that is in neither, with that cell
    ///
    /// # Examples
    ///
    /// ```
    /// use calmbaize::{Ground, Occupancy, Refusal, Store};
    ///
    /// let mut buffer = [0; 256];
    /// Store::new(&mut buffer).format()?;
    /// assert_eq!(Store::new(&mut buffer).check(), Ok(Occupancy { cells: 4, sales: 0, free: 3 }));
    ///
    /// buffer[2 * 64] = 9;
    /// let refusal = Store::new(&mut buffer).check().unwrap_err();
    /// assert_eq!((refusal.ground, refusal.place), (Ground::StoreIndex, 2));
    /// # Ok::<(), Refusal>(())
    /// ```
    pub fn check(&self) -> Result<Occupancy, Refusal> {
        let sales = self.sales()?.count();
        let cells = self.bytes.len() / CELL_LEN;
        Ok(Occupancy {
            cells,
            sales,
            free: cells.saturating_sub(sales + 1),
        })
    }

    /// Seals a sale into the first free cell, with its price and day, and puts it before the other
    /// sales.
    ///
    /// Returns the cell. The sale's nonce is its two numbers and `nonce_tail`, which is best fresh
    /// for every sale: where the whole nonce comes again under one key, as after a cancellation,
    /// it shows whether the same sale did.
    ///
    /// # Errors
    ///
    /// Those of [`check`](Self::check); then [`Ground::SaleNumbers`] where the store has a sale with
    /// these numbers; then [`Ground::StoreFull`].
    ///
    /// # Examples
    ///
    /// ```
    /// use calmbaize::{Ground, Key, Refusal, Sale, Store, MEANS_COIN};
    ///
    /// let (mut buffer, key) = ([0; 128], Key::new([7; 32]));
    /// let mut store = Store::new(&mut buffer);
    /// store.format()?;
    /// let sale = Sale {
    ///     machine: 11, sale: 1, amount: 150, column: 4, means: MEANS_COIN, price: 149, day: 320,
    /// };
    /// assert_eq!(store.take(&key, b"12345678", &sale), Ok(1));
    /// let next = Sale { sale: 2, ..sale };
    /// assert_eq!(store.take(&key, b"12345679", &next), Err(Ground::StoreFull.into()));
    /// # Ok::<(), Refusal>(())
    /// ```
    pub fn take(
        &mut self,
        key: &Key,
        nonce_tail: &[u8; NONCE_TAIL_LEN],
        sale: &Sale,
    ) -> Result<u32, Refusal> {
        store::take(key.bytes(), self.bytes, nonce_tail, sale)
    }

    /// Takes a sale out, of two alike the first in the chain, and frees its cell.
    ///
    /// Returns the sale's amount in cents, never its price.
    ///
    /// # Errors
    ///
    /// Those of [`check`](Self::check); then [`Ground::SaleNumbers`] where the store has no sale with
    /// these numbers; then [`Ground::Tag`], with the cell, where the sale won't open.
    ///
    /// # Examples
    ///
    /// ```
    /// use calmbaize::{Ground, Key, Refusal, Sale, Store, MEANS_COIN};
    ///
    /// let (mut buffer, key) = ([0; 128], Key::new([7; 32]));
    /// let mut store = Store::new(&mut buffer);
    /// store.format()?;
    /// let sale = Sale {
    ///     machine: 11, sale: 1, amount: 150, column: 4, means: MEANS_COIN, price: 149, day: 320,
    /// };
    /// store.take(&key, b"12345678", &sale)?;
    /// assert_eq!(store.cancel(&key, 11, 1), Ok(150));
    /// assert_eq!(store.cancel(&key, 11, 1), Err(Ground::SaleNumbers.into()));
    /// # Ok::<(), Refusal>(())
    /// ```
    pub fn cancel(&mut self, key: &Key, machine: u32, sale: u32) -> Result<u32, Refusal> {
        store::cancel(key.bytes(), self.bytes, machine, sale)
    }

    /// The cash total in cents: the sum of the amounts paid by
    /// [`MEANS_COIN`](crate::MEANS_COIN).
    ///
    /// # Errors
    ///
    /// Those of [`check`](Self::check); then [`Ground::Tag`], with the cell of the first sale in the
    /// chain, coin or not, that won't open.
    ///
    /// # Examples
    ///
    /// ```
    /// use calmbaize::{Ground, Key, Refusal, Sale, Store, MEANS_COIN};
    ///
    /// let (mut buffer, key) = ([0; 128], Key::new([7; 32]));
    /// let mut store = Store::new(&mut buffer);
    /// store.format()?;
    /// assert_eq!(store.total(&key), Ok(0));
    /// let sale = Sale {
    ///     machine: 11, sale: 1, amount: 150, column: 4, means: MEANS_COIN, price: 149, day: 320,
    /// };
    /// store.take(&key, b"12345678", &sale)?;
    /// assert_eq!(store.total(&key), Ok(150));
    /// let refusal = store.total(&Key::new([8; 32])).unwrap_err();
    /// assert_eq!((refusal.ground, refusal.place), (Ground::Tag, 1));
    /// # Ok::<(), Refusal>(())
    /// ```
    pub fn total(&self, key: &Key) -> Result<u64, Refusal> {
        store::total(key.bytes(), self.bytes)
    }

    /// Amount and listed price of a sale, of two alike the first in the chain. A sale that a version
    /// before 0.8.0 took has no price.
    ///
    /// # Errors
    ///
    /// Those of [`cancel`](Self::cancel).
    ///
    /// # Examples
    ///
    /// ```
    /// use calmbaize::{Key, LookUp, Refusal, Sale, Store, KIND_UNPRICED, MEANS_COIN};
    ///
    /// let (mut buffer, key) = ([0; 128], Key::new([7; 32]));
    /// let mut store = Store::new(&mut buffer);
    /// store.format()?;
    /// let sale = Sale {
    ///     machine: 11, sale: 1, amount: 150, column: 4, means: MEANS_COIN, price: 149, day: 320,
    /// };
    /// store.take(&key, b"12345678", &sale)?;
    /// let both = LookUp::Priced { amount: 150, price: 149 };
    /// assert_eq!(store.look_up(&key, 11, 1), Ok(both));
    ///
    /// // As such a version has stored it.
    /// buffer[64 + 2] = KIND_UNPRICED;
    /// let alone = LookUp::Unpriced { amount: 150 };
    /// assert_eq!(Store::new(&mut buffer).look_up(&key, 11, 1), Ok(alone));
    /// # Ok::<(), Refusal>(())
    /// ```
    pub fn look_up(&self, key: &Key, machine: u32, sale: u32) -> Result<LookUp, Refusal> {
        store::look_up(key.bytes(), self.bytes, machine, sale)
    }

    /// A sale, of two alike the first in the chain, as a part of the buffer itself, with its kind.
    ///
    /// # Errors
    ///
    /// Those of [`check`](Self::check); then [`Ground::SaleNumbers`] where the store has no sale with
    /// these numbers.
    ///
    /// # Examples
    ///
    /// ```
    /// use calmbaize::{Ground, Key, Refusal, Sale, Store, MEANS_COIN};
    ///
    /// let (mut buffer, key) = ([0; 128], Key::new([7; 32]));
    /// let mut store = Store::new(&mut buffer);
    /// store.format()?;
    /// let sale = Sale {
    ///     machine: 11, sale: 1, amount: 150, column: 4, means: MEANS_COIN, price: 149, day: 320,
    /// };
    /// store.take(&key, b"12345678", &sale)?;
    /// assert_eq!(store.read(11, 1)?.part[..16], *b"\x0b\0\0\0\x01\0\0\012345678");
    /// assert_eq!(store.read(11, 2), Err(Ground::SaleNumbers.into()));
    /// # Ok::<(), Refusal>(())
    /// ```
    pub fn read(&self, machine: u32, sale: u32) -> Result<SealedSale<'_>, Refusal> {
        let offset = store::read(self.bytes, machine, sale)?;
        let cell = offset.checked_sub(CELL_LEN - SALE_LEN);
        let cell = cell.and_then(|cell| self.bytes.get(cell..)?.first_chunk());
        // An archive that answers another offset is of a version that this crate does not know.
        cell.map(sealed).ok_or(Refusal::new(0, offset as u32))
    }

    /// The sales of the chain, the last one taken first: of each its cell, and what
    /// [`read`](Self::read) gives too.
    ///
    /// # Errors
    ///
    /// Those of [`check`](Self::check).
    ///
    /// # Examples
    ///
    /// ```
    /// use calmbaize::{Key, Refusal, Sale, Store, MEANS_COIN};
    ///
    /// let (mut buffer, key) = ([0; 256], Key::new([7; 32]));
    /// let mut store = Store::new(&mut buffer);
    /// store.format()?;
    /// let first = Sale {
    ///     machine: 11, sale: 1, amount: 150, column: 4, means: MEANS_COIN, price: 149, day: 320,
    /// };
    /// store.take(&key, b"12345678", &first)?;
    /// store.take(&key, b"12345679", &Sale { sale: 2, ..first })?;
    /// let mut sales = store.sales()?.map(|(cell, sealed)| (cell, sealed.numbers()));
    /// assert_eq!(sales.next(), Some((2, (11, 2))));
    /// assert_eq!(sales.next(), Some((1, (11, 1))));
    /// assert_eq!(sales.next(), None);
    /// # Ok::<(), Refusal>(())
    /// ```
    pub fn sales(&self) -> Result<Sales<'_>, Refusal> {
        // Whatever numbers are asked for, the form is checked before they are sought.
        match self.read(0, 0) {
            Err(refusal) if refusal.ground != Ground::SaleNumbers => Err(refusal),
            _ => Ok(Sales {
                store: self.bytes,
                next: index(self.bytes),
            }),
        }
    }
}

/// How the cells of a store are used. See [`Store::check`].
#[derive(Clone, Copy, Debug, PartialEq, Eq)]
pub struct Occupancy {
    /// All cells, cell 0 too.
    pub cells: usize,
    /// Cells that hold a sale.
    pub sales: usize,
    /// Cells that are free.
    pub free: usize,
}

/// The sales of a store whose form is right, so that their chain ends. See [`Store::sales`].
#[derive(Clone, Debug)]
pub struct Sales<'a> {
    store: &'a [u8],
    next: usize,
}

impl<'a> Iterator for Sales<'a> {
    type Item = (u32, SealedSale<'a>);

    fn next(&mut self) -> Option<Self::Item> {
        let cell = self.next;
        if cell == 0 {
            return None;
        }
        let bytes = self.store.get(cell * CELL_LEN..)?.first_chunk()?;
        self.next = index(bytes);
        Some((cell as u32, sealed(bytes)))
    }
}

/// The sale in a cell, behind the next one's index.
const fn sealed(cell: &[u8; CELL_LEN]) -> SealedSale<'_> {
    let [_, _, kind, part @ ..] = cell;
    SealedSale { kind: *kind, part }
}

/// The index that a cell begins with: the first sale's in cell 0, the next one's in the others.
fn index(cell: &[u8]) -> usize {
    cell.first_chunk()
        .map_or(0, |&index| u16::from_le_bytes(index).into())
}
