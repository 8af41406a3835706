//! The libraries: two with the C interface, and the second implementation behind the same face.

use crate::call::{Call, Value};
use crate::entry::Entry;
use crate::report::Watched;
use std::ops::{Deref, DerefMut};

/// A library under test.
#[derive(Clone, Copy)]
pub enum Library {
    /// The archive of the proved library.
    #[cfg(feature = "archive")]
    Archive,
    /// The scalar C version.
    Baseline,
    /// The second implementation itself, to be held against answers that come from elsewhere.
    Reference,
}

/// The archive, where this program is linked with it.
#[cfg(feature = "archive")]
pub const ARCHIVE: Option<Library> = Some(Library::Archive);
#[cfg(not(feature = "archive"))]
pub const ARCHIVE: Option<Library> = None;

/// A call of the C interface in both libraries that have it.
#[derive(Clone, Copy)]
pub struct Function {
    #[cfg(feature = "archive")]
    pub archive: fn(&mut Slots) -> u64,
    pub baseline: fn(&mut Slots) -> u64,
}

/// A [`Function`] by its names, behind the caller of functions with so many parameters.
macro_rules! function {
    ($caller:ident, $archive:ident, $baseline:ident) => {
        crate::library::Function {
            #[cfg(feature = "archive")]
            archive: |slots| crate::library::$caller(calmbaize::ffi::$archive, slots),
            baseline: |slots| crate::library::$caller(baseline::$baseline, slots),
        }
    };
}
pub(crate) use function;

/// Callers of C functions: each parameter takes what it needs of the arguments.
macro_rules! callers {
    ($($caller:ident($($parameter:ident)*))*) => {$(
        #[expect(non_snake_case, reason = "a parameter is named as its type is")]
        pub fn $caller<'a, $($parameter: Taken<'a>),*>(
            function: unsafe extern "C" fn($($parameter),*) -> u64,
            slots: &mut Slots<'a>,
        ) -> u64 {
            $(let $parameter = slots.next();)*
            slots.all_taken();
            // SAFETY: a pointer is valid for the length behind it, or for what the argument's kind
            // says, or null with length 0; what is written is borrowed mutably, so it overlaps
            // nothing else; and words are aligned.
            unsafe { function($($parameter),*) }
        }
    )*};
}

callers! {
    c2(A B)
    c4(A B C D)
    c5(A B C D E)
    c6(A B C D E F)
    c7(A B C D E F G)
    c8(A B C D E F G H)
    c11(A B C D E F G H I J K)
    c12(A B C D E F G H I J K L)
    c14(A B C D E F G H I J K L M N)
}

/// An argument in memory: a number, a buffer that is only read, or one that the call writes.
pub enum Held<R, W> {
    Number(i64),
    Read(R),
    Written(W),
}

/// All arguments of a call in memory.
pub struct Lent<R, W> {
    entry: &'static Entry,
    pub held: Vec<Held<R, W>>,
}

impl<R: Deref<Target = [u8]>, W: DerefMut<Target = [u8]>> Lent<R, W> {
    /// The arguments of `call`, its buffers put into memory by these two.
    pub fn new<'a>(
        call: &'a Call,
        read: impl Fn(&'a [u8]) -> R,
        written: impl Fn(&'a [u8]) -> W,
    ) -> Self {
        let entry = call.entry;
        let pairs = entry.args.iter().zip(&call.values);
        let held = pairs.map(|(arg, value)| match value {
            Value::Number(number) => Held::Number(*number),
            Value::Bytes(bytes) => {
                assert!(arg.can_be(bytes.len()), "{call}: {arg:?}");
                match entry.writes.contains(arg) {
                    true => Held::Written(written(bytes)),
                    false => Held::Read(read(bytes)),
                }
            }
        });
        let held = held.collect();
        Self { entry, held }
    }

    /// Makes the call. Where `null` is set, the C interface gets empty buffers as null pointers.
    pub fn call(&mut self, library: Library, null: bool) -> u64 {
        let entry = self.entry;
        let slots = self.held.iter_mut().map(|held| match held {
            Held::Number(number) => Slot::Number(*number),
            Held::Read(bytes) => Slot::Read(bytes),
            Held::Written(bytes) => Slot::Written(bytes),
        });
        let slots = slots.collect::<Vec<Slot>>();
        let mut slots = Slots {
            slots: slots.into_iter(),
            len: 0,
            null,
        };
        match library {
            #[cfg(feature = "archive")]
            Library::Archive => (entry.function.archive)(&mut slots),
            Library::Baseline => (entry.function.baseline)(&mut slots),
            Library::Reference => match (entry.reference)(&mut slots) {
                Ok(value) => value as u64,
                Err((number, place)) => refusal(number, place),
            },
        }
    }

    /// The arguments as they are now.
    pub fn now(self) -> Call
    where
        Value: From<R>,
    {
        let value = |held: Held<R, W>| match held {
            Held::Number(number) => Value::Number(number),
            Held::Read(bytes) => bytes.into(),
            Held::Written(bytes) => bytes[..].into(),
        };
        let (entry, values) = (self.entry, self.held.into_iter().map(value).collect());
        Call { entry, values }
    }
}

impl Library {
    /// Makes a call. Returns the answer and the arguments afterwards.
    pub fn call(self, call: &Call) -> (u64, Call) {
        let mut lent = Lent::new(call, |bytes| bytes, Watched::new);
        (lent.call(self, false), lent.now())
    }
}

/// An argument as it is handed over.
enum Slot<'a> {
    Number(i64),
    Read(&'a [u8]),
    Written(&'a mut [u8]),
}

/// The arguments that are still to be handed over.
pub struct Slots<'a> {
    slots: std::vec::IntoIter<Slot<'a>>,
    /// The length of the buffer whose pointer was taken last.
    len: usize,
    null: bool,
}

impl<'a> Slots<'a> {
    /// The next argument, or the length of the one before.
    pub fn next<T: Taken<'a>>(&mut self) -> T {
        T::taken(self)
    }

    fn all_taken(&self) {
        assert_eq!(self.slots.len(), 0, "arguments left");
    }
}

/// A parameter, by what it takes of the arguments.
pub trait Taken<'a>: Sized {
    fn taken(slots: &mut Slots<'a>) -> Self;
}

macro_rules! numbers {
    ($($number:ty)*) => {$(
        impl<'a> Taken<'a> for $number {
            fn taken(slots: &mut Slots<'a>) -> Self {
                match slots.slots.next() {
                    Some(Slot::Number(number)) => number.try_into().expect("a number that fits"),
                    _ => panic!("no number"),
                }
            }
        }
    )*};
}

numbers! { u8 u16 u32 i32 }

impl<'a> Taken<'a> for bool {
    fn taken(slots: &mut Slots<'a>) -> Self {
        slots.next::<u8>() != 0
    }
}

impl<'a> Taken<'a> for &'a [u8] {
    fn taken(slots: &mut Slots<'a>) -> Self {
        match slots.slots.next() {
            Some(Slot::Read(bytes)) => bytes,
            _ => panic!("no buffer that is read"),
        }
    }
}

impl<'a> Taken<'a> for &'a mut [u8] {
    fn taken(slots: &mut Slots<'a>) -> Self {
        match slots.slots.next() {
            Some(Slot::Written(bytes)) => bytes,
            _ => panic!("no buffer that is written"),
        }
    }
}

macro_rules! words {
    ($($word:ty)*) => {$(
        impl<'a> Taken<'a> for &'a mut [$word] {
            fn taken(slots: &mut Slots<'a>) -> Self {
                // SAFETY: any bytes, as many as a word has, are one.
                let (before, words, after) = unsafe { slots.next::<&mut [u8]>().align_to_mut() };
                assert!(before.is_empty() && after.is_empty(), "no buffer of words");
                words
            }
        }
    )*};
}

words! { u32 u64 }

impl<'a, T: Taken<'a>, const N: usize> Taken<'a> for [T; N] {
    fn taken(slots: &mut Slots<'a>) -> Self {
        std::array::from_fn(|_| slots.next())
    }
}

impl<'a> Taken<'a> for *const u8 {
    fn taken(slots: &mut Slots<'a>) -> Self {
        let bytes: &[u8] = slots.next();
        slots.len = bytes.len();
        if slots.null && bytes.is_empty() {
            return std::ptr::null();
        }
        bytes.as_ptr()
    }
}

impl<'a, T: 'a> Taken<'a> for *mut T
where
    &'a mut [T]: Taken<'a>,
{
    fn taken(slots: &mut Slots<'a>) -> Self {
        let buffer: &mut [T] = slots.next();
        slots.len = buffer.len();
        if slots.null && buffer.is_empty() {
            return std::ptr::null_mut();
        }
        buffer.as_mut_ptr()
    }
}

impl<'a> Taken<'a> for usize {
    fn taken(slots: &mut Slots<'a>) -> Self {
        slots.len
    }
}

/// The answer of a refused call.
pub const fn refusal(number: u32, place: u32) -> u64 {
    (number as u64) << 32 | place as u64
}
