//! A call with all its arguments.

use crate::entry::{Arg, Entry, Kind};
use reference::{run_len, TAG_LEN};
use std::fmt;
use std::ops::{Index, IndexMut};

/// An argument's value. Words and variables are given by their bytes.
#[derive(Clone, PartialEq)]
pub enum Value {
    Number(i64),
    Bytes(Vec<u8>),
}

impl Value {
    /// No bytes.
    pub const NONE: Self = Self::Bytes(Vec::new());
}

impl From<u32> for Value {
    fn from(number: u32) -> Self {
        Self::Number(number.into())
    }
}

impl From<i32> for Value {
    fn from(number: i32) -> Self {
        Self::Number(number.into())
    }
}

impl From<Vec<u8>> for Value {
    fn from(bytes: Vec<u8>) -> Self {
        Self::Bytes(bytes)
    }
}

impl From<&[u8]> for Value {
    fn from(bytes: &[u8]) -> Self {
        Self::Bytes(bytes.into())
    }
}

/// A call.
#[derive(Clone)]
pub struct Call {
    pub entry: &'static Entry,
    /// As many as the entry point has arguments.
    pub values: Vec<Value>,
}

impl Call {
    /// A call whose arguments have these values.
    pub fn new(entry: &'static Entry, value: impl FnMut(Arg) -> Value) -> Self {
        let values = entry.args.iter().copied().map(value).collect();
        Self { entry, values }
    }

    /// Another call with the same arguments, as far as this one has them. Its output and its words
    /// are just enough.
    pub fn turned(&self, entry: &'static Entry) -> Self {
        let value = |arg: Arg| match (self.place(arg), arg.kind()) {
            (Some(place), _) => self.values[place].clone(),
            (_, Kind::Choice(..) | Kind::Count(_) | Kind::Number(_)) => Value::Number(0),
            _ => Value::NONE,
        };
        Self::new(entry, value).fitted()
    }

    /// This call with other bytes for an argument.
    pub fn with(mut self, arg: Arg, bytes: Vec<u8>) -> Self {
        self[arg] = bytes;
        self
    }

    /// This call with output and words that are just enough.
    pub fn fitted(mut self) -> Self {
        self.fit();
        self
    }

    /// Lends output and words that are just enough.
    pub fn fit(&mut self) {
        self.lend(Arg::Output, 0);
        self.lend(Arg::Words, 0);
    }

    /// Lends so many bytes more than are needed for an argument, or fewer. Says whether that can be.
    pub fn lend(&mut self, arg: Arg, more: isize) -> bool {
        if !self.entry.takes(arg) {
            return false;
        }
        let len = self.needed(arg).checked_add_signed(more);
        if let Some(len) = len {
            self[arg] = pattern(len);
        }
        len.is_some()
    }

    /// The output of a call that has one.
    pub fn output(&self) -> &[u8] {
        if self.entry.takes(Arg::Output) {
            &self[Arg::Output]
        } else {
            &[]
        }
    }

    /// The bytes that the output or the words need.
    pub fn needed(&self, arg: Arg) -> usize {
        match arg {
            Arg::Words => 8 * self.run_len(),
            _ => (self.entry.written)(self.input().map_or(0, |input| self[input].len())),
        }
    }

    /// Words of the run that this call needs.
    fn run_len(&self) -> usize {
        let message_len = match self.input() {
            Some(Arg::Parcel) => self[Arg::Parcel].len().saturating_sub(TAG_LEN),
            _ => self[Arg::Message].len(),
        };
        run_len(self[Arg::Header].len(), message_len)
    }

    /// The argument that is a message or a parcel.
    pub fn input(&self) -> Option<Arg> {
        [Arg::Message, Arg::Parcel]
            .into_iter()
            .find(|&arg| self.entry.takes(arg))
    }

    fn place(&self, arg: Arg) -> Option<usize> {
        self.entry.args.iter().position(|&other| other == arg)
    }

    /// The value of a number that the call has.
    pub fn number(&self, arg: Arg) -> u32 {
        match self.place(arg).map(|place| &self.values[place]) {
            Some(&Value::Number(number)) => number as u32,
            _ => panic!("{self} has no number {arg:?}"),
        }
    }

    /// Another value for such a number.
    pub fn set(&mut self, arg: Arg, number: impl Into<Value>) {
        let place = self.place(arg).expect("a number of the call");
        self.values[place] = number.into();
    }
}

impl Index<Arg> for Call {
    type Output = Vec<u8>;

    fn index(&self, arg: Arg) -> &Vec<u8> {
        match self.place(arg).map(|place| &self.values[place]) {
            Some(Value::Bytes(bytes)) => bytes,
            _ => panic!("{self} has no buffer {arg:?}"),
        }
    }
}

impl IndexMut<Arg> for Call {
    fn index_mut(&mut self, arg: Arg) -> &mut Vec<u8> {
        match self.place(arg).map(|place| &mut self.values[place]) {
            Some(Value::Bytes(bytes)) => bytes,
            _ => panic!("no buffer {arg:?}"),
        }
    }
}

impl fmt::Display for Call {
    fn fmt(&self, f: &mut fmt::Formatter<'_>) -> fmt::Result {
        write!(f, "{}", self.entry.name)?;
        for (arg, value) in self.entry.args.iter().zip(&self.values) {
            match value {
                Value::Number(number) => write!(f, ", {arg:?} {number}")?,
                Value::Bytes(bytes) => write!(f, ", {arg:?} of {}", bytes.len())?,
            }
        }
        Ok(())
    }
}

/// What a buffer holds before a call that does not read it: never the same byte twice in a row.
pub fn pattern(len: usize) -> Vec<u8> {
    (0..len).map(|i| (i * 37 + 11) as u8).collect()
}
