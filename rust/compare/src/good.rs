//! A seal call, and every call on its message and on its parcels.

use crate::call::{Call, Value};
use crate::calls::{sealing, SEAL};
use crate::entry::Arg::{Header, Key, Message, Mode, Nonce, Parcel, Rounds};
use crate::entry::Entry;
use crate::library::refusal;
use crate::prng::Prng;
use reference::{seal_under, Start, KEY_LEN, NONCE_LEN, TAG_LEN};

/// A call of which no ground of refusal holds but its parcel's start, and what comes of it.
pub struct Good {
    pub call: Call,
    pub answer: u64,
    /// What the output then begins with.
    pub written: Vec<u8>,
}

impl Good {
    fn new(call: Call, number: u32, written: &[u8]) -> Self {
        let (answer, written) = match number {
            0 => (written.len() as u64, written.to_vec()),
            _ => (refusal(number, 0), Vec::new()),
        };
        Self {
            call,
            answer,
            written,
        }
    }

    /// It is not refused with 9.
    pub fn opens(&self) -> bool {
        self.answer != refusal(9, 0)
    }
}

impl Call {
    /// A seal call of random buffers. Its output is as long as the parcel.
    pub fn seal(prng: &mut Prng, mode: u32, rounds: u32, header_len: usize, len: usize) -> Self {
        let seal = Self::new(&SEAL, |arg| match arg {
            Mode => mode.into(),
            Rounds => rounds.into(),
            Key => prng.bytes(KEY_LEN).into(),
            Nonce => prng.bytes(NONCE_LEN).into(),
            Header => prng.bytes(header_len).into(),
            Message => prng.bytes(len).into(),
            _ => Value::NONE,
        });
        seal.fitted()
    }

    /// What the second implementation seals under a start with the buffers of a seal call, however
    /// short its output is; zeros where another ground refuses it.
    pub fn parcel(&self, start: Start) -> Vec<u8> {
        let [mode, rounds] = [Mode, Rounds].map(|arg| self.number(arg));
        let mut parcel = vec![0; self[Message].len() + TAG_LEN];
        let inputs = [Key, Nonce, Header, Message].map(|arg| &*self[arg]);
        seal_under(start, mode, rounds, inputs, &mut parcel).ok();
        parcel
    }

    /// Every call that seals or takes a parcel with the arguments of this seal call.
    pub fn good_calls(&self) -> Vec<Good> {
        let [new, old] = [Start::New, Start::Old].map(|start| self.parcel(start));
        let mut calls = Vec::new();
        for entry in sealing() {
            let call = self.turned(entry);
            if entry.takes(Message) {
                calls.push(Good::new(call, 0, &new));
                continue;
            }
            for &(start, number) in entry.parcels {
                let parcel = if start == Start::New { &new } else { &old };
                let call = call.clone().with(Parcel, parcel.clone()).fitted();
                let written = match call.output().len() {
                    0 => &[][..],
                    len if len == self[Message].len() => &self[Message],
                    _ => &new,
                };
                calls.push(Good::new(call, number, written));
            }
        }
        calls
    }

    /// A call on the parcel that this seal call has under a start.
    pub fn on_parcel(&self, entry: &'static Entry, start: Start) -> Self {
        self.turned(entry).with(Parcel, self.parcel(start)).fitted()
    }
}
