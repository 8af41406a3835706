//! A case of a file: a call line and its answer line.

use crate::call::{Call, Value};
use crate::entry::{Arg, Entry, Kind};
use crate::library::Library;
use crate::pages::{self, Edge};
use crate::text::{hex, number, Bytes};
use std::str::Split;

/// The cases of a file by the number of their call line, or what is wrong with the file.
pub fn cases(text: &str) -> Result<Vec<(usize, &str, &str)>, String> {
    let lines: Vec<&str> = text.split_terminator('\n').collect();
    if !text.ends_with('\n') {
        return Err("no case, or a last line that does not end".into());
    }
    if lines.len() % 2 == 1 {
        return Err("the last call has no answer".into());
    }
    let pairs = lines.chunks_exact(2).enumerate();
    Ok(pairs
        .map(|(i, pair)| (2 * i + 1, pair[0], pair[1]))
        .collect())
}

/// A call line, by the kinds of its call's arguments.
pub struct Case {
    entry: &'static Entry,
    fields: Vec<Field>,
    edge: Edge,
    /// Empty buffers are null pointers.
    null: bool,
}

/// An argument as it is written.
enum Field {
    Number(i64),
    /// The bytes of a number that the call may change.
    Variable(Vec<u8>),
    Bytes(Bytes),
}

impl Field {
    fn parse(arg: Arg, text: &str) -> Result<Self, String> {
        match arg.kind() {
            Kind::Choice(..) => number::<u32>(text).map(|number| Self::Number(number.into())),
            Kind::Number(max) => match number::<u32>(text)? {
                number if number <= max => Ok(Self::Number(number.into())),
                number => Err(format!("{number} where the call takes {max} at most")),
            },
            Kind::Count(_) => {
                let (sign, digits) = text.strip_prefix('-').map_or((1, text), |rest| (-1, rest));
                let count = number::<u32>(digits)?;
                let count = i32::try_from(sign * i64::from(count));
                let count = count.map_err(|_| format!("'{text}' does not fit"))?;
                Ok(Self::Number(count.into()))
            }
            Kind::Variable(len) => variable(len, text).map(Self::Variable),
            _ => {
                let bytes = Bytes::parse(text)?;
                let len = bytes.bytes.len();
                if arg.can_be(len) {
                    return Ok(Self::Bytes(bytes));
                }
                Err(format!("{len} bytes can't be the argument {arg:?}"))
            }
        }
    }

    fn value(&self) -> Value {
        match self {
            Self::Number(number) => Value::Number(*number),
            Self::Variable(bytes) => Value::Bytes(bytes.clone()),
            Self::Bytes(bytes) => Value::Bytes(bytes.bytes.clone()),
        }
    }

    /// What differs where the argument is `now` after the call, by the answer's `text`.
    fn differs(&self, text: &str, now: &[u8]) -> Result<Option<String>, String> {
        let wanted = match self {
            Self::Number(_) => return Err("a number that the call writes".into()),
            Self::Variable(before) => {
                let wanted = variable(before.len(), text)?;
                let difference = || format!("the variable to be {text}, and is {}", held(now));
                return Ok((now != wanted).then(difference));
            }
            Self::Bytes(before) => before.after(text)?,
        };
        let differing = wanted.iter().zip(now).position(|(a, b)| a != b);
        Ok(differing.map(|at| {
            let (wanted, got) = (hex(&wanted[at..]), hex(&now[at..]));
            format!("from byte {at} of {} wanted {wanted}, got {got}", now.len())
        }))
    }
}

/// A variable of `len` bytes that holds the number of `text`.
fn variable(len: usize, text: &str) -> Result<Vec<u8>, String> {
    match len {
        4 => number::<u32>(text).map(|number| number.to_ne_bytes().into()),
        _ => number::<u64>(text).map(|number| number.to_ne_bytes().into()),
    }
}

/// The number that such a variable holds.
fn held(bytes: &[u8]) -> u64 {
    match bytes.try_into() {
        Ok(four) => u32::from_ne_bytes(four).into(),
        Err(_) => u64::from_ne_bytes(bytes.try_into().expect("eight bytes")),
    }
}

impl Case {
    /// The case of the `fields` behind a call's word.
    pub fn new(entry: &'static Entry, fields: &str) -> Result<Self, String> {
        let mut texts = fields.split(' ');
        let (edge, null) = match number::<u32>(next(&mut texts)?)? {
            0 => (Edge::Last, false),
            1 => (Edge::First, false),
            2 => (Edge::Last, true),
            edge => return Err(format!("no edge {edge}")),
        };
        let field = |&arg: &Arg| Field::parse(arg, next(&mut texts)?);
        let fields = entry.args.iter().map(field).collect::<Result<_, _>>()?;
        none_left(texts)?;
        Ok(Self {
            entry,
            fields,
            edge,
            null,
        })
    }

    /// Makes the call and holds it against the answer line: the number and the value, and then what
    /// the call writes.
    pub fn replay(&self, library: Library, answer: &str) -> Result<(), String> {
        let (entry, values) = (self.entry, self.fields.iter().map(Field::value).collect());
        let mut lent = pages::lent(&Call { entry, values }, self.edge);
        let got = lent.call(library, self.null);
        let now = lent.now();
        let mut texts = answer.split(' ');
        let mut differences = Vec::new();
        let (n, v): (u32, u32) = (number(next(&mut texts)?)?, number(next(&mut texts)?)?);
        let (m, w) = ((got >> 32) as u32, got as u32);
        if (n, v) != (m, w) {
            differences.push(format!("wanted {n} {v}, got {m} {w}"));
        }
        for (arg, field) in entry.args.iter().zip(&self.fields) {
            if entry.writes.contains(arg) {
                differences.extend(field.differs(next(&mut texts)?, &now[*arg])?);
            }
        }
        none_left(texts)?;
        if differences.is_empty() {
            return Ok(());
        }
        Err(differences.join("; "))
    }
}

fn next<'a>(fields: &mut Split<'a, char>) -> Result<&'a str, String> {
    fields.next().ok_or_else(|| "a field is missing".into())
}

fn none_left(mut fields: Split<char>) -> Result<(), String> {
    fields
        .next()
        .map_or(Ok(()), |_| Err("a field too many".into()))
}

#[cfg(test)]
mod tests {
    use super::*;
    use crate::calls::SEAL;

    #[test]
    fn lines_come_in_pairs() {
        let two = "call 1\nanswer 1\ncall 2\nanswer 2\n";
        let wanted = vec![(1, "call 1", "answer 1"), (3, "call 2", "answer 2")];
        assert_eq!(cases(two), Ok(wanted));
        for wrong in ["", "\n", "call\n", "call\nanswer", "call\nanswer\n\n"] {
            assert!(cases(wrong).is_err(), "{wrong:?}");
        }
    }

    fn replay(entry: &'static Entry, fields: &str, answer: &str) -> Result<(), String> {
        Case::new(entry, fields)?.replay(Library::Reference, answer)
    }

    /// `number input lent`, a call that writes the number to all of the lent bytes.
    static FILL: Entry = Entry {
        args: &[Arg::Means, Arg::Header, Arg::Output],
        writes: &[Arg::Output],
        reference: |a| {
            let (fill, input) = (a.next(), a.next::<&[u8]>());
            a.next::<&mut [u8]>().fill(fill);
            Err((7, input.len() as u32))
        },
        ..SEAL
    };

    fn replayed(fields: &str, answer: &str) -> Result<(), String> {
        replay(&FILL, fields, answer)
    }

    #[test]
    fn agreeing_cases() {
        for edge in [0, 1, 2] {
            let agrees = |fields: &str, answer| replayed(&format!("{edge} {fields}"), answer);
            assert_eq!(agrees("5 0102 ffff", "7 2 0505"), Ok(()));
            assert_eq!(agrees("5 - -", "7 0 -"), Ok(()));
            assert_eq!(agrees("5 *5000:01 *2:00", "7 5000 @0:0505"), Ok(()));
            assert_eq!(agrees("0 00 *9:00", "7 1 ="), Ok(()));
        }
    }

    #[test]
    fn differences_are_named() {
        let differs = |answer| replayed("0 5 01 ffffff", answer).unwrap_err();
        assert_eq!(differs("6 1 050505"), "wanted 6 1, got 7 1");
        assert_eq!(differs("7 0 050505"), "wanted 7 0, got 7 1");
        let at = "from byte 1 of 3 wanted 0605, got 0505";
        assert_eq!(differs("7 1 050605"), at);
        assert_eq!(differs("0 1 050605"), format!("wanted 0 1, got 7 1; {at}"));
    }

    /// `words`, a call that adds one to each word.
    static ADD: Entry = Entry {
        args: &[Arg::Words],
        writes: &[Arg::Words],
        reference: |a| {
            let words: &mut [u64] = a.next();
            words.iter_mut().for_each(|word| *word += 1);
            Ok(0)
        },
        ..SEAL
    };

    #[test]
    fn words_are_their_bytes() {
        for edge in [0, 1, 2] {
            let agrees = |fields: &str, answer| replay(&ADD, &format!("{edge} {fields}"), answer);
            let two = (
                "ff00000000000000fffffffeffffffff",
                "0 0 0001000000000000000000ffffffffff",
            );
            assert_eq!(agrees(two.0, two.1), Ok(()));
            assert_eq!(agrees("*16:00", "0 0 @0:01@8:01"), Ok(()));
            assert_eq!(agrees("-", "0 0 -"), Ok(()));
        }
        let odd = replay(&ADD, "0 *12:00", "0 0 =");
        assert_eq!(odd, Err("12 bytes can't be the argument Words".into()));
    }

    /// `variable count tail`, a call that adds the count.
    static COUNT: Entry = Entry {
        args: &[Arg::Total, Arg::Alpha, Arg::Tail],
        writes: &[Arg::Total],
        reference: |a| {
            let (total, count): (&mut [u64], i32) = (a.next(), a.next());
            total[0] = total[0].wrapping_add_signed(count.into());
            Ok(0)
        },
        ..SEAL
    };

    #[test]
    fn variables_and_counts() {
        for edge in [0, 1, 2] {
            let added = |fields: &str, answer| replay(&COUNT, &format!("{edge} {fields}"), answer);
            assert_eq!(added("4294967295 2 *8:00", "0 0 4294967297"), Ok(()));
            assert_eq!(
                added("5 -2147483648 *8:00", "0 0 18446744071562067973"),
                Ok(())
            );
            let differs = "the variable to be 8, and is 7";
            assert_eq!(added("5 2 *8:00", "0 0 8"), Err(differs.into()));
            for fields in [
                "5 2 *7:00",
                "5 2 *9:00",
                "5 --2 *8:00",
                "5 2147483648 *8:00",
            ] {
                assert!(added(fields, "0 0 7").is_err(), "{fields}");
            }
            assert!(added("5 2 *8:00", "0 0 07x").is_err());
        }
    }

    /// `variable variable`, a call that copies the first one of 32 bits to the second.
    static COPY: Entry = Entry {
        args: &[Arg::FoundAmount, Arg::FoundPrice],
        writes: &[Arg::FoundAmount, Arg::FoundPrice],
        reference: |a| {
            let [from, to]: [&mut [u32]; 2] = a.next();
            to[0] = from[0];
            Ok(0)
        },
        ..SEAL
    };

    #[test]
    fn variables_of_32_bits() {
        for edge in [0, 1, 2] {
            let copied = |fields: &str, answer| replay(&COPY, &format!("{edge} {fields}"), answer);
            assert_eq!(copied("4294967295 1", "0 0 4294967295 4294967295"), Ok(()));
            let differs = "the variable to be 1, and is 4294967295";
            assert_eq!(
                copied("4294967295 1", "0 0 4294967295 1"),
                Err(differs.into())
            );
            assert!(copied("4294967296 1", "0 0 0 0").is_err());
            assert!(copied("0 1", "0 0 0 4294967296").is_err());
        }
    }

    #[test]
    fn lines_of_another_form_fail() {
        for (fields, answer) in [
            ("", "7 1 05"),
            ("3 5 01 ff", "7 1 05"),
            ("0 5 01", "7 1 05"),
            ("0 5 01 ff ff", "7 1 05"),
            ("0 5  01 ff", "7 1 05"),
            ("0 256 01 ff", "7 1 05"),
            ("0 5 1 ff", "7 1 05"),
            ("0 5 01 ff", ""),
            ("0 5 01 ff", "7 1"),
            ("0 5 01 ff", "7 1 05 05"),
            ("0 5 01 ff", "7 1 0505"),
            ("0 5 01 *1:ff", "7 1 05"),
            ("0 5 01 ff", "7 1 05\r"),
        ] {
            assert!(replayed(fields, answer).is_err(), "{fields} / {answer}");
        }
        assert_eq!(replayed("0 5 01 ff", "7 1 05"), Ok(()));
    }
}
