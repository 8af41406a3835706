//! Byte strings and numbers as case files write them; `cases/README.md` has the format.

use reference::store::CELL_LEN;
use std::str::FromStr;

/// A byte string of a call line.
#[derive(Debug, PartialEq, Eq)]
pub struct Bytes {
    pub bytes: Vec<u8>,
    /// Written in a short form, so that the answer line gives only what changed.
    short: bool,
}

impl Bytes {
    /// What `text` stands for.
    pub fn parse(text: &str) -> Result<Self, String> {
        let (bytes, short) = match text.as_bytes() {
            [b'*', ..] => (repeated(&text[1..])?, true),
            [b'F' | b'S', ..] => (store(text)?, true),
            _ => (plain(text)?, false),
        };
        Ok(Self { bytes, short })
    }

    /// What a buffer lent with these bytes holds after the call, by the answer's `text`.
    pub fn after(&self, text: &str) -> Result<Vec<u8>, String> {
        let after = if self.short {
            self.changed(text)?
        } else {
            plain(text)?
        };
        if after.len() == self.bytes.len() {
            return Ok(after);
        }
        let (lent, given) = (self.bytes.len(), after.len());
        Err(format!("{lent} bytes are lent, and the answer has {given}"))
    }

    /// `=` for no change, or `@offset:hex` for each run of bytes that changed, in rising order.
    fn changed(&self, text: &str) -> Result<Vec<u8>, String> {
        let mut after = self.bytes.clone();
        if text == "=" {
            return Ok(after);
        }
        let runs = patches(text)?;
        if runs.is_empty() || !rising(&runs) {
            return Err(format!("'{}' are no rising runs", shortened(text)));
        }
        apply(&runs, &mut after)?;
        Ok(after)
    }
}

/// A decimal number, digits only.
pub fn number<T: FromStr>(text: &str) -> Result<T, String> {
    let digits = text.bytes().all(|byte| byte.is_ascii_digit());
    let value = if digits { text.parse().ok() } else { None };
    value.ok_or_else(|| format!("'{}' is no number that fits", shortened(text)))
}

/// `-` for none, or two hexadecimal digits for each byte.
fn plain(text: &str) -> Result<Vec<u8>, String> {
    match text {
        "-" => Ok(Vec::new()),
        _ => hexadecimal(text),
    }
}

fn hexadecimal(text: &str) -> Result<Vec<u8>, String> {
    let wrong = || format!("'{}' is no byte string", shortened(text));
    let digit = |byte: u8| match byte {
        b'0'..=b'9' => Some(byte - b'0'),
        b'a'..=b'f' => Some(byte - b'a' + 10),
        _ => None,
    };
    if text.is_empty() || text.len() % 2 == 1 {
        return Err(wrong());
    }
    let pairs = text.as_bytes().chunks_exact(2);
    pairs
        .map(|pair| Some(digit(pair[0])? << 4 | digit(pair[1])?))
        .collect::<Option<_>>()
        .ok_or_else(wrong)
}

/// `N:hh` behind the star.
fn repeated(text: &str) -> Result<Vec<u8>, String> {
    let (count, byte) = text.split_once(':').ok_or("a '*' without a ':'")?;
    match hexadecimal(byte)?[..] {
        [byte] => Ok(vec![byte; number(count)?]),
        _ => Err(format!("'{}' is not one byte", shortened(byte))),
    }
}

/// `Fn` or `Sn`, and patches.
fn store(text: &str) -> Result<Vec<u8>, String> {
    let end = text.find('@').unwrap_or(text.len());
    let (form, text) = text.split_at(end);
    let cells = number(&form[1..])?;
    let mut store = chained(cells, form.starts_with('S'))?;
    apply(&patches(text)?, &mut store)?;
    Ok(store)
}

/// A store of `cells` cells, those behind cell 0 chained upward: free ones, or sales of kind 2.
/// An index has two bytes and is cut to them.
fn chained(cells: usize, sales: bool) -> Result<Vec<u8>, String> {
    let len = cells.checked_mul(CELL_LEN).filter(|&len| len > 0);
    let mut store = vec![0; len.ok_or("a store needs a cell, and has to fit")?];
    let index = |cell: usize| (if cell < cells { cell as u16 } else { 0 }).to_le_bytes();
    let head = if sales { 0 } else { 2 };
    store[head..head + 2].copy_from_slice(&index(1));
    for (i, cell) in store.chunks_exact_mut(CELL_LEN).enumerate().skip(1) {
        cell[..2].copy_from_slice(&index(i + 1));
        cell[2] = if sales { 2 } else { 0 };
    }
    Ok(store)
}

/// An offset and the bytes that stand there from now on.
type Patch = (usize, Vec<u8>);

/// `@offset:hex`, one after the other.
fn patches(text: &str) -> Result<Vec<Patch>, String> {
    let mut parts = text.split('@');
    if parts.next() != Some("") {
        return Err(format!("'{}' is no patch", shortened(text)));
    }
    let patch = |part: &str| {
        let (offset, bytes) = part.split_once(':').ok_or("a patch without a ':'")?;
        Ok((number(offset)?, hexadecimal(bytes)?))
    };
    parts.map(patch).collect()
}

fn apply(patches: &[Patch], bytes: &mut [u8]) -> Result<(), String> {
    for (offset, new) in patches {
        let end = offset.checked_add(new.len());
        let place = end.and_then(|end| bytes.get_mut(*offset..end));
        place
            .ok_or_else(|| format!("the patch at {offset} is outside"))?
            .copy_from_slice(new);
    }
    Ok(())
}

/// Each ends before the next begins, and not just there.
fn rising(patches: &[Patch]) -> bool {
    patches
        .windows(2)
        .all(|pair| pair[0].0 + pair[0].1.len() < pair[1].0)
}

/// The beginning of a text, for a message.
pub fn shortened(text: &str) -> String {
    match text.char_indices().nth(32) {
        Some((end, _)) => format!("{}...", &text[..end]),
        None => text.into(),
    }
}

/// The beginning of `bytes` in hexadecimal, for a message.
pub fn hex(bytes: &[u8]) -> String {
    let digits = bytes.iter().take(17).map(|byte| format!("{byte:02x}"));
    shortened(&digits.collect::<String>())
}

#[cfg(test)]
mod tests {
    use super::*;

    fn bytes(text: &str) -> Vec<u8> {
        Bytes::parse(text).expect("a byte string").bytes
    }

    #[test]
    fn plain_strings() {
        assert_eq!(bytes("-"), []);
        assert_eq!(bytes("00ff7a"), [0x00, 0xff, 0x7a]);
        for wrong in ["", "0", "0F", "0g", "--", "+1", "00 ", "é0"] {
            assert!(Bytes::parse(wrong).is_err(), "{wrong}");
        }
    }

    #[test]
    fn repeated_bytes() {
        assert_eq!(bytes("*3:a5"), [0xa5; 3]);
        assert_eq!(bytes("*0:00"), []);
        for wrong in [
            "*",
            "*3",
            "*3:",
            "*3:a",
            "*3:a5a5",
            "*:a5",
            "*-1:a5",
            "*+1:a5",
            "*3:a5@0:00",
        ] {
            assert!(Bytes::parse(wrong).is_err(), "{wrong}");
        }
    }

    /// A store by its cells' first bytes, which all others follow as zeros.
    fn cells(cells: &[[u8; 4]]) -> Vec<u8> {
        cells
            .iter()
            .flat_map(|cell| [&cell[..], &[0; 60]].concat())
            .collect()
    }

    #[test]
    fn formatted_stores() {
        assert_eq!(bytes("F1"), [0; 64]);
        assert_eq!(bytes("F2"), cells(&[[0, 0, 1, 0], [0; 4]]));
        let four = cells(&[[0, 0, 1, 0], [2, 0, 0, 0], [3, 0, 0, 0], [0; 4]]);
        assert_eq!(bytes("F4"), four);
        assert_eq!(bytes("F65537")[64 * 65_534..][..2], [0xff, 0xff]);
        assert_eq!(bytes("F65537")[64 * 65_535..][..2], [0, 0]);
        assert_eq!(bytes("F65538")[64 * 65_536..][..2], [1, 0]);
    }

    #[test]
    fn stores_full_of_sales() {
        let three = cells(&[[1, 0, 0, 0], [2, 0, 2, 0], [0, 0, 2, 0]]);
        assert_eq!(bytes("S3"), three);
        assert_eq!(bytes("S300")[64 * 255..][..3], [0, 1, 2]);
        assert_eq!(bytes("S1"), [0; 64]);
    }

    #[test]
    fn patched_stores() {
        let mut wanted = bytes("F2");
        wanted[0] = 1;
        wanted[127] = 0xee;
        wanted[126] = 0xdd;
        assert_eq!(bytes("F2@126:ddee@0:01"), wanted);
        for wrong in [
            "F",
            "F0",
            "Fx",
            "F2@",
            "F2@0",
            "F2@0:",
            "F2@127:0000",
            "F2:00",
            "S2 ",
        ] {
            assert!(Bytes::parse(wrong).is_err(), "{wrong}");
        }
    }

    #[test]
    fn answers_of_plain_strings_are_whole() {
        let lent = Bytes::parse("0102").expect("two bytes");
        assert_eq!(lent.after("0304"), Ok(vec![3, 4]));
        for wrong in ["=", "-", "03", "030405", "@0:03", ""] {
            assert!(lent.after(wrong).is_err(), "{wrong}");
        }
        let empty = Bytes::parse("-").expect("no byte");
        assert_eq!(empty.after("-"), Ok(vec![]));
        assert!(empty.after("=").is_err());
    }

    #[test]
    fn answers_of_short_forms_are_changes() {
        let lent = Bytes::parse("*6:aa").expect("six bytes");
        assert_eq!(lent.after("="), Ok(vec![0xaa; 6]));
        let changed = vec![0xaa, 1, 2, 0xaa, 0xaa, 3];
        assert_eq!(lent.after("@1:0102@5:03"), Ok(changed));
        for wrong in [
            "aaaaaaaaaaaa",
            "-",
            "",
            "@1:01@2:02",
            "@5:03@1:01",
            "@6:00",
            "@5:0000",
            "=@1:01",
            "@1:",
            "@:01",
        ] {
            assert!(lent.after(wrong).is_err(), "{wrong}");
        }
    }

    #[test]
    fn numbers() {
        assert_eq!(number("4294967295"), Ok(u32::MAX));
        assert_eq!(number("0"), Ok(0u64));
        for wrong in ["4294967296", "", "-1", "+1", "0x1", "1 "] {
            assert!(number::<u32>(wrong).is_err(), "{wrong}");
        }
    }
}
