//! A thousand parcels in one folder, converted twice.

use crate::convert::{damaged, nonce, sealed, Card, DIFFERS};
use crate::NONCE;
use reference::{Start, MRO};
use std::collections::BTreeMap;
use std::ffi::{OsStr, OsString};

/// What a parcel is at first.
#[derive(Clone, Copy)]
enum Kind {
    Old,
    Done,
    Damaged,
    Short,
}

/// A thousand parcels, most with a nonce of their own: 700 old, 200 done, 100 that don't open.
struct Thousand {
    card: Card,
    kinds: BTreeMap<OsString, Kind>,
    /// What they are in the end.
    expected: BTreeMap<OsString, Vec<u8>>,
}

impl Thousand {
    fn new() -> Self {
        let card = Card::new("convert-thousand");
        let (mut kinds, mut expected) = (BTreeMap::new(), BTreeMap::new());
        for at in 0..1000 {
            let kind = match at % 20 {
                0 => Kind::Damaged,
                10 => Kind::Short,
                1..=4 => Kind::Done,
                _ => Kind::Old,
            };
            let name = OsString::from(format!("{at:03}"));
            let (parcel, end) = Self::parcel(&card, &name, at, kind);
            card.put(&name, &parcel);
            expected.insert(name.clone(), end);
            kinds.insert(name, kind);
        }
        Self {
            card,
            kinds,
            expected,
        }
    }

    /// A parcel before and after.
    fn parcel(card: &Card, name: &OsStr, at: usize, kind: Kind) -> (Vec<u8>, Vec<u8>) {
        let message: Vec<u8> = (0..at * 3 % 700).map(|byte| byte as u8).collect();
        let mut own = nonce();
        if at % 3 > 0 {
            own[..2].copy_from_slice(&(at as u16).to_le_bytes());
            let mut beside = name.to_os_string();
            beside.push(".nonce");
            card.put(beside, own);
        }
        let [old, new] = [Start::Old, Start::New]
            .map(|start| sealed(start, (MRO, 6), [&own, b"post", &message]));
        match kind {
            Kind::Old => (old, new),
            Kind::Done => (new.clone(), new),
            Kind::Damaged => (damaged(old.clone()), damaged(old)),
            Kind::Short => (old[..31].to_vec(), old[..31].to_vec()),
        }
    }

    /// Runs the tool, which must say this.
    fn convert(&self, counts: &str) {
        let mut lines = String::new();
        for (done, (name, kind)) in self.kinds.iter().enumerate() {
            let name = name.to_str().unwrap();
            match kind {
                Kind::Damaged => lines += &format!("{name}: {DIFFERS}"),
                Kind::Short => {
                    lines += &format!("{name}: refused with 8: parcel is under 32 bytes\n")
                }
                Kind::Old | Kind::Done => {}
            }
            if (done + 1) % 100 == 0 {
                lines += &format!("{} of 1000 parcels\n", done + 1);
            }
        }
        let settings = ["--nonce", NONCE, "--header", "706f7374"];
        let expected = (Some(1), format!("{counts}\n"), lines);
        assert_eq!(self.card.convert(&settings), expected);
    }
}

/// The first run changes the old parcels and nothing else, the second nothing at all.
#[test]
fn a_thousand_parcels_twice() {
    let thousand = Thousand::new();
    let card = &thousand.card;
    let before = card.age();
    thousand.convert("converted 700, done already 200, refused 100");
    let after = card.states();
    assert!(after.keys().eq(before.keys()));
    for (name, state) in &after {
        match thousand.kinds.get(name) {
            Some(Kind::Old) => assert_eq!(state.permissions, before[name].permissions),
            None if name == "." => {}
            _ => assert_eq!(state, &before[name], "{name:?}"),
        }
    }
    for (name, bytes) in &thousand.expected {
        assert_eq!(&after[name].bytes, bytes, "{name:?}");
    }
    let before = card.age();
    thousand.convert("converted 0, done already 900, refused 100");
    assert_eq!(card.states(), before);
}
