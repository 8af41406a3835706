//! The report on a store: its cells where it is right, else what is broken, where, and what to do.

#[path = "../../src/fault.rs"]
mod fault;

use crate::{fails, folder, run};
use calmbaize::{Ground, Refusal, Store};
use std::fs;

/// The next index and the kind of a cell.
type Cell = (u16, u8);

/// Two heads, and the other cells. Every body is zero.
fn store(heads: [u16; 2], cells: &[Cell]) -> Vec<u8> {
    let mut bytes = vec![0; 64 * (cells.len() + 1)];
    bytes[..2].copy_from_slice(&heads[0].to_le_bytes());
    bytes[2..4].copy_from_slice(&heads[1].to_le_bytes());
    for (cell, (next, kind)) in bytes[64..].chunks_exact_mut(64).zip(cells) {
        cell[..2].copy_from_slice(&next.to_le_bytes());
        cell[2] = *kind;
    }
    bytes
}

/// What the tool prints, and its exit status. It says nothing on standard error, and the file stays.
fn check(name: &str, bytes: &[u8]) -> (String, Option<i32>) {
    let file = folder(&format!("check-{name}")).join("till");
    fs::write(&file, bytes).unwrap();
    let output = run(&["store", "check", file.to_str().unwrap()], b"");
    assert_eq!(output.stderr, b"");
    assert_eq!(fs::read(&file).unwrap(), bytes);
    let text = String::from_utf8(output.stdout).unwrap();
    (text, output.status.code())
}

#[test]
fn a_store_that_is_right() {
    let some = store([3, 2], &[(0, 1), (4, 0), (1, 2), (0, 0)]);
    for (bytes, counts) in [
        (some, "cells 5 sales 2 free 2\n"),
        (store([0, 1], &[(0, 0)]), "cells 2 sales 0 free 1\n"),
        (store([1, 0], &[(0, 1)]), "cells 2 sales 1 free 0\n"),
        (store([1, 0], &[(0, 2)]), "cells 2 sales 1 free 0\n"),
    ] {
        assert_eq!(check("right", &bytes), (counts.into(), Some(0)));
    }
}

/// Stores of four cells, and what is said of them. Right would be [1, 2] and (0, 1), (3, 0), (0, 0).
#[rustfmt::skip]
const BROKEN: [([u16; 2], [Cell; 3], &str); 13] = [
    ([4, 2], [(0, 1), (3, 0), (0, 0)],
     "19: the first sale's index in cell 0 (bytes 0 and 1) is 4, and the last cell is 3"),
    ([1, 513], [(0, 1), (3, 0), (0, 0)],
     "19: the first free cell's index in cell 0 (bytes 2 and 3) is 513, and the last cell is 3"),
    ([4, 4], [(0, 1), (3, 0), (0, 0)],
     "19: the first sale's index in cell 0 (bytes 0 and 1) is 4, and the last cell is 3"),
    ([2, 2], [(0, 1), (3, 0), (0, 0)],
     "19: the first free cell's index in cell 0 (bytes 2 and 3) is 2, and cell 2 was reached before"),
    ([1, 2], [(65_535, 1), (3, 0), (0, 0)],
     "19: the next index in cell 1 (bytes 0 and 1) is 65535, and the last cell is 3"),
    ([1, 2], [(0, 1), (3, 0), (2, 0)],
     "19: the next index in cell 3 (bytes 0 and 1) is 2, and cell 2 was reached before"),
    ([1, 2], [(0, 1), (3, 0), (1, 7)],
     "19: the next index in cell 3 (bytes 0 and 1) is 1, and cell 1 was reached before"),
    ([1, 2], [(0, 0), (3, 0), (0, 0)],
     "20: cell 1 is among the sales; its kind (byte 2) is 0, which is not a sale's"),
    ([1, 2], [(0, 3), (3, 0), (0, 0)],
     "20: cell 1 is among the sales; its kind (byte 2) is 3, which is not a sale's"),
    ([1, 2], [(0, 1), (3, 0), (0, 255)],
     "20: cell 3 is among the free cells; its kind (byte 2) is 255, which is not a free cell's"),
    ([1, 2], [(0, 1), (0, 0), (0, 0)],
     "20: cell 3 is in neither chain; its kind (byte 2) is 0"),
    ([0, 2], [(0, 1), (3, 0), (0, 9)],
     "20: cell 1 is in neither chain; its kind (byte 2) is 1"),
    ([0, 0], [(1, 9), (3, 0), (0, 9)],
     "20: cell 1 is in neither chain; its kind (byte 2) is 9"),
];

#[test]
fn what_is_broken_and_where() {
    for (heads, cells, words) in BROKEN {
        let (text, status) = check("broken", &store(heads, &cells));
        let first = text.lines().next().unwrap();
        assert_eq!(first, format!("refused with {words}"));
        assert_eq!(status, Some(1));
    }
}

#[test]
fn a_whole_report() {
    let mut bytes = store([1, 2], &[(0, 1), (3, 0), (0, 2)]);
    for (place, byte) in bytes[3 * 64 + 3..].iter_mut().enumerate() {
        *byte = place as u8 + 3;
    }
    let report = "\
refused with 20: cell 3 is among the free cells; its kind (byte 2) is 2, which is not a free cell's

cell 3:
   0  00 00 02 03 04 05 06 07 08 09 0a 0b 0c 0d 0e 0f
  16  10 11 12 13 14 15 16 17 18 19 1a 1b 1c 1d 1e 1f
  32  20 21 22 23 24 25 26 27 28 29 2a 2b 2c 2d 2e 2f
  48  30 31 32 33 34 35 36 37 38 39 3a 3b 3c 3d 3e 3f

Copy the store from the machine once more and check that copy too. Keep this
file as it is for the route office, and don't format it: sales that are in it
may still be read. Where the new copy is broken too, the memory that the store
is in has to be changed, not the whole unit.
";
    assert_eq!(check("report", &bytes), (report.into(), Some(1)));
}

#[test]
fn lengths() {
    let is_not = "refused with 18: store is not 128 to 65,536 bytes in cells of 64; the file has";
    let advice = "\
Copy the store from the machine once more and check that copy: this one is cut
short, has too much behind it, is of a later version or is no store. Keep this
file until then. Where the length stays wrong, the memory that the store is in
has to be changed, not the whole unit.
";
    for len in [0, 63, 64, 127, 129, 200, 65_535, 65_537, 65_600, 200_000] {
        let has = match len {
            65_537.. => "more".to_string(),
            _ => format!("{len} bytes"),
        };
        let report = format!("{is_not} {has}\n\n{advice}");
        assert_eq!(check("lengths", &vec![0; len]), (report, Some(1)));
    }
}

#[test]
fn a_file_that_cant_be_read() {
    let missing = folder("check-missing").join("till");
    for file in [missing.as_path(), missing.parent().unwrap()] {
        let error = fails(&["store", "check", file.to_str().unwrap()], b"", 2);
        assert!(error.contains("can't read "), "{error}");
    }
}

/// Every shape of a store of four cells: the words say of its bytes what number and cell do.
#[test]
fn the_words_agree_with_number_and_cell() {
    let mut met = [0; 3];
    for shape in 0..5_usize.pow(5) * 3_usize.pow(3) {
        let mut rest = shape;
        let mut digit = |base| (rest % base, rest /= base).0 as u16;
        let heads = [digit(5), digit(5)];
        let cells = [(); 3].map(|()| (digit(5), digit(3) as u8));
        let mut bytes = store(heads, &cells);
        let Err(refusal) = Store::new(&mut bytes).check() else {
            met[0] += 1;
            continue;
        };
        let text = fault::report(&bytes, refusal).unwrap();
        let place = refusal.place as usize;
        let says = |words: &str| text.lines().next().unwrap().contains(words);
        assert!(says(&format!("cell {place} ")), "{text}");
        let (_, shown) = text.split_once(&format!("\ncell {place}:\n")).unwrap();
        let shown: Vec<&str> = shown
            .lines()
            .take(4)
            .flat_map(|line| line[6..].split(' '))
            .collect();
        let held = bytes[64 * place..][..64]
            .iter()
            .map(|byte| format!("{byte:02x}"));
        assert_eq!(shown, held.collect::<Vec<_>>(), "{text}");
        if refusal.ground == Ground::StoreIndex {
            met[1] += 1;
            let held = match place {
                0 if heads[0] < 4 => heads[1],
                0 => heads[0],
                _ => cells[place - 1].0,
            };
            assert!(says(&format!(" is {held}, and ")), "{text}");
            assert_eq!(says("the last cell is 3"), held >= 4, "{text}");
        } else {
            met[2] += 1;
            let [sales, free] = heads.map(|head| reached(head, &cells));
            let kind = cells[place - 1].1;
            assert!(says(&format!(" is {kind}")), "{text}");
            assert_eq!(says("among the sales"), sales.contains(&place), "{text}");
            assert_eq!(says("among the free"), free.contains(&place), "{text}");
        }
    }
    // Every order of three cells, cut in two, with two kinds for each sale.
    assert_eq!(met[0], 6 * (1 + 2 + 4 + 8));
    assert!(met[1] > 0 && met[2] > 0);
}

/// The cells of a chain that ends.
fn reached(head: u16, cells: &[Cell]) -> Vec<usize> {
    let mut chain = Vec::new();
    let mut next = usize::from(head);
    while next != 0 {
        chain.push(next);
        next = cells[next - 1].0.into();
    }
    chain
}

/// Whatever the bytes, and whatever refusal they are said to have.
#[test]
fn any_bytes_get_a_report_or_none() {
    let mut state = 1_u32;
    let mut random = || {
        state = state.wrapping_mul(1_664_525).wrapping_add(1_013_904_223);
        (state >> 24) as u8
    };
    for len in 0..400 {
        let small = len % 2;
        let bytes: Vec<u8> = (0..len).map(|_| random() >> (7 * small)).collect();
        for ground in [
            Ground::StoreLength,
            Ground::StoreIndex,
            Ground::StoreKind,
            Ground::Tag,
        ] {
            for place in (0..8).chain([1023, u32::MAX]) {
                let mut refusal = Refusal::from(ground);
                refusal.place = place;
                let is_cell = (place as usize) < len / 64;
                let reported = match ground {
                    Ground::StoreLength => true,
                    Ground::Tag => false,
                    _ => is_cell,
                };
                assert_eq!(fault::report(&bytes, refusal).is_some(), reported);
            }
        }
    }
}
