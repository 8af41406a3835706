//! The ways in which a store is damaged.

use crate::prng::Prng;
use crate::stores::sound::{index, sealed_by, set_index, Sound, Spot, FREE, HEADS, SALES};
use reference::store::{self, BODY_LEN, CELL_LEN, PRICED, ROUNDS, STORE_LENS, UNPRICED};
use reference::{Start, MRO, NONCE_LEN, OPP, TAG_LEN};
use std::ops::Range;

/// Damages a store, in the chain of that number where it is about one, and says what comes of it, or
/// that this store has no room for such damage.
type Damage = fn(&mut Prng, &mut Sound, usize) -> Option<Effect>;

/// What comes of damage to a sound store.
#[derive(Clone, Copy)]
pub enum Effect {
    /// It is refused with this number and this cell for its form or its length.
    Form(u32, usize),
    /// The sale in this cell does not open.
    Shut(usize),
    /// The sale in this cell is of the other kind.
    OtherKind(usize),
    /// Every call answers as before.
    Nothing,
    /// The second implementation says what.
    Other,
}

/// All ways. Those that change the length come last, since the others need the cells.
pub const WAYS: [(&str, Damage); 33] = [
    ("an index past the last cell", index_past),
    ("a first index past the last cell", first_past),
    ("a last index past the last cell", last_past),
    ("a chain cut off", cut_off),
    ("a first index that is 0", first_zero),
    ("both first indices 0", both_zero),
    ("a cell left out", left_out),
    ("a cell behind itself", behind_itself),
    ("a ring", ring),
    ("a chain that ends in its first cell", ends_in_first),
    ("an index into the other chain", into_other),
    ("a shared tail", shared_tail),
    ("two first indices alike", firsts_alike),
    ("two indices of a chain exchanged", indices_exchanged),
    ("two tails exchanged", tails_exchanged),
    ("a cell of a wrong kind", misfit),
    ("two cells of a wrong kind", two_misfits),
    ("a misfit and a cell left out", misfit_and_left_out),
    ("a misfit and a broken walk", misfit_and_walk),
    ("a cell left out and a broken walk", left_out_and_walk),
    ("two broken walks", two_walks),
    ("a sale of the other kind", other_kind),
    ("garbage in cell 0", garbage_in_cell_0),
    ("garbage in a free cell", garbage_in_free),
    ("a bit of a record", bit_of_record),
    ("a bit of a tag", bit_of_tag),
    ("a bit of a nonce's tail", bit_of_tail),
    ("a bit of a sale's numbers", bit_of_numbers),
    ("a sale sealed otherwise", sealed_otherwise),
    ("two sales exchanged", sales_exchanged),
    ("a byte more or less", byte_more_or_less),
    ("a cell less", cell_less),
    ("a cell more", cell_more),
];

/// A random cell of a chain.
fn any_of(prng: &mut Prng, chain: &[usize]) -> Option<usize> {
    (!chain.is_empty()).then(|| chain[prng.below(chain.len())])
}

/// The place of a random cell in a chain.
fn any_place(prng: &mut Prng, chain: &[usize]) -> Option<usize> {
    (!chain.is_empty()).then(|| prng.below(chain.len()))
}

/// A random index of a chain: that of one of its cells, or the 0 behind the last.
fn any_spot(prng: &mut Prng, store: &Sound, chain: usize) -> Spot {
    (chain, prng.below(store.chains[chain].len() + 1))
}

/// The smallest of these cells is refused with 20, if there is one.
fn unfit(cells: &[usize]) -> Option<Effect> {
    cells.iter().min().map(|&cell| Effect::Form(20, cell))
}

/// Writes another index and says what comes of it in a store that was sound.
fn redirect(store: &mut Sound, spot: Spot, to: usize) -> Option<Effect> {
    let (chain, place) = spot;
    let offset = store.offset(spot);
    set_index(&mut store.bytes, offset, to);
    let cells = &store.chains[chain];
    if to == cells.get(place).copied().unwrap_or(0) {
        return None;
    }
    let place_in = |chain: usize| store.chains[chain].iter().position(|&cell| cell == to);
    match (place_in(chain), place_in(1 - chain)) {
        // The chain ends too early, or leaves cells out.
        _ if to == 0 => unfit(&cells[place..]),
        (Some(later), _) if later > place => unfit(&cells[place..later]),
        // The chain of sales is walked first, so that the free one comes to the cell again.
        (_, Some(other)) if chain == SALES => Some(Effect::Form(19, store.holder((FREE, other)))),
        // Past the last cell, back in the chain, or from a free cell to a sale.
        _ => Some(Effect::Form(19, store.holder(spot))),
    }
}

/// An index past the last cell there.
fn redirect_past(prng: &mut Prng, store: &mut Sound, spot: Spot) -> Option<Effect> {
    let cells = store.cells();
    let any = cells + prng.below(65_536 - cells);
    redirect(
        store,
        spot,
        prng.pick(&[cells, cells, cells + 1, any, 65_535]),
    )
}

fn index_past(prng: &mut Prng, store: &mut Sound, chain: usize) -> Option<Effect> {
    let spot = any_spot(prng, store, chain);
    redirect_past(prng, store, spot)
}

fn first_past(prng: &mut Prng, store: &mut Sound, chain: usize) -> Option<Effect> {
    redirect_past(prng, store, (chain, 0))
}

fn last_past(prng: &mut Prng, store: &mut Sound, chain: usize) -> Option<Effect> {
    redirect_past(prng, store, (chain, store.chains[chain].len()))
}

fn cut_off(prng: &mut Prng, store: &mut Sound, chain: usize) -> Option<Effect> {
    let spot = any_spot(prng, store, chain);
    redirect(store, spot, 0)
}

fn first_zero(_: &mut Prng, store: &mut Sound, chain: usize) -> Option<Effect> {
    redirect(store, (chain, 0), 0)
}

fn both_zero(_: &mut Prng, store: &mut Sound, _: usize) -> Option<Effect> {
    for head in HEADS {
        set_index(&mut store.bytes, head, 0);
    }
    Some(Effect::Form(20, 1))
}

/// The holder of a cell's index gets the cell's own next index.
fn left_out(prng: &mut Prng, store: &mut Sound, chain: usize) -> Option<Effect> {
    let cells = &store.chains[chain];
    let place = any_place(prng, cells)?;
    let to = cells.get(place + 1).copied().unwrap_or(0);
    redirect(store, (chain, place), to)
}

fn behind_itself(prng: &mut Prng, store: &mut Sound, chain: usize) -> Option<Effect> {
    let place = any_place(prng, &store.chains[chain])?;
    redirect(store, (chain, place + 1), store.chains[chain][place])
}

fn ring(prng: &mut Prng, store: &mut Sound, chain: usize) -> Option<Effect> {
    let place = any_place(prng, &store.chains[chain])?;
    let to = store.chains[chain][prng.below(place + 1)];
    redirect(store, (chain, place + 1), to)
}

fn ends_in_first(_: &mut Prng, store: &mut Sound, chain: usize) -> Option<Effect> {
    let first = *store.chains[chain].first()?;
    redirect(store, (chain, store.chains[chain].len()), first)
}

fn into_other(prng: &mut Prng, store: &mut Sound, chain: usize) -> Option<Effect> {
    let to = any_of(prng, &store.chains[1 - chain])?;
    let spot = any_spot(prng, store, chain);
    redirect(store, spot, to)
}

fn shared_tail(prng: &mut Prng, store: &mut Sound, chain: usize) -> Option<Effect> {
    let to = any_of(prng, &store.chains[1 - chain])?;
    redirect(store, (chain, store.chains[chain].len()), to)
}

fn firsts_alike(_: &mut Prng, store: &mut Sound, chain: usize) -> Option<Effect> {
    let to = index(&store.bytes, HEADS[1 - chain]);
    redirect(store, (chain, 0), to)
}

/// What stood between the two is a ring apart.
fn indices_exchanged(prng: &mut Prng, store: &mut Sound, chain: usize) -> Option<Effect> {
    let [one, other] = [(); 2].map(|()| any_spot(prng, store, chain));
    exchange(store, one, other);
    unfit(&store.chains[chain][one.1.min(other.1)..one.1.max(other.1)])
}

/// Both chains still have every cell, and those of the tails are in the wrong one.
fn tails_exchanged(prng: &mut Prng, store: &mut Sound, _: usize) -> Option<Effect> {
    let [sales, free] = [SALES, FREE].map(|chain| any_spot(prng, store, chain));
    exchange(store, sales, free);
    let tails = [sales, free].map(|(chain, place)| &store.chains[chain][place..]);
    unfit(&tails.concat())
}

fn exchange(store: &mut Sound, one: Spot, other: Spot) {
    let offsets = [one, other].map(|spot| store.offset(spot));
    let [to, back] = offsets.map(|offset| index(&store.bytes, offset));
    set_index(&mut store.bytes, offsets[0], back);
    set_index(&mut store.bytes, offsets[1], to);
}

/// A kind of the other chain, or of neither.
fn misfit(prng: &mut Prng, store: &mut Sound, chain: usize) -> Option<Effect> {
    let cell = any_of(prng, &store.chains[chain])?;
    let others: &[u8] = match chain {
        SALES => &[store::FREE],
        _ => &[UNPRICED, PRICED],
    };
    *store.kind_mut(cell) = prng.pick(&[others, &[3, 255]].concat());
    Some(Effect::Form(20, cell))
}

/// The lower one of two cells that are refused with 20.
fn lower(one: Effect, other: Effect) -> Option<Effect> {
    match (one, other) {
        (Effect::Form(20, one), Effect::Form(20, other)) => Some(Effect::Form(20, one.min(other))),
        _ => None,
    }
}

fn two_misfits(prng: &mut Prng, store: &mut Sound, chain: usize) -> Option<Effect> {
    let other = prng.below(2);
    lower(misfit(prng, store, chain)?, misfit(prng, store, other)?)
}

fn misfit_and_left_out(prng: &mut Prng, store: &mut Sound, chain: usize) -> Option<Effect> {
    let other = prng.below(2);
    lower(left_out(prng, store, chain)?, misfit(prng, store, other)?)
}

/// An index counts before all kinds.
fn misfit_and_walk(prng: &mut Prng, store: &mut Sound, chain: usize) -> Option<Effect> {
    let other = prng.below(2);
    misfit(prng, store, other)?;
    stray(prng, store, chain)
}

/// An index counts before all cells in neither chain, also those left out of the chain walked first.
fn left_out_and_walk(prng: &mut Prng, store: &mut Sound, chain: usize) -> Option<Effect> {
    left_out(prng, store, 1 - chain)?;
    stray(prng, store, chain)
}

/// The chain of sales counts first, whichever way each is broken.
fn two_walks(prng: &mut Prng, store: &mut Sound, _: usize) -> Option<Effect> {
    stray(prng, store, FREE)?;
    stray(prng, store, SALES)
}

/// An index past the last cell, or back in its own chain.
fn stray(prng: &mut Prng, store: &mut Sound, chain: usize) -> Option<Effect> {
    let damage: Damage = prng.pick(&[index_past, ring]);
    damage(prng, store, chain)
}

/// The kind is not sealed, so that the sale still opens.
fn other_kind(prng: &mut Prng, store: &mut Sound, _: usize) -> Option<Effect> {
    let cell = any_of(prng, &store.chains[SALES])?;
    *store.kind_mut(cell) ^= UNPRICED ^ PRICED;
    Some(Effect::OtherKind(cell))
}

fn garbage_in_cell_0(prng: &mut Prng, store: &mut Sound, _: usize) -> Option<Effect> {
    let garbage = prng.bytes(CELL_LEN - 4);
    store.bytes[4..CELL_LEN].copy_from_slice(&garbage);
    Some(Effect::Nothing)
}

fn garbage_in_free(prng: &mut Prng, store: &mut Sound, _: usize) -> Option<Effect> {
    let cell = any_of(prng, &store.chains[FREE])?;
    let garbage = prng.bytes(BODY_LEN);
    store.body_mut(cell).copy_from_slice(&garbage);
    Some(Effect::Nothing)
}

/// Flips a bit among some bytes of a sale. Returns its cell.
fn flip(prng: &mut Prng, store: &mut Sound, bytes: Range<usize>) -> Option<usize> {
    let cell = any_of(prng, &store.chains[SALES])?;
    let part = &mut store.body_mut(cell)[bytes];
    part[prng.below(part.len())] ^= 1 << prng.below(8);
    Some(cell)
}

fn bit_of_record(prng: &mut Prng, store: &mut Sound, _: usize) -> Option<Effect> {
    flip(prng, store, NONCE_LEN..BODY_LEN - TAG_LEN).map(Effect::Shut)
}

fn bit_of_tag(prng: &mut Prng, store: &mut Sound, _: usize) -> Option<Effect> {
    flip(prng, store, BODY_LEN - TAG_LEN..BODY_LEN).map(Effect::Shut)
}

fn bit_of_tail(prng: &mut Prng, store: &mut Sound, _: usize) -> Option<Effect> {
    flip(prng, store, 8..NONCE_LEN).map(Effect::Shut)
}

fn bit_of_numbers(prng: &mut Prng, store: &mut Sound, _: usize) -> Option<Effect> {
    flip(prng, store, 0..8).map(|_| Effect::Other)
}

fn sealed_otherwise(prng: &mut Prng, store: &mut Sound, _: usize) -> Option<Effect> {
    let place = prng.below(store.sold.len().max(1));
    let (sold, cell) = (*store.sold.get(place)?, store.chains[SALES][place]);
    let (right, key) = ((MRO, ROUNDS), &store.key);
    let body = match prng.below(5) {
        0 => sealed_by(Start::New, (OPP, ROUNDS), &[], key, &sold),
        1 => sealed_by(Start::New, (MRO, 4), &[], key, &sold),
        2 => sealed_by(Start::New, right, &[0], key, &sold),
        3 => sealed_by(Start::New, right, &[], &prng.bytes(32), &sold),
        _ => sealed_by(Start::Old, right, &[], key, &sold),
    };
    store.body_mut(cell).copy_from_slice(&body);
    Some(Effect::Shut(cell))
}

/// A sale is not bound to its cell, so that both still open.
fn sales_exchanged(prng: &mut Prng, store: &mut Sound, _: usize) -> Option<Effect> {
    let first = any_of(prng, &store.chains[SALES])?;
    let second = any_of(prng, &store.chains[SALES])?;
    let body = store.body_mut(first).to_vec();
    let other = store.body_mut(second).to_vec();
    store.body_mut(first).copy_from_slice(&other);
    store.body_mut(second).copy_from_slice(&body);
    Some(Effect::Other)
}

/// The length counts before every index.
fn byte_more_or_less(prng: &mut Prng, store: &mut Sound, chain: usize) -> Option<Effect> {
    if prng.once_in(2) {
        index_past(prng, store, chain);
    }
    if prng.once_in(2) {
        store.bytes.push(0);
    } else {
        store.bytes.pop();
    }
    Some(Effect::Form(18, 0))
}

/// The index of the cell that is gone is past the last one.
fn cell_less(_: &mut Prng, store: &mut Sound, _: usize) -> Option<Effect> {
    let gone = store.cells() - 1;
    store.bytes.truncate(CELL_LEN * gone);
    if store.bytes.len() < *STORE_LENS.start() {
        return Some(Effect::Form(18, 0));
    }
    let place_in = |chain: usize| store.chains[chain].iter().position(|&cell| cell == gone);
    let spot = [SALES, FREE].map(|chain| Some((chain, place_in(chain)?)));
    let spot = spot.into_iter().flatten().next()?;
    Some(Effect::Form(19, store.holder(spot)))
}

/// The new cell is in neither chain.
fn cell_more(_: &mut Prng, store: &mut Sound, _: usize) -> Option<Effect> {
    let new = store.cells();
    store.bytes.resize(store.bytes.len() + CELL_LEN, 0);
    Some(match STORE_LENS.contains(&store.bytes.len()) {
        true => Effect::Form(20, new),
        false => Effect::Form(18, 0),
    })
}
