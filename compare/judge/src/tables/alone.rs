//! Ours alone, where the Rust has no counterpart: lengths that are no table's (23), malformed addresses
//! (19), 23 before 19, nothing written either way; the words of an address; words that no address has.

use ours::tables::{self, ADDRESS_WORDS, ENTRY_BYTES, PLACE_WORDS};

use super::entries::{bytes, few_addresses, few_macs};
use super::slots::{laid_out, used_mark};
use super::{address_list, socket, words, Address, Mark, Place, Slot};
use crate::check::{Diff, Verdict};
use crate::make::pattern;
use crate::rng::Rng;

const ROUNDS: u64 = 300;

/// How many runs there were, or what was wrong.
pub fn run(seed: u64) -> Result<u64, String> {
    let mut rng = Rng::new(seed);
    let sorts = [
        entries,
        searches,
        addresses,
        hosts,
        made_up_slots,
        made_up_entries,
    ];
    for _ in 0..ROUNDS {
        for sort in sorts {
            let mut diff = Diff::default();
            sort(&mut rng, &mut diff);
            if let Verdict::Different(what) = diff.verdict(Verdict::Equal) {
                return Err(format!("ours alone is not as document 01 says:\n{what}"));
            }
        }
    }
    Ok(ROUNDS * sorts.len() as u64)
}

/// Of another kind, or of kind 4 with something in its last twelve bytes.
pub fn malformed(rng: &mut Rng) -> Address {
    let mut address = few_addresses(rng);
    if rng.one_in(2) {
        address.kind = rng.below(256) as u8;
        address.bytes = rng.array();
    } else {
        address.kind = 4;
    }
    address.bytes[4 + rng.below(12)] |= 1 << rng.below(8);
    if address.kind == 6 {
        address.kind = rng.pick(&[0, 1, 2, 3, 5, 7, 255]);
    }
    address
}

/// No whole number of places, none, or one more than the most.
fn no_length(rng: &mut Rng, place: usize, most: usize) -> usize {
    match rng.below(40) {
        0 => 0,
        1 => place * (most + 1),
        2 => place * most + 1 + rng.below(place - 1),
        3 => place * most - 1 - rng.below(place - 1),
        _ => place * rng.below(20) + 1 + rng.below(place - 1),
    }
}

fn entries(rng: &mut Rng, diff: &mut Diff) {
    let mut refused = |len: usize, address: Address, number: u64| {
        let before = pattern(len, 77);
        let mut table = before.clone();
        let given = tables::find_or_add_entry(&mut table, [1, 2], &address, &[3; 16]);
        diff.number("entries refused", number, given.into());
        diff.table("entries after a refusal", &before, &table);
    };
    let len = no_length(rng, ENTRY_BYTES, 2048);
    refused(len, few_addresses(rng), 23);
    refused(len, malformed(rng), 23);
    refused(ENTRY_BYTES * (1 + rng.below(20)), malformed(rng), 19);
}

fn searches(rng: &mut Rng, diff: &mut Diff) {
    let len = no_length(rng, PLACE_WORDS, 4096);
    let whole = PLACE_WORDS * (1 + rng.below(4));
    let table = vec![1; len.max(whole)];
    let (good, bad) = (few_addresses(rng), malformed(rng));
    let mut place = [77];
    let answers = [
        (
            23,
            tables::find_by_address(&table[..len], &good, &mut place),
        ),
        (23, tables::find_by_address(&table[..len], &bad, &mut place)),
        (
            19,
            tables::find_by_address(&table[..whole], &bad, &mut place),
        ),
        (23, tables::find_by_id(&table[..len], 1, &mut place)),
        (23, tables::find_free(&table[..len], &mut place)),
        (23, tables::count_used(&table[..len], &mut place)),
    ];
    for (number, given) in answers {
        diff.number("a search refused", number, given.into());
    }
    diff.number("its place", 77, place[0]);
    diff.table("the table", &vec![1; table.len()], &table);
}

/// Three words for a well-formed address, which are the same exactly where the Rust's addresses are.
fn addresses(rng: &mut Rng, diff: &mut Diff) {
    let mut out = [77; 3];
    let number = tables::address(&malformed(rng), &mut out);
    diff.words(
        "malformed",
        &[19, 77, 77, 77],
        &[number.into(), out[0], out[1], out[2]],
    );
    let [a, b] = [few_addresses(rng), few_addresses(rng)];
    let [first, second] = [a, b].map(|address| {
        let mut out = [77; 3];
        let number = tables::address(&address, &mut out);
        diff.number("well-formed", 0, number.into());
        diff.words("its words", &words(&address), &out);
        out
    });
    let same = u64::from(socket(&a) == socket(&b));
    diff.number("the same address", same, u64::from(first == second));
}

/// A malformed address in either list is 19, though another would be found; what is left over of a list
/// is not looked at.
fn hosts(rng: &mut Rng, diff: &mut Diff) {
    let here = few_addresses(rng);
    let mut list = address_list(&[here; 3]);
    let ours = list.clone();
    let [first, low, high] = words(&malformed(rng));
    list.extend([first, low, high].iter().take(rng.below(ADDRESS_WORDS)));
    diff.number("one of ours", 1, tables::any_ours(&list, &ours).into());
    diff.number("ours are longer", 1, tables::any_ours(&ours, &list).into());
    let at = ADDRESS_WORDS * rng.below(3);
    list[at..at + ADDRESS_WORDS].copy_from_slice(&[first, low, high]);
    diff.number("one malformed", 19, tables::any_ours(&list, &ours).into());
    diff.number("ours malformed", 19, tables::any_ours(&ours, &list).into());
    let mut wide = ours.clone();
    wide[at] |= 1 << (24 + rng.below(40));
    diff.number("a wide word", 19, tables::any_ours(&wide, &ours).into());
}

/// A used place whose words are no address's is found by none; the next one is.
fn made_up_slots(rng: &mut Rng, diff: &mut Diff) {
    let wanted = few_addresses(rng);
    let slot = |address| Slot {
        mark: 1,
        id: 5,
        address,
    };
    let mut table = laid_out(&[slot(wanted), slot(wanted)]);
    match rng.below(3) {
        0 => table[4] |= 1 << (24 + rng.below(40)),
        1 => table[4] ^= 1 << (16 + rng.below(8)),
        _ => table[5 + rng.below(2)] ^= 1 << rng.below(64),
    }
    table[0] = used_mark(rng);
    let mut place = [77];
    let number = tables::find_by_address(&table, &wanted, &mut place);
    diff.words(
        "found past a made-up address",
        &[1, 1],
        &[number.into(), place[0]],
    );
}

/// A match whose address is none is another's address.
fn made_up_entries(rng: &mut Rng, diff: &mut Diff) {
    let mut place = Mark::drawn(rng.next(), 0);
    place.mark = 1 + rng.below(255) as u8;
    place.entry.mac = few_macs(rng);
    place.entry.address = malformed(rng);
    let before = bytes(&[place]);
    let mut table = before.clone();
    let time = place.entry.time.words();
    let address = few_addresses(rng);
    let number = tables::find_or_add_entry(&mut table, time, &address, &place.entry.mac);
    diff.number("another's", 0, number.into());
    diff.table("nothing is written", &before, &table);
}
