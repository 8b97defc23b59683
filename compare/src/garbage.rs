//! Calls with anything at all: random and damaged listings, settings, manifests, names and buffer lengths. Every call must end in a
//! number of document 01 and leave exactly what the harness works out, to the last byte of every buffer.

use crate::cases::{self, Case, Room};
use crate::expected;
use crate::lent::{lay, read_listing, rows};
use crate::manifests::damaged;
use crate::model::is_answer;
use crate::product::{self, Rooms};
use crate::rng::Rng;
use std::collections::BTreeMap;

fn noise(most: usize, rng: &mut Rng) -> Vec<u8> {
    let length = rng.below(most);
    (0..length).map(|_| rng.next() as u8).collect()
}

fn damage(bytes: &mut Vec<u8>, rng: &mut Rng) {
    for _ in 0..rng.within(1, 4) {
        *bytes = damaged(bytes, rng);
    }
}

/// The listing with a manifest damaged inside, so that the rest still holds.
fn damage_manifest(listing: &mut Vec<u8>, rng: &mut Rng) {
    let Ok(tree) = read_listing(listing) else { return };
    let mut entries = rows(&tree);
    for row in &mut entries {
        if let Some(contents) = row.contents.as_mut().filter(|contents| !contents.is_empty()) {
            damage(contents, rng);
        }
    }
    *listing = lay(&entries);
}

fn garbage(seed: u64, number: u64) -> (Case, Rng) {
    let mut rng = Rng::new(seed ^ 0x6761_7262, number);
    let mut case = cases::case(seed, number);
    (case.room, case.stated) = (Room::More(0), None);
    if rng.chance(10) {
        case.limit = rng.below(40) as u32;
    }
    match rng.below(12) {
        0 => case.listing = noise(300, &mut rng),
        1 => damage(&mut case.listing, &mut rng),
        2 => damage(&mut case.settings, &mut rng),
        3 => case.settings = noise(60, &mut rng),
        4 => damage(&mut case.specifier, &mut rng),
        5 => damage(&mut case.start, &mut rng),
        6 => {
            case.specifier = noise(20, &mut rng);
            case.start = noise(8, &mut rng);
        }
        7 => {}
        _ => damage_manifest(&mut case.listing, &mut rng),
    }
    (case, rng)
}

fn length(needed: usize, rng: &mut Rng) -> usize {
    match rng.below(16) {
        0 => rng.below(8),
        1 => rng.below(2 * needed + 40),
        2 => needed.saturating_sub(1),
        3..=8 => needed,
        _ => needed + rng.below(50),
    }
}

pub fn run(count: u64, seed: u64) -> bool {
    let mut numbers: BTreeMap<u32, u64> = BTreeMap::new();
    let mut faults = 0;
    for number in 0..count {
        let (case, mut rng) = garbage(seed, number);
        let work = if rng.chance(90) { 32_768 + rng.below(10) } else { rng.below(40_000) };
        let expected = match expected::decide(&case, work, false) {
            Ok(expected) => expected,
            Err(words) => {
                println!("FAULT garbage {number}: {words}");
                return false;
            }
        };
        let needed = expected::rooms(&expected, Room::More(0));
        let rooms = Rooms {
            result: length(needed.result, &mut rng),
            numbers: length(needed.numbers, &mut rng),
            list: length(needed.list, &mut rng),
            work,
        };
        let got = product::call(case.question(), rooms);
        if got != expected::left(&expected, rooms) {
            faults += 1;
            println!("FAULT garbage {number}: the product differs ({rooms:?})");
            crate::print_case(&case);
            crate::print_left("wanted", &expected::left(&expected, rooms));
            crate::print_left("got   ", &got);
        }
        *numbers.entry(got.number).or_default() += 1;
    }
    println!("garbage: {count} calls, {faults} faults; calls by number: {numbers:?}");
    let known = |&number: &u32| is_answer(number) || matches!(number, 20..=25 | 30..=32 | 40 | 42 | 53);
    faults == 0 && numbers.keys().all(known)
}
