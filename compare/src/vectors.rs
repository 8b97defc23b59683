//! Vectors: chosen cases with the Rust's answers and lists, in one file that a program can replay without the Rust. The format stands in
//! docs/VECTORS.md.

use crate::broken;
use crate::cases::{self, Case, GATEWAY, Room};
use crate::expected::{self, Expected};
use crate::hash;
use crate::lent::{HASH_NAMES, read_listing, read_settings, word};
use crate::model::is_answer;
use crate::points::{self, Point};
use crate::product::{self, Left, Rooms};
use crate::rng::Rng;
use crate::rust;
use std::collections::{BTreeMap, HashSet};

/// In the place of a length: the same bytes as in the case before.
const SAME: u32 = 0xFFFF_FFFF;
/// The numbers that begin a case take this many bytes.
const HEADER: usize = 60;

/// What the program that replays them lends and reads at most (crates/vectors_main).
const LENT: Rooms = Rooms { result: 4_096, numbers: 512, list: 4_096, work: 40_960 };
const FILE: usize = 1_500_000;

/// How many cases are kept at least of each answer, each refusal, and each routine or branch.
const OF_ANSWER: u64 = 80;
const OF_REFUSAL: u64 = 30;
const OF_POINT: u64 = 12;
/// And of each kind of object in which a name comes more than once.
const OF_REPEAT: u64 = 40;

/// Which cases are kept.
#[derive(Clone, Copy)]
enum Fit {
    Always,
    /// Those that add to a count that is still low.
    Wanted,
    /// Those that take little room.
    Small,
}

#[derive(Default)]
struct Chosen {
    out: Vec<u8>,
    count: u32,
    numbers: BTreeMap<u32, u64>,
    marks: Vec<u64>,
    known: HashSet<u64>,
    listing: Vec<u8>,
    settings: Vec<u8>,
}

/// The list, each path by what it shares with the one before.
fn packed_list(expected: &Expected) -> Vec<u8> {
    let mut out = Vec::new();
    let mut before: &[u8] = b"";
    for consult in &expected.list {
        let shared = before.iter().zip(&consult.path).take_while(|(a, b)| a == b).count();
        let rest = &consult.path[shared..];
        out.push(consult.state);
        out.extend_from_slice(&(shared as u16).to_le_bytes());
        out.extend_from_slice(&(rest.len() as u16).to_le_bytes());
        out.extend_from_slice(rest);
        before = &consult.path;
    }
    out
}

impl Chosen {
    /// Whether the case adds to a count that is still low.
    fn wants(&self, want: &Left, expected: &Expected) -> bool {
        let least = if is_answer(want.number) { OF_ANSWER } else { OF_REFUSAL };
        let number = self.numbers.get(&want.number).copied().unwrap_or(0) < least;
        let least = |point: usize| if point >= Point::Repeated as usize { OF_REPEAT } else { OF_POINT };
        let mut reached = expected.marks.iter().flatten().zip(&self.marks).enumerate();
        number || reached.any(|(point, (&reached, &kept))| reached > 0 && kept < least(point))
    }

    fn lent(&mut self, bytes: &[u8], before: fn(&mut Self) -> &mut Vec<u8>, body: &mut Vec<u8>) -> u32 {
        let known = before(self);
        if known == bytes {
            return SAME;
        }
        *known = bytes.to_vec();
        body.extend_from_slice(bytes);
        bytes.len() as u32
    }

    fn keep(&mut self, case: &Case, expected: &Expected, rooms: Rooms, want: &Left) {
        let mut body = Vec::new();
        let listing = self.lent(&case.listing, |chosen| &mut chosen.listing, &mut body);
        let settings = self.lent(&case.settings, |chosen| &mut chosen.settings, &mut body);
        body.extend_from_slice(&case.start);
        body.extend_from_slice(&case.specifier);
        let mut list = Vec::new();
        if is_answer(want.number) {
            body.extend(expected.end.texts.iter().flatten());
            list = packed_list(expected);
        }
        let lent = [listing, settings, case.start.len() as u32, case.specifier.len() as u32, case.limit];
        let rooms = [rooms.result, rooms.numbers, rooms.list, rooms.work, want.number as usize].map(|length| length as u32);
        for number in lent.into_iter().chain(rooms).chain(want.counts).chain([list.len() as u32]) {
            self.out.extend_from_slice(&number.to_le_bytes());
        }
        self.out.extend_from_slice(&body);
        self.out.extend_from_slice(&list);
        self.count += 1;
        *self.numbers.entry(want.number).or_default() += 1;
        for (sum, reached) in self.marks.iter_mut().zip(expected.marks.iter().flatten()) {
            *sum += u64::from(*reached > 0);
        }
    }

    /// Asks the case, and keeps it if `fit` says so; whether it was kept.
    fn offer(&mut self, case: &Case, fit: Fit) -> Result<bool, String> {
        let expected = expected::expected(case)?;
        let rooms = expected::rooms(&expected, case.room);
        let want = expected::left(&expected, rooms);
        let small = case.listing.len() < 700 && expected.list.len() < 30;
        let few = self.numbers.get(&want.number).is_none_or(|&kept| kept < 20);
        let kept = match fit {
            Fit::Always => true,
            Fit::Wanted => (small || few) && self.wants(&want, &expected),
            Fit::Small => small && (want.number != 1 || expected.list.len() < 10),
        };
        let Rooms { result, numbers, list, work } = LENT;
        let fits = rooms.result <= result && rooms.numbers <= numbers && rooms.list <= list && rooms.work <= work;
        if !kept || !fits || !self.known.insert(crate::fingerprint(case)) {
            return Ok(false);
        }
        self.keep(case, &expected, rooms, &want);
        Ok(true)
    }
}

/// Other questions over the same listing and settings.
fn siblings(case: &Case, rng: &mut Rng) -> Vec<Case> {
    let Ok(tree) = read_listing(&case.listing) else { return Vec::new() };
    if read_settings(&case.settings).is_none() {
        return Vec::new();
    }
    let starts: Vec<&Vec<u8>> = tree.iter().filter(|entry| entry.1.is_none()).map(|entry| entry.0).collect();
    let name = |path: &[u8]| path.windows(14).rposition(|part| part == b"/node_modules/").map(|at| path[at + 14..].to_vec());
    let names: Vec<Vec<u8>> = tree.keys().filter_map(|path| name(path)).collect();
    let mut all = Vec::new();
    for _ in 0..9 {
        let specifier = if names.is_empty() || rng.chance(40) { cases::specifier(rng) } else { rng.pick(&names).clone() };
        let start = if rng.chance(50) { case.start.clone() } else { rng.pick(&starts).to_vec() };
        all.push(Case { start, specifier, limit: GATEWAY, room: Room::More(0), stated: None, ..case.clone() });
    }
    all
}

/// Limits at their value and one past: few of these are small, and each is kept; of the others some.
fn limits(seed: u64) -> impl Iterator<Item = Case> {
    let case = move |number| broken::at_a_limit(&mut Rng::new(seed ^ 0x6c69_6d69, number));
    let length = |number| if number < 30 { 20_000 } else { 5_000 };
    (0..100).map(move |number| (number, case(number))).filter(move |(number, case)| case.listing.len() < length(*number)).map(|kept| kept.1)
}

fn choose(seed: u64) -> Result<Chosen, String> {
    let mut chosen = Chosen { marks: points::no_marks(), ..Chosen::default() };
    let hash = if HASH_NAMES { hash::fixed() } else { Vec::new() };
    let kept = broken::fixed().into_iter().chain(limits(seed)).chain(hash);
    for case in kept {
        chosen.offer(&case, Fit::Always)?;
    }
    for number in 0..100_000 {
        let case = cases::case(seed, number);
        if chosen.offer(&case, Fit::Wanted)? {
            for sibling in siblings(&case, &mut Rng::new(seed ^ 0x7369_626c, number)) {
                chosen.offer(&sibling, Fit::Small)?;
            }
        }
    }
    for number in 0..10_000 {
        chosen.offer(&cases::repeating(seed, number), Fit::Wanted)?;
    }
    Ok(chosen)
}

/// Writes the vectors; they are the Rust's, so it must be at hand.
pub fn write(file: &str, seed: u64) -> bool {
    if !rust::AT_HAND {
        println!("the Rust is not at hand, and vectors are its answers");
        return false;
    }
    let chosen = match choose(seed) {
        Ok(chosen) => chosen,
        Err(words) => {
            println!("{words}");
            return false;
        }
    };
    let bytes = [&chosen.count.to_le_bytes()[..], &chosen.out].concat();
    println!("{} cases in {} bytes; by number: {:?}", chosen.count, bytes.len(), chosen.numbers);
    let due = |point: &usize| HASH_NAMES || !points::of_hash_names(*point);
    let fewest = (0..chosen.marks.len()).filter(due).min_by_key(|&point| chosen.marks[point]);
    fewest.iter().for_each(|&point| println!("the fewest cases reach \"{}\": {}", points::POINTS[point], chosen.marks[point]));
    if bytes.len() > FILE {
        println!("the program that replays them reads {FILE} bytes at most");
        return false;
    }
    std::fs::write(file, bytes).is_ok()
}

/// Reads the file case by case.
struct Reader<'a> {
    rest: &'a [u8],
    listing: &'a [u8],
    settings: &'a [u8],
}

impl<'a> Reader<'a> {
    fn take(&mut self, length: usize) -> Option<&'a [u8]> {
        let (part, rest) = self.rest.split_at_checked(length)?;
        self.rest = rest;
        Some(part)
    }

    fn case(&mut self) -> Option<(Case, Rooms, Left)> {
        let header = self.take(HEADER)?;
        let number = |i: usize| word(header, 4 * i).unwrap_or(0);
        let length = |i: usize| number(i) as usize;
        if number(0) != SAME {
            self.listing = self.take(length(0))?;
        }
        if number(1) != SAME {
            self.settings = self.take(length(1))?;
        }
        let (start, specifier) = (self.take(length(2))?, self.take(length(3))?);
        let limit = number(4);
        let rooms = Rooms { result: length(5), numbers: length(6), list: length(7), work: length(8) };
        let counts = [10, 11, 12, 13].map(number);
        let mut left = Left { number: number(9), counts, ..Left::filled(rooms, 0) };
        let result = self.take(counts[..3].iter().sum::<u32>() as usize)?;
        left.result[..result.len()].copy_from_slice(result);
        self.list(&mut left, length(14))?;
        let (start, specifier) = (start.to_vec(), specifier.to_vec());
        let (listing, settings) = (self.listing.to_vec(), self.settings.to_vec());
        Some((Case { listing, settings, start, specifier, limit, room: Room::More(0), stated: None }, rooms, left))
    }

    /// The packed list, spread into list numbers and list text; a refusal has none.
    fn list(&mut self, left: &mut Left, bytes: usize) -> Option<()> {
        let mut packed = self.take(bytes)?;
        let count = if bytes > 0 { left.counts[3] as usize } else { 0 };
        let (mut before, mut at) = (0, 0);
        for i in 0..count {
            let (head, rest) = packed.split_at_checked(5)?;
            let short = |i: usize| usize::from(u16::from_le_bytes([head[i], head[i + 1]]));
            let (more, rest) = rest.split_at_checked(short(3))?;
            left.list.copy_within(before..before + short(1), at);
            left.list[at + short(1)..at + short(1) + more.len()].copy_from_slice(more);
            left.numbers[2 + i] = (short(1) + more.len()) as u32;
            left.numbers[2 + count + i] = u32::from(head[0]);
            (before, at, packed) = (at, at + short(1) + more.len(), rest);
        }
        if is_answer(left.number) {
            left.numbers[..2].copy_from_slice(&[count as u32, at as u32]);
        }
        packed.is_empty().then_some(())
    }
}

/// Replays the vectors through the product.
pub fn replay(file: &str) -> bool {
    let Ok(bytes) = std::fs::read(file) else { return false };
    let count = word(&bytes, 0).unwrap_or(0);
    let mut reader = Reader { rest: bytes.get(4..).unwrap_or(b""), listing: b"", settings: b"" };
    let mut faults = 0;
    for number in 0..count {
        let Some((case, rooms, left)) = reader.case() else {
            println!("case {number} is cut short");
            return false;
        };
        if product::call(case.question(), rooms) != left {
            faults += 1;
            println!("FAULT vector {number}");
            crate::print_case(&case);
        }
    }
    println!("{count} vectors, {faults} faults, {} bytes left over", reader.rest.len());
    faults == 0 && reader.rest.is_empty()
}
