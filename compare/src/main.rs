//! The product beside the Rust: the same questions asked of both in one process.
//!
//!   compare cases N [SEED]      N distinct cases: number, texts, the whole list, every byte of every buffer
//!   compare repeats N [SEED]    N distinct cases that the Rust decides, in each of which a name comes twice in an object that is looked at
//!   compare hash N [SEED]       N distinct cases of names that begin with "#"; where the product does not take them, the walk beside the Rust
//!   compare pairs N [SEED]      N pairs of listings that agree where a lookup looked (demand 3)
//!   compare garbage N [SEED]    N calls with damaged and random bytes and buffer lengths (demand 1)
//!   compare vectors FILE        writes chosen cases with the Rust's answers
//!   compare replay FILE         replays them through the product
//!   compare real FOLDER [FILE]  a real tree's dependencies; FILE holds what Node.js resolves (compare/resolve.mjs)
//!   compare one NUMBER [SEED]   one case, in words; one-hash a case of `hash`

mod broken;
mod cases;
mod expected;
mod garbage;
mod hash;
mod json;
mod lent;
mod manifests;
mod model;
mod names;
mod pairs;
mod points;
mod product;
mod real;
mod rng;
#[cfg_attr(not(rust), path = "no_rust.rs")]
mod rust;
mod vectors;

use cases::Case;
use expected::{By, Expected};
use lent::HASH_NAMES;
use points::Point;
use product::Left;
use std::collections::{BTreeMap, HashSet};
use std::hash::{DefaultHasher, Hash, Hasher};
use std::ops::RangeInclusive;
use std::process::ExitCode;

const SEED: u64 = 1;

pub fn fingerprint(case: &Case) -> u64 {
    let mut hasher = DefaultHasher::new();
    case.hash(&mut hasher);
    hasher.finish()
}

/// What a run saw.
#[derive(Default)]
struct Report {
    distinct: HashSet<u64>,
    numbers: BTreeMap<u32, u64>,
    by: BTreeMap<&'static str, u64>,
    marks: Vec<u64>,
    longest: usize,
    /// Cases decided by the Rust, or by the walk in its place, that look at an object in which a name comes twice.
    repeated: u64,
    faults: u64,
    /// Whether names that begin with "#" are asked, and whether the product is.
    hash: bool,
    product: bool,
}

fn shown(bytes: &[u8]) -> String {
    let cut = &bytes[..bytes.len().min(400)];
    cut.escape_ascii().to_string()
}

fn print_case(case: &Case) {
    let (start, specifier) = (shown(&case.start), shown(&case.specifier));
    println!("  start \"{start}\" specifier \"{specifier}\" limit {} room {:?} stated {:?}", case.limit, case.room, case.stated);
    println!("  settings {}", shown(&case.settings));
    match lent::read_listing(&case.listing) {
        Err(number) => println!("  listing refused as {number}: {}", shown(&case.listing)),
        Ok(tree) => {
            for (path, contents) in tree {
                println!("  {} {}", shown(&path), contents.map_or("directory".into(), |c| shown(&c)));
            }
        }
    }
}

fn print_left(name: &str, left: &Left) {
    let end = left.result.iter().rposition(|&b| b != 0).map_or(0, |at| at + 1);
    println!("  {name}: {} {:?} \"{}\"", left.number, left.counts, shown(&left.result[..end]));
    let count = left.numbers.first().map_or(0, |&n| n as usize);
    if 2 + 2 * count > left.numbers.len() {
        println!("    a count of {count} in {} list numbers", left.numbers.len());
    } else {
        print_list(&left.numbers[2..2 + 2 * count], &left.list);
    }
    println!("    work {}", if left.work.iter().all(|&b| b == 0) { "zeros" } else { "not cleared" });
}

/// Lengths, then states, and the text that the lengths cut.
fn print_list(numbers: &[u32], text: &[u8]) {
    let (lengths, states) = numbers.split_at(numbers.len() / 2);
    let mut at = 0;
    for (&length, state) in lengths.iter().zip(states) {
        let end = at.max((at + length as usize).min(text.len()));
        println!("    {state} {}", shown(&text[at..end]));
        at = end;
    }
}

impl Report {
    fn new() -> Self {
        Self { marks: points::no_marks(), product: true, ..Self::default() }
    }

    fn fault(&mut self, number: &str, case: &Case, words: &str) {
        self.faults += 1;
        if self.faults <= 20 {
            println!("FAULT case {number}: {words}");
            print_case(case);
        }
    }

    /// Asks one case of everyone; false where it was seen before.
    fn ask(&mut self, number: &str, case: &Case) -> bool {
        if !self.distinct.insert(fingerprint(case)) {
            return false;
        }
        let expected = if self.hash { expected::expected_of_hash(case) } else { expected::expected(case) };
        match expected {
            Err(words) => self.fault(number, case, &words),
            Ok(expected) => self.compare(number, case, &expected),
        }
        true
    }

    fn compare(&mut self, number: &str, case: &Case, expected: &Expected) {
        let rooms = expected::rooms(expected, case.room);
        let want = expected::left(expected, rooms);
        let got = if self.product { product::call(case.question(), rooms) } else { want.clone() };
        if case.stated.is_some_and(|stated| stated != want.number) {
            self.fault(number, case, &format!("made to give {:?}, but {} is worked out", case.stated, want.number));
        }
        if got != want {
            self.fault(number, case, "the product differs");
            print_left("wanted", &want);
            print_left("got   ", &got);
        }
        self.count(&want, expected);
    }

    fn count(&mut self, want: &Left, expected: &Expected) {
        *self.numbers.entry(want.number).or_default() += 1;
        let by = match expected.by {
            _ if want.number == 20 || want.number == 21 => "a refusal of 01, worked out here",
            By::Scope => "a refusal of 01, worked out here",
            By::Rust => "the Rust",
            By::Json => "RFC 8259 or 01, on JSON, against the Rust",
            By::Walk => "the harness's own walk",
            By::Limit => "the limit of consults, over the list of one of these",
        };
        *self.by.entry(by).or_default() += 1;
        self.longest = self.longest.max(expected.list.len());
        let repeated = expected.marks.as_ref().is_some_and(|marks| marks[Point::Repeated as usize] > 0);
        self.repeated += u64::from(repeated && model::is_answer(want.number) && matches!(expected.by, By::Rust | By::Walk));
        for (sum, reached) in self.marks.iter_mut().zip(expected.marks.iter().flatten()) {
            *sum += u64::from(*reached > 0);
        }
    }

    fn print(&self) {
        println!("\nnumber   cases");
        for (number, count) in &self.numbers {
            println!("{number:>6} {count:>7}");
        }
        println!("\ndecided by");
        for (by, count) in &self.by {
            println!("{count:>9} {by}");
        }
        println!("\ncases that reach each routine and branch");
        for (words, count) in points::POINTS.iter().zip(&self.marks) {
            println!("{count:>9} {words}");
        }
        println!("\n{} distinct cases, longest list {}, {} faults", self.distinct.len(), self.longest, self.faults);
    }
}

/// What a run of a million cases must at least have seen.
fn wanted(report: &Report, count: u64) -> bool {
    let numbers = [(0..=7, 5_000), (20..=25, 500), (30..=32, 500), (40..=40, 500), (42..=42, 500), (53..=53, 20_000)];
    let good = enough(report, &numbers, count);
    let hash = [(50..=51, 2_000), (56..=56, 1_000)];
    let good = good & (!HASH_NAMES || enough(report, &hash, count));
    good & reached(report, |point| HASH_NAMES || !points::of_hash_names(point))
}

/// Whether a run saw so many cases of each number, for a million cases.
fn enough(report: &Report, numbers: &[(RangeInclusive<u32>, u64)], count: u64) -> bool {
    let mut good = true;
    for (range, least) in numbers {
        for number in range.clone() {
            let seen = report.numbers.get(&number).copied().unwrap_or(0);
            if seen < least * count / 1_000_000 {
                println!("too few cases of {number}: {seen}");
                good = false;
            }
        }
    }
    good
}

/// Whether a run reached each of these points.
fn reached(report: &Report, due: fn(usize) -> bool) -> bool {
    let missed: Vec<usize> = (0..report.marks.len()).filter(|&point| report.marks[point] == 0 && due(point)).collect();
    missed.iter().for_each(|&point| println!("not reached: {}", points::POINTS[point]));
    missed.is_empty()
}

fn compare(count: u64, seed: u64) -> bool {
    let mut report = Report::new();
    println!("{}", if rust::AT_HAND { "beside the Rust" } else { "the Rust is not at hand: the harness's own walk stands in its place" });
    let hash = if HASH_NAMES { hash::fixed() } else { Vec::new() };
    for (i, case) in broken::fixed().iter().chain(&hash).enumerate() {
        report.ask(&format!("fixed {i}"), case);
    }
    let mut number = 0;
    while (report.distinct.len() as u64) < count {
        report.ask(&number.to_string(), &cases::case(seed, number));
        number += 1;
    }
    report.print();
    wanted(&report, count) && report.faults == 0
}

/// Cases in which names come more than once. Counted are those that the Rust decides and in which it looks at such an object.
fn repeats(count: u64, seed: u64) -> bool {
    let mut report = Report::new();
    let mut number = 0;
    while report.repeated < count && number < 20 * count {
        report.ask(&number.to_string(), &cases::repeating(seed, number));
        number += 1;
    }
    report.print();
    println!(
        "{} of them decided {} with a name that comes twice",
        report.repeated,
        if rust::AT_HAND { "by the Rust" } else { "by the walk" }
    );
    let kinds = [Point::RepeatedField, Point::RepeatedKey, Point::RepeatedCondition, Point::RepeatedDeep, Point::RepeatedEscape];
    let few = kinds.into_iter().find(|&kind| report.marks[kind as usize] < count / 20);
    few.iter().for_each(|&kind| println!("too few: {}", points::POINTS[kind as usize]));
    few.is_none() && report.repeated >= count && report.faults == 0
}

/// Cases of names that begin with "#", over trees made for them.
fn hash_names(count: u64, seed: u64) -> bool {
    let mut report = Report { hash: true, product: HASH_NAMES, ..Report::new() };
    println!("{}", if HASH_NAMES { "the product beside the Rust" } else { "the harness's own walk beside the Rust, without the product" });
    for (i, case) in hash::fixed().iter().enumerate() {
        report.ask(&format!("fixed {i}"), case);
    }
    let mut number = 0;
    while (report.distinct.len() as u64) < count {
        report.ask(&number.to_string(), &hash::case(seed, number));
        number += 1;
    }
    report.print();
    let numbers = [(0..=7, 1_000), (50..=51, 5_000), (56..=56, 1_000), (40..=40, 500), (42..=42, 500), (53..=53, 20_000)];
    let good = enough(&report, &numbers, count) & reached(&report, points::of_hash_names);
    good && report.faults == 0
}

fn one(number: u64, seed: u64, hash: bool) -> bool {
    let case = if hash { hash::case(seed, number) } else { cases::case(seed, number) };
    print_case(&case);
    match if hash { expected::expected_of_hash(&case) } else { expected::expected(&case) } {
        Err(words) => println!("  {words}"),
        Ok(expected) => {
            let rooms = expected::rooms(&expected, case.room);
            print_left("wanted", &expected::left(&expected, rooms));
            print_left("got   ", &product::call(case.question(), rooms));
        }
    }
    true
}

fn run() -> Option<bool> {
    let args: Vec<String> = std::env::args().skip(1).collect();
    if let [mode, file] = &args[..] {
        match mode.as_str() {
            "vectors" => return Some(vectors::write(file, SEED)),
            "replay" => return Some(vectors::replay(file)),
            _ => {}
        }
    }
    if let [mode, folder, node @ ..] = &args[..]
        && mode == "real"
    {
        return Some(real::run(folder, node.first().map(String::as_str)));
    }
    let number = |at: usize, default: u64| args.get(at).map_or(Some(default), |text| text.parse().ok());
    let seed = number(2, SEED)?;
    Some(match args.first()?.as_str() {
        "cases" => compare(number(1, 1_000_000)?, seed),
        "repeats" => repeats(number(1, 300_000)?, seed),
        "pairs" => pairs::run(number(1, 20_000)?, seed),
        "garbage" => garbage::run(number(1, 1_000_000)?, seed),
        "hash" => hash_names(number(1, 300_000)?, seed),
        "one" => one(number(1, 0)?, seed, false),
        "one-hash" => one(number(1, 0)?, seed, true),
        _ => return None,
    })
}

fn main() -> ExitCode {
    // The Rust reads nested JSON by nested calls, however deep.
    let thread = std::thread::Builder::new().stack_size(1 << 28).spawn(run).unwrap();
    match thread.join().ok().flatten() {
        Some(true) => ExitCode::SUCCESS,
        Some(false) => ExitCode::FAILURE,
        None => {
            eprintln!(
                "compare cases N [SEED] | repeats N [SEED] | hash N [SEED] | pairs N [SEED] | garbage N [SEED] | vectors FILE | replay FILE | real FOLDER [FILE] | one NUMBER [SEED] | one-hash NUMBER [SEED]"
            );
            ExitCode::FAILURE
        }
    }
}
