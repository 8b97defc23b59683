//! Times whole lookups, the product's and the Rust's, over the same questions in one run, and draws a plot. bench/run builds it.
//!
//! The product's time is taken apart through calls that are refused: with work memory one byte short (25) a call only clears its
//! buffers; with an empty specifier (22) it checks settings and listing too. The Rust checks no listing; fresh, it is asked with a new
//! resolver each time, as a job would; warm, with one that has answered all the questions before.

#![allow(dead_code)]

#[path = "../compare/src/json.rs"]
mod json;
#[path = "../compare/src/lent.rs"]
mod lent;
#[path = "../compare/src/model.rs"]
mod model;
#[path = "../compare/src/names.rs"]
mod names;
mod plot;
#[path = "../compare/src/points.rs"]
mod points;
#[path = "../compare/src/product.rs"]
mod product;
#[cfg(rust)]
#[path = "../compare/src/rust.rs"]
mod rust;
mod stack;
mod trees;

use product::{Left, Question, Rooms};
use std::time::Instant;
use trees::Job;

const ROUNDS: usize = 40;
/// Limits of consults: the gateway's, which stops no bare name, and the preview's.
const GATEWAY: u32 = 18_777;
const PREVIEW: u32 = 512;

/// Nanoseconds for one question, the mean over a job's questions.
#[derive(Clone, Copy, Default)]
pub struct Figures {
    pub call: f64,
    pub clearing: f64,
    pub check: f64,
    pub fresh: f64,
    pub warm: f64,
}

impl Figures {
    /// The call less the check of settings and listing.
    pub fn unchecked(&self) -> f64 {
        self.call - self.check
    }
}

/// The best of many rounds, each long enough to be timed.
fn best(questions: usize, mut round: impl FnMut()) -> f64 {
    let begun = Instant::now();
    round();
    let once = begun.elapsed().as_secs_f64().max(1e-7);
    let times = (0.002 / once).ceil() as usize;
    let mut best = f64::MAX;
    for _ in 0..ROUNDS {
        let begun = Instant::now();
        (0..times).for_each(|_| round());
        best = best.min(begun.elapsed().as_secs_f64() / times as f64);
    }
    best * 1e9 / questions as f64
}

/// Times the product; `specifier`, `limit` and `work` may make every call a refusal.
fn time_product(job: &Job, rooms: Rooms, specifier: Option<&[u8]>, limit: u32) -> f64 {
    let (listing, settings) = (lent::lay(&lent::rows(&job.tree)), lent::lay_settings(&job.settings));
    let mut left = Left::filled(rooms, 0);
    best(job.questions.len(), || {
        for (start, name) in &job.questions {
            let specifier = specifier.unwrap_or(name.as_bytes());
            left.ask(Question { listing: &listing, settings: &settings, start: start.as_bytes(), specifier, limit });
            std::hint::black_box(&left);
        }
    })
}

#[cfg(rust)]
fn time_rust(job: &Job, figures: &mut Figures) {
    use rust::{Lent, plain};
    use std::hint::black_box;
    use std::path::Path;
    let (lent, options) = (Lent::new(&job.tree), plain::options(&job.settings));
    let fresh = || plain::resolver(lent.clone(), options.clone());
    let warm = fresh();
    figures.fresh = best(job.questions.len(), || {
        for (start, specifier) in &job.questions {
            black_box(fresh().oracle_lookup(Path::new(start), specifier)).0.ok();
        }
    });
    figures.warm = best(job.questions.len(), || {
        for (start, specifier) in &job.questions {
            black_box(warm.oracle_lookup(Path::new(start), specifier)).0.ok();
        }
    });
}

#[cfg(not(rust))]
fn time_rust(_: &Job, _: &mut Figures) {}

/// Buffers for a job: the result and work that always suffice, and twice the longest list.
fn rooms(job: &Job) -> Rooms {
    let mut rooms = Rooms { result: 6_157, numbers: 0, list: 0, work: 32_768 };
    for (start, specifier) in &job.questions {
        let list = model::lookup(&job.tree, &job.settings, start.as_bytes(), specifier.as_bytes(), usize::MAX).list;
        let text: usize = list.iter().map(|consult| consult.path.len()).sum();
        rooms.numbers = rooms.numbers.max(2 * (2 + 2 * list.len()));
        rooms.list = rooms.list.max(2 * text);
    }
    rooms
}

fn time(job: &Job) -> Figures {
    let rooms = rooms(job);
    let clearing = time_product(job, Rooms { work: rooms.work - 1, ..rooms }, None, GATEWAY);
    let checked = time_product(job, rooms, Some(b""), GATEWAY);
    let call = time_product(job, rooms, None, GATEWAY);
    let mut figures = Figures { call, clearing, check: checked - clearing, ..Figures::default() };
    time_rust(job, &mut figures);
    figures
}

/// Consults of all the job's questions together, and the answers by number; every answer must be the Rust's.
fn examine(job: &Job) -> (usize, [usize; 8]) {
    let (listing, settings) = (lent::lay(&lent::rows(&job.tree)), lent::lay_settings(&job.settings));
    let (mut consults, mut answers) = (0, [0; 8]);
    let mut left = Left::filled(rooms(job), 0);
    for (start, specifier) in &job.questions {
        let (start_bytes, specifier_bytes) = (start.as_bytes(), specifier.as_bytes());
        left.ask(Question { listing: &listing, settings: &settings, start: start_bytes, specifier: specifier_bytes, limit: GATEWAY });
        assert!(left.number < 8, "{} from {start} was refused as {}", specifier, left.number);
        consults += left.numbers[0] as usize;
        answers[left.number as usize] += 1;
        #[cfg(rust)]
        {
            let (end, list) = rust::ask(&job.tree, &job.settings, start.as_bytes(), specifier.as_bytes()).unwrap();
            let texts = &left.result[..left.counts[..3].iter().sum::<u32>() as usize];
            assert!(
                end.number == left.number && end.texts.concat() == texts && list.len() == left.numbers[0] as usize,
                "{specifier} differs"
            );
        }
    }
    (consults, answers)
}

fn ratio(one: f64, other: f64) -> String {
    if other > 0.0 { format!("{:.2}", one / other) } else { "not measured".into() }
}

fn row(job: &Job, figures: &Figures) {
    let (consults, _) = examine(job);
    let Figures { call, clearing, check, fresh, warm } = *figures;
    println!(
        "| {} | {} | {} | {:.1} | {call:.0} | {clearing:.0} | {check:.0} | {fresh:.0} | {} | {} | {warm:.0} | {} |",
        job.name,
        job.tree.len(),
        job.questions.len(),
        consults as f64 / job.questions.len() as f64,
        ratio(call, fresh),
        ratio(figures.unchecked(), fresh),
        ratio(call, warm),
    );
}

fn compare(jobs: &[Job]) -> Vec<Figures> {
    let heads = ["questions", "entries", "asked", "consults, mean", "product, ns", "of it clearing", "of it check"];
    let beside = ["Rust fresh, ns", "product / fresh", "without check", "Rust warm, ns", "product / warm"];
    println!("| {} | {} |", heads.join(" | "), beside.join(" | "));
    println!("|---|---|---|---|---|---|---|---|---|---|---|---|");
    jobs.iter()
        .map(|job| {
            let figures = time(job);
            row(job, &figures);
            figures
        })
        .collect()
}

/// The longest lists that were found, by the depth of the start: time against consults times entries, and what a preview takes, which stops
/// at its limit.
fn lists() {
    println!(
        "\n| start's depth | entries | consults | product, ns | Rust fresh, ns | ns for each consult and entry | preview, ns | preview / whole |"
    );
    println!("|---|---|---|---|---|---|---|---|");
    for depth in [4, 8, 16, 24, 32] {
        let job = trees::longest(depth);
        let figures = time(&job);
        let (consults, entries) = (examine(&job).0, job.tree.len());
        let each = figures.call / (consults * entries) as f64;
        let preview = time_product(&job, rooms(&job), None, PREVIEW);
        let (call, fresh) = (figures.call, figures.fresh);
        println!("| {depth} | {entries} | {consults} | {call:.0} | {fresh:.0} | {each:.3} | {preview:.0} | {:.2} |", preview / call);
    }
}

/// Whole lookups over manifests of 16 KiB, against a plain one.
fn manifests() {
    println!(
        "\n| manifest of 16 KiB | bytes | product, ns | of it manifest and walk | a byte | factor of the plain one | Rust fresh, ns |"
    );
    println!("|---|---|---|---|---|---|---|");
    let mut plain = 0.0;
    for job in [trees::plain()].iter().chain(&trees::worst()) {
        examine(job);
        let figures = time(job);
        let bytes = job.tree.values().flatten().map(Vec::len).sum::<usize>() as f64;
        let alone = (figures.call - figures.check - figures.clearing) / bytes;
        plain = if plain == 0.0 { alone } else { plain };
        let Figures { call, fresh, .. } = figures;
        println!("| {} | {bytes} | {call:.0} | {:.0} | {alone:.2} | {:.1} | {fresh:.0} |", job.name, alone * bytes, alone / plain);
    }
}

fn stacks() {
    // A second member takes the reader of manifests deeper than a first.
    let (object, array) = (("{\"a\":0,\"import\":", "}"), ("[", "]"));
    let deepest = [("objects", [object, object]), ("arrays", [array, array]), ("both by turns", [object, array])];
    let jobs = deepest.map(|(name, around)| trees::nested(name, around));
    println!("\nstack, in bytes:");
    for job in [trees::printed()].iter().chain(&jobs) {
        println!("{:>7}  {}", stack::used(job), job.name);
    }
}

fn main() {
    println!("{}\n", if cfg!(rust) { "Beside the Rust." } else { "The Rust is not at hand: the product alone." });
    let jobs: Vec<Job> = [trees::printed(), trees::realistic()].into_iter().chain([10, 100, 300, 1_000].map(trees::sized)).collect();
    let figures = compare(&jobs);
    lists();
    manifests();
    stacks();
    let (_, answers) = examine(&jobs[1]);
    println!("\nanswers 0 to 7 of the realistic tree's questions: {answers:?}");
    if let Some(file) = std::env::args().nth(1) {
        let points: Vec<(usize, Figures)> = jobs.iter().map(|job| job.tree.len()).zip(figures).skip(2).collect();
        std::fs::write(&file, plot::svg(&points)).expect("the plot can be written");
        println!("plot: {file}");
    }
}
