//! Times several builds of the library by turns, in one run, beside the Rust: a machine whose speed changes changes it for all of them.
//! bench/turns builds it.
//!
//! Each argument is NAME=SHARED-OBJECT. For each job: the best and the median of the rounds, in ns for one question, and the ratios of the
//! best ones to the first build and to the Rust asked fresh.

#![allow(dead_code)]

#[path = "../compare/src/json.rs"]
mod json;
#[path = "../compare/src/lent.rs"]
mod lent;
#[path = "../compare/src/model.rs"]
mod model;
#[path = "../compare/src/names.rs"]
mod names;
#[path = "../compare/src/points.rs"]
mod points;
#[cfg(rust)]
#[path = "../compare/src/rust.rs"]
mod rust;
mod trees;

use std::ffi::{CString, c_char, c_int, c_void};
use std::time::Instant;
use trees::Job;

const ROUNDS: usize = 60;
const GATEWAY: u32 = 18_777;
const RESULT: usize = 6_157;
const WORK: usize = 32_768;

type Lookup = unsafe extern "C" fn(
    *const u8,
    usize,
    *const u8,
    usize,
    *const u8,
    usize,
    *const u8,
    usize,
    u32,
    *mut u8,
    usize,
    *mut u32,
    usize,
    *mut u8,
    usize,
    *mut u8,
    usize,
    *mut [u32; 4],
) -> u32;

unsafe extern "C" {
    fn dlopen(file: *const c_char, flags: c_int) -> *mut c_void;
    fn dlsym(handle: *mut c_void, name: *const c_char) -> *mut c_void;
}

fn open(file: &str) -> Lookup {
    let (path, name) = (CString::new(file).unwrap(), CString::new("hannuvozh_lookup").unwrap());
    // SAFETY: the symbol is the function of bindings/c/hannuvozh.h, in every build that is given.
    unsafe {
        let handle = dlopen(path.as_ptr(), 2);
        assert!(!handle.is_null(), "{file} cannot be opened");
        let symbol = dlsym(handle, name.as_ptr());
        assert!(!symbol.is_null(), "{file} has no hannuvozh_lookup");
        std::mem::transmute::<*mut c_void, Lookup>(symbol)
    }
}

/// Buffers that are long enough for each of the job's questions, and what a call leaves in them.
struct Left {
    number: u32,
    counts: [u32; 4],
    result: Vec<u8>,
    numbers: Vec<u32>,
    list: Vec<u8>,
    work: Vec<u8>,
}

impl Left {
    fn of(job: &Job) -> Self {
        let (mut numbers, mut list) = (0, 0);
        for (start, specifier) in &job.questions {
            let consults = model::lookup(&job.tree, &job.settings, start.as_bytes(), specifier.as_bytes(), usize::MAX).list;
            numbers = numbers.max(2 * (2 + 2 * consults.len()));
            list = list.max(2 * consults.iter().map(|consult| consult.path.len()).sum::<usize>());
        }
        Self { number: 0, counts: [0; 4], result: vec![0; RESULT], numbers: vec![0; numbers], list: vec![0; list], work: vec![0; WORK] }
    }

    fn ask(&mut self, lookup: Lookup, [listing, settings, start, specifier]: [&[u8]; 4], work: usize) {
        // SAFETY: each pointer goes with the length of its own buffer, or less, and the buffers are apart.
        self.number = unsafe {
            lookup(
                listing.as_ptr(),
                listing.len(),
                settings.as_ptr(),
                settings.len(),
                start.as_ptr(),
                start.len(),
                specifier.as_ptr(),
                specifier.len(),
                GATEWAY,
                self.result.as_mut_ptr(),
                self.result.len(),
                self.numbers.as_mut_ptr(),
                self.numbers.len(),
                self.list.as_mut_ptr(),
                self.list.len(),
                self.work.as_mut_ptr(),
                work,
                &raw mut self.counts,
            )
        };
    }
}

/// What is timed of a build: whole calls; calls that check settings and listing and are then refused as 22; calls that only clear.
#[derive(Clone, Copy)]
enum Part {
    Whole,
    Checked,
    Cleared,
}

fn once(round: &mut dyn FnMut(), times: usize) -> f64 {
    let begun = Instant::now();
    (0..times).for_each(|_| round());
    begun.elapsed().as_secs_f64() / times as f64
}

/// Best and median, in ns for one question.
fn figures(mut times: Vec<f64>, questions: usize) -> (f64, f64) {
    times.sort_by(f64::total_cmp);
    let scale = 1e9 / questions as f64;
    (times[0] * scale, times[times.len() / 2] * scale)
}

fn time(job: &Job, builds: &[(String, Lookup)]) {
    let (listing, settings) = (lent::lay(&lent::rows(&job.tree)), lent::lay_settings(&job.settings));
    let mut rounds: Vec<(String, Box<dyn FnMut() + '_>)> = Vec::new();
    for (name, lookup) in builds {
        for (part, word) in [(Part::Whole, ""), (Part::Checked, " check"), (Part::Cleared, " clearing")] {
            let mut left = Left::of(job);
            let (listing, settings) = (&listing, &settings);
            rounds.push((
                format!("{name}{word}"),
                Box::new(move || {
                    for (start, specifier) in &job.questions {
                        let (specifier, work) = match part {
                            Part::Whole => (specifier.as_bytes(), WORK),
                            Part::Checked => (&b""[..], WORK),
                            Part::Cleared => (specifier.as_bytes(), WORK - 1),
                        };
                        left.ask(*lookup, [listing, settings, start.as_bytes(), specifier], work);
                        std::hint::black_box(&left.number);
                    }
                }),
            ));
        }
    }
    #[cfg(rust)]
    {
        let (lent, options) = (rust::Lent::new(&job.tree), rust::plain::options(&job.settings));
        rounds.push((
            "Rust fresh".into(),
            Box::new(move || {
                for (start, specifier) in &job.questions {
                    let resolver = rust::plain::resolver(lent.clone(), options.clone());
                    std::hint::black_box(resolver.oracle_lookup(std::path::Path::new(start), specifier)).0.ok();
                }
            }),
        ));
    }
    let counts: Vec<usize> = rounds.iter_mut().map(|(_, round)| (0.002 / once(round, 1).max(1e-7)).ceil() as usize).collect();
    let mut times = vec![Vec::new(); rounds.len()];
    for _ in 0..ROUNDS {
        for (i, (_, round)) in rounds.iter_mut().enumerate() {
            times[i].push(once(round, counts[i]));
        }
    }
    let all: Vec<(f64, f64)> = times.into_iter().map(|t| figures(t, job.questions.len())).collect();
    let fresh = if cfg!(rust) { all[all.len() - 1].0 } else { f64::NAN };
    for (i, (name, _)) in builds.iter().enumerate() {
        let (whole, median) = all[3 * i];
        let unchecked = |i: usize| all[3 * i].0 - (all[3 * i + 1].0 - all[3 * i + 2].0);
        println!(
            "| {} | {name} | {whole:.0} | {median:.0} | {:.2} | {:.2} | {:.0} | {:.2} | {:.2} | {fresh:.0} |",
            job.name,
            whole / all[0].0,
            whole / fresh,
            unchecked(i),
            unchecked(i) / unchecked(0),
            unchecked(i) / fresh,
        );
    }
}

fn main() {
    let builds: Vec<(String, Lookup)> = std::env::args()
        .skip(1)
        .map(|word| {
            let (name, file) = word.split_once('=').expect("NAME=SHARED-OBJECT");
            (name.to_string(), open(file))
        })
        .collect();
    println!(
        "| questions | build | ns, best | median | of the first | of Rust fresh | without check, ns | of the first | of Rust fresh | Rust fresh, ns |"
    );
    println!("|---|---|---|---|---|---|---|---|---|---|");
    for job in [trees::printed(), trees::realistic(), trees::plain(), trees::sized(10), trees::sized(300)] {
        time(&job, &builds);
    }
}
