//! How much stack a call takes: the stack below the caller is filled with one byte, and what the call has changed of it is looked for.

use crate::lent;
use crate::product::{Left, Question, Rooms};
use crate::trees::Job;

const FILL: u8 = 0x5A;
const FILLED: usize = 1 << 20;
/// What the functions here may use themselves while they fill and look.
const OWN: usize = 4096;

#[inline(never)]
fn call(left: &mut Left, question: Question) -> usize {
    let here = 0u8;
    let bottom = (&raw const here as usize - FILLED) as *mut u8;
    for at in 0..FILLED - OWN {
        // SAFETY: the thread's stack is four times as large, and nothing of it below this function's frame is in use.
        unsafe { bottom.add(at).write_volatile(FILL) };
    }
    left.ask(question);
    // SAFETY: as above.
    let changed = (0..FILLED - OWN).find(|&at| unsafe { bottom.add(at).read_volatile() } != FILL);
    FILLED - changed.unwrap_or(FILLED - OWN)
}

/// The most bytes that one of a job's questions takes.
pub fn used(job: &Job) -> usize {
    let (listing, settings) = (lent::lay(&lent::rows(&job.tree)), lent::lay_settings(&job.settings));
    let mut left = Left::filled(Rooms { result: 6_157, numbers: 64, list: 4_096, work: 32_768 }, 0);
    let mut ask = || {
        let questions = job.questions.iter();
        let bytes = questions.map(|(start, specifier)| {
            let (start, specifier) = (start.as_bytes(), specifier.as_bytes());
            call(&mut left, Question { listing: &listing, settings: &settings, start, specifier, limit: 18_777 })
        });
        bytes.max().unwrap_or(0)
    };
    std::thread::scope(|scope| {
        let thread = std::thread::Builder::new().stack_size(4 * FILLED).spawn_scoped(scope, &mut ask);
        thread.expect("a thread can be made").join().expect("the call comes back")
    })
}
