//! What a call must leave, worked out without the product: refusals before the lookup from document 01's words, the answer and
//! list from the Rust, refusals 40 and 42 from the harness's own walk, 53 from the length of the list, and 20 and 21 from the buffers' lengths.

use crate::cases::{Case, Room};
use crate::lent::{HASH_NAMES, Settings, Tree, is_hash, is_specifier, read_listing, read_settings};
use crate::model::{self, Consult, End, Walked};
use crate::points::Marks;
use crate::product::{Left, Rooms};
use crate::rust;

/// A question that none of 25 to 23 refuses.
pub struct Accepted {
    pub tree: Tree,
    pub settings: Settings,
}

/// The refusals before the lookup, in document 01's order: 25, 24, 30, 31, 32, 22, 23.
pub fn accept(case: &Case, work: usize) -> Result<Accepted, u32> {
    accept_names(case, work, HASH_NAMES)
}

fn accept_names(case: &Case, work: usize, hash_names: bool) -> Result<Accepted, u32> {
    if work < 32_768 {
        return Err(25);
    }
    let settings = read_settings(&case.settings).ok_or(24u32)?;
    let tree = read_listing(&case.listing)?;
    if !is_specifier(&case.specifier, hash_names) {
        return Err(22);
    }
    if tree.get(&case.start) != Some(&None) {
        return Err(23);
    }
    Ok(Accepted { tree, settings })
}

/// Who decided a case.
#[derive(Clone, Copy, PartialEq, Eq)]
pub enum By {
    /// Document 01: a refusal.
    Scope,
    /// The Rust.
    Rust,
    /// RFC 8259 and document 01 on JSON, against the Rust.
    Json,
    /// The harness's own walk, the Rust not being at hand.
    Walk,
    /// The limit of consults: the list without it is longer.
    Limit,
}

pub struct Expected {
    pub end: End,
    /// The consults that were made, by a refused lookup too.
    pub list: Vec<Consult>,
    pub by: By,
    /// What the lookup reached; none where it was not begun.
    pub marks: Option<Marks>,
}

fn same_lists(one: &[Consult], other: &[Consult]) -> bool {
    one.len() == other.len() && one.iter().zip(other).all(|(a, b)| a.state == b.state && a.path == b.path)
}

/// The answer and list of the lookup without a limit, or its refusal; an error is a fault of the harness.
fn looked_up(case: &Case, accepted: &Accepted, walked: Walked, beside_rust: bool) -> Result<Expected, String> {
    let marks = Some(walked.marks);
    if walked.end.is_refusal() {
        return Ok(Expected { end: walked.end, list: walked.list, by: By::Scope, marks });
    }
    if !beside_rust {
        return Ok(Expected { end: walked.end, list: walked.list, by: By::Walk, marks });
    }
    let (end, list) = rust::ask(&accepted.tree, &accepted.settings, &case.start, &case.specifier)?;
    if end == walked.end && same_lists(&list, &walked.list) {
        return Ok(Expected { end, list, by: By::Rust, marks });
    }
    if (end.number == 7) != (walked.end.number == 7) {
        return Ok(Expected { end: walked.end, list: walked.list, by: By::Json, marks });
    }
    Err(format!(
        "the harness's own walk differs from the Rust: {:?} and {end:?}, lists of {} and {}",
        walked.end,
        walked.list.len(),
        list.len()
    ))
}

/// The lookup within its limit: where the whole list is longer, it is refused as 53 with the first consults made; else nothing changes.
fn limited(limit: usize, whole: Expected, walked: Walked) -> Result<Expected, String> {
    let made = whole.list.len().min(limit);
    if !same_lists(&walked.list, &whole.list[..made]) {
        return Err(format!("a limit of {limit}, and other consults before it"));
    }
    if made < whole.list.len() {
        let end = End { number: 53, texts: Vec::new() };
        return Ok(Expected { end, list: walked.list, by: By::Limit, marks: Some(walked.marks) });
    }
    if walked.end != whole.end {
        return Err(format!("a limit of {limit} that is not passed, and {:?} instead of {:?}", walked.end, whole.end));
    }
    Ok(whole)
}

/// What the case must give with long enough outputs; the Rust is asked where it is at hand.
pub fn expected(case: &Case) -> Result<Expected, String> {
    decide(case, case.work(), rust::AT_HAND)
}

/// The same where names that begin with "#" are taken, whether or not the product does.
pub fn expected_of_hash(case: &Case) -> Result<Expected, String> {
    decide_names(case, case.work(), rust::AT_HAND, true)
}

pub fn decide(case: &Case, work: usize, beside_rust: bool) -> Result<Expected, String> {
    decide_names(case, work, beside_rust, HASH_NAMES)
}

fn decide_names(case: &Case, work: usize, beside_rust: bool, hash_names: bool) -> Result<Expected, String> {
    match accept_names(case, work, hash_names) {
        Err(number) => Ok(Expected { end: End { number, texts: Vec::new() }, list: Vec::new(), by: By::Scope, marks: None }),
        Ok(accepted) => {
            let walk = |limit| model::lookup(&accepted.tree, &accepted.settings, &case.start, &case.specifier, limit);
            let walked = walk(usize::MAX);
            let bound = model::formula(&accepted.tree, &accepted.settings, &case.start);
            if walked.list.len() > bound && !is_hash(&case.specifier) {
                return Err(format!("a list of {} consults, over the formula's {bound}", walked.list.len()));
            }
            let whole = looked_up(case, &accepted, walked, beside_rust)?;
            let limit = case.limit as usize;
            limited(limit, whole, walk(limit))
        }
    }
}

/// The lengths of the buffers that the case asks for.
pub fn rooms(expected: &Expected, room: Room) -> Rooms {
    let text = |texts: &mut dyn Iterator<Item = &Vec<u8>>| texts.map(Vec::len).sum::<usize>();
    let mut rooms = Rooms {
        result: text(&mut expected.end.texts.iter()),
        numbers: 2 + 2 * expected.list.len(),
        list: text(&mut expected.list.iter().map(|consult| &consult.path)),
        work: 32_768,
    };
    if expected.end.is_refusal() {
        rooms = Rooms { result: 40, numbers: 20, list: 60, work: 32_768 };
    }
    match room {
        Room::More(more) => {
            let Rooms { result, numbers, list, work } = rooms;
            rooms = Rooms { result: result + more, numbers: numbers + more, list: list + more, work: work + more };
        }
        Room::ResultLess(less) => rooms.result -= less.min(rooms.result),
        Room::NumbersLess(less) => rooms.numbers -= less.min(rooms.numbers),
        Room::ListLess(less) => rooms.list -= less.min(rooms.list),
        Room::Work(work) => rooms.work = work,
    }
    rooms
}

/// What the call must leave in these buffers.
pub fn left(expected: &Expected, rooms: Rooms) -> Left {
    let mut left = Left { number: expected.end.number, ..Left::filled(rooms, 0) };
    left.counts[3] = expected.list.len() as u32;
    if expected.end.is_refusal() {
        return left;
    }
    let result = expected.end.texts.concat();
    let list: Vec<u8> = expected.list.iter().flat_map(|consult| consult.path.iter().copied()).collect();
    let count = expected.list.len();
    if result.len() > rooms.result {
        left.number = 20;
    } else if 2 + 2 * count > rooms.numbers || list.len() > rooms.list {
        left.number = 21;
    } else {
        for (length, text) in left.counts.iter_mut().zip(&expected.end.texts) {
            *length = text.len() as u32;
        }
        left.result[..result.len()].copy_from_slice(&result);
        left.list[..list.len()].copy_from_slice(&list);
        left.numbers[..2].copy_from_slice(&[count as u32, list.len() as u32]);
        for (i, consult) in expected.list.iter().enumerate() {
            left.numbers[2 + i] = consult.path.len() as u32;
            left.numbers[2 + count + i] = u32::from(consult.state);
        }
    }
    left
}
