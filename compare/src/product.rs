//! The product: the static library's one function, called with buffers of exactly the lengths wanted.

#[path = "../../bindings/rust/src/library.rs"]
mod library;

use library::hannuvozh_lookup;

/// Lengths of the lent buffers.
#[derive(Clone, Copy, Debug)]
pub struct Rooms {
    pub result: usize,
    pub numbers: usize,
    pub list: usize,
    pub work: usize,
}

/// One question, as bytes.
#[derive(Clone, Copy)]
pub struct Question<'a> {
    pub listing: &'a [u8],
    pub settings: &'a [u8],
    pub start: &'a [u8],
    pub specifier: &'a [u8],
    pub limit: u32,
}

/// What a call leaves: its number, the lengths of its texts and the consults that were made, and all of every buffer.
#[derive(Clone, PartialEq, Eq)]
pub struct Left {
    pub number: u32,
    pub counts: [u32; 4],
    pub result: Vec<u8>,
    pub numbers: Vec<u32>,
    pub list: Vec<u8>,
    pub work: Vec<u8>,
}

impl Left {
    /// Buffers of these lengths, each byte being `byte`.
    pub fn filled(rooms: Rooms, byte: u8) -> Self {
        let number = u32::from_le_bytes([byte; 4]);
        Self {
            number,
            counts: [number; 4],
            result: vec![byte; rooms.result],
            numbers: vec![number; rooms.numbers],
            list: vec![byte; rooms.list],
            work: vec![byte; rooms.work],
        }
    }

    pub fn ask(&mut self, question: Question) {
        let Question { listing, settings, start, specifier, limit } = question;
        // SAFETY: each pointer goes with the length of its own buffer, and the buffers are apart.
        self.number = unsafe {
            hannuvozh_lookup(
                listing.as_ptr(),
                listing.len(),
                settings.as_ptr(),
                settings.len(),
                start.as_ptr(),
                start.len(),
                specifier.as_ptr(),
                specifier.len(),
                limit,
                self.result.as_mut_ptr(),
                self.result.len(),
                self.numbers.as_mut_ptr(),
                self.numbers.len(),
                self.list.as_mut_ptr(),
                self.list.len(),
                self.work.as_mut_ptr(),
                self.work.len(),
                &raw mut self.counts,
            )
        };
    }
}

/// The call over buffers that hold something else before.
pub fn call(question: Question, rooms: Rooms) -> Left {
    let mut left = Left::filled(rooms, 0xA5);
    left.ask(question);
    left
}
