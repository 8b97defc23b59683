use crate::library::hannuvozh_lookup;
use crate::{Answer, Options, Refusal, Refused};
use std::fmt;
use std::fmt::Write as _;

/// No answer's texts are longer together.
const RESULT: usize = 6_157;
const WORK: usize = 32_768;
/// No list has more consults, and no consulted path more bytes.
const MOST_CONSULTS: usize = Options::GATEWAY as usize;
const MOST_PATH: usize = 2_048;

/// Asks one question. Each buffer is as long as it needs to be.
///
/// `listing` and `settings` are bytes as [`Listing::to_bytes`](crate::Listing::to_bytes) and
/// [`Settings::to_bytes`](crate::Settings::to_bytes) make them, or any others.
///
/// # Errors
///
/// The refusal, where the question or a package on the way breaks a rule or a limit.
pub fn lookup(listing: &[u8], settings: &[u8], start: impl AsRef<[u8]>, specifier: impl AsRef<[u8]>) -> Result<Lookup, Refused> {
    lookup_with(Options::new(), listing, settings, start, specifier)
}

/// As [`lookup`], with options: the preview's limit of consults, say.
///
/// ```
/// use hannuvozh::{Listing, Options, Refusal, Settings, lookup_with};
///
/// let (listing, settings) = (Listing::new().file("/node_modules/a/index.js").to_bytes(), Settings::example().to_bytes());
/// let looked = lookup_with(Options::preview(), &listing, &settings, "/", "a").unwrap();
/// let needed = looked.consults().len() as u32;
/// assert_eq!(lookup_with(Options::new().limit(needed), &listing, &settings, "/", "a").unwrap(), looked);
///
/// let stopped = lookup_with(Options::new().limit(needed - 1), &listing, &settings, "/", "a").unwrap_err();
/// assert_eq!((stopped.refusal(), stopped.consults()), (Refusal::TooManyConsults, needed - 1));
/// ```
///
/// # Errors
///
/// As [`lookup`].
pub fn lookup_with(
    options: Options,
    listing: &[u8],
    settings: &[u8],
    start: impl AsRef<[u8]>,
    specifier: impl AsRef<[u8]>,
) -> Result<Lookup, Refused> {
    Buffers::new().lookup_with(options, listing, settings, start, specifier)
}

/// Buffers that many lookups can share, so that memory is asked for once.
///
/// ```
/// use hannuvozh::{Buffers, Listing, Settings};
///
/// let listing = Listing::new().file("/node_modules/a/index.js").to_bytes();
/// let settings = Settings::require().to_bytes();
/// let mut buffers = Buffers::new();
/// for (specifier, number) in [("a", 0), ("b", 1)] {
///     assert_eq!(buffers.lookup(&listing, &settings, "/", specifier)?.answer().number(), number);
/// }
/// # Ok::<(), hannuvozh::Refused>(())
/// ```
#[derive(Clone, Debug)]
pub struct Buffers {
    result: Vec<u8>,
    numbers: Vec<u32>,
    text: Vec<u8>,
    work: Vec<u8>,
}

impl Default for Buffers {
    fn default() -> Self {
        Self::new()
    }
}

impl Buffers {
    /// Buffers for lists of some hundred consults; longer lists make them grow.
    #[must_use]
    pub fn new() -> Self {
        Self { result: vec![0; RESULT], numbers: vec![0; 2 + 2 * 256], text: vec![0; 256 * 64], work: vec![0; WORK] }
    }

    /// Asks one question, as [`lookup`] does.
    ///
    /// # Errors
    ///
    /// As [`lookup`].
    pub fn lookup(
        &mut self,
        listing: &[u8],
        settings: &[u8],
        start: impl AsRef<[u8]>,
        specifier: impl AsRef<[u8]>,
    ) -> Result<Lookup, Refused> {
        self.lookup_with(Options::new(), listing, settings, start, specifier)
    }

    /// Asks one question, as [`lookup_with`] does.
    ///
    /// # Errors
    ///
    /// As [`lookup`].
    pub fn lookup_with(
        &mut self,
        options: Options,
        listing: &[u8],
        settings: &[u8],
        start: impl AsRef<[u8]>,
        specifier: impl AsRef<[u8]>,
    ) -> Result<Lookup, Refused> {
        loop {
            let (number, counts) = self.call(options, listing, settings, start.as_ref(), specifier.as_ref());
            let [lengths @ .., consults] = counts;
            let Some(refusal) = Refusal::new(number) else {
                return Ok(self.taken(number, lengths));
            };
            if refusal != Refusal::ListTooShort || !self.grow() {
                return Err(Refused::new(refusal, consults));
            }
        }
    }

    /// Longer buffers for the list; false where they had all that any list needs.
    fn grow(&mut self) -> bool {
        let (numbers, text) = (2 + 2 * MOST_CONSULTS, MOST_CONSULTS * MOST_PATH);
        if self.numbers.len() >= numbers && self.text.len() >= text {
            return false;
        }
        self.numbers.resize((4 * self.numbers.len()).min(numbers), 0);
        self.text.resize((4 * self.text.len()).min(text), 0);
        true
    }

    /// The number, and the counts: the lengths of three texts, and how many consults were made.
    fn call(&mut self, options: Options, listing: &[u8], settings: &[u8], start: &[u8], specifier: &[u8]) -> (u32, [u32; 4]) {
        let mut counts = [0; 4];
        // SAFETY: each pointer goes with the length of its own slice; the slices written to are this buffer's own, and so overlap no other.
        let number = unsafe {
            hannuvozh_lookup(
                listing.as_ptr(),
                listing.len(),
                settings.as_ptr(),
                settings.len(),
                start.as_ptr(),
                start.len(),
                specifier.as_ptr(),
                specifier.len(),
                options.consults(),
                self.result.as_mut_ptr(),
                self.result.len(),
                self.numbers.as_mut_ptr(),
                self.numbers.len(),
                self.text.as_mut_ptr(),
                self.text.len(),
                self.work.as_mut_ptr(),
                self.work.len(),
                &raw mut counts,
            )
        };
        (number, counts)
    }

    /// The answer and list as the call left them.
    fn taken(&self, number: u32, lengths: [u32; 3]) -> Lookup {
        let mut rest = &self.result[..];
        let texts = lengths.map(|length| {
            let (text, after) = rest.split_at(length as usize);
            rest = after;
            String::from_utf8_lossy(text).into_owned()
        });
        let answer = Answer::new(number, texts).expect("every number that is no refusal is an answer");
        let count = self.numbers[0] as usize;
        let text = self.text[..self.numbers[1] as usize].to_vec();
        let list = self.numbers[2..2 + count].iter().zip(&self.numbers[2 + count..2 + 2 * count]);
        let list = list.map(|(&length, &state)| (length as usize, State::new(state))).collect();
        Lookup { answer, list, text }
    }
}

/// An answer, with the list of paths that were consulted for it.
#[derive(Clone, Debug, PartialEq, Eq)]
pub struct Lookup {
    answer: Answer,
    list: Vec<(usize, State)>,
    text: Vec<u8>,
}

impl Lookup {
    /// The answer.
    #[must_use]
    pub fn answer(&self) -> &Answer {
        &self.answer
    }

    /// The consulted paths, in order, repeats included. Any listing that agrees with this one at these paths gives the same answer.
    ///
    /// ```
    /// use hannuvozh::{Listing, Settings, State, lookup};
    ///
    /// let listing = Listing::new().file("/node_modules/a/index.js").to_bytes();
    /// let looked = lookup(&listing, &Settings::example().to_bytes(), "/", "a")?;
    /// let last = looked.consults().last().unwrap();
    /// assert_eq!((last.state, last.path.as_ref()), (State::File, "/node_modules/a/index.js"));
    /// # Ok::<(), hannuvozh::Refused>(())
    /// ```
    #[must_use]
    pub fn consults(&self) -> Consults<'_> {
        Consults { list: self.list.iter(), text: &self.text }
    }

    /// The answer's number and texts on one line, then a line with state and path for each consult.
    ///
    /// ```
    /// use hannuvozh::{Listing, Settings, lookup};
    ///
    /// let listing = Listing::new().to_bytes();
    /// let looked = lookup(&listing, &Settings::example().to_bytes(), "/", "a")?;
    /// assert_eq!(looked.printed(), "1 a\n0 /package.json\n1 /\n0 /node_modules\n");
    /// # Ok::<(), hannuvozh::Refused>(())
    /// ```
    #[must_use]
    pub fn printed(&self) -> String {
        let mut out = self.answer.printed() + "\n";
        for consult in self.consults() {
            let _ = writeln!(out, "{} {}", consult.state.number(), consult.path);
        }
        out
    }
}

/// What a listing has at a consulted path.
#[derive(Clone, Copy, Debug, PartialEq, Eq)]
pub enum State {
    /// 0: no entry has the path.
    Absent,
    /// 1: a directory has it.
    Directory,
    /// 2: a file has it.
    File,
    /// 3: a file has it, and the search for the nearest manifest reads it.
    ManifestRead,
}

impl State {
    fn new(number: u32) -> Self {
        match number {
            0 => Self::Absent,
            1 => Self::Directory,
            2 => Self::File,
            _ => Self::ManifestRead,
        }
    }

    /// The state's number, 0 to 3.
    #[must_use]
    pub fn number(self) -> u32 {
        self as u32
    }
}

impl fmt::Display for State {
    fn fmt(&self, f: &mut fmt::Formatter<'_>) -> fmt::Result {
        f.write_str(match self {
            Self::Absent => "absent",
            Self::Directory => "a directory",
            Self::File => "a file",
            Self::ManifestRead => "read",
        })
    }
}

/// One question about one path.
#[derive(Clone, Debug, PartialEq, Eq)]
pub struct Consult<'a> {
    /// What the listing has there.
    pub state: State,
    /// The path.
    pub path: std::borrow::Cow<'a, str>,
}

/// The consults of a [`Lookup`], in order.
#[derive(Clone, Debug)]
pub struct Consults<'a> {
    list: std::slice::Iter<'a, (usize, State)>,
    text: &'a [u8],
}

impl<'a> Iterator for Consults<'a> {
    type Item = Consult<'a>;

    fn next(&mut self) -> Option<Consult<'a>> {
        let &(length, state) = self.list.next()?;
        let (path, rest) = self.text.split_at(length);
        self.text = rest;
        Some(Consult { state, path: String::from_utf8_lossy(path) })
    }

    fn size_hint(&self) -> (usize, Option<usize>) {
        self.list.size_hint()
    }
}

impl ExactSizeIterator for Consults<'_> {}
