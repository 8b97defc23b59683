/// What a lookup may cost: how many consults it may make, [`Options::GATEWAY`] unless another limit is set.
///
/// The wish to make one consult more than the limit is refused, [`Refusal::TooManyConsults`](crate::Refusal::TooManyConsults). A lookup that
/// finishes within a limit gives the same answer and list within every larger one.
///
/// ```
/// use hannuvozh::Options;
///
/// assert_eq!(Options::new().consults(), 18_777);
/// assert_eq!(Options::preview(), Options::new().limit(Options::PREVIEW));
/// ```
#[derive(Clone, Copy, Debug, PartialEq, Eq, Hash)]
pub struct Options {
    limit: u32,
}

impl Default for Options {
    fn default() -> Self {
        Self::new()
    }
}

impl Options {
    /// The gateway's limit: no bare name needs more consults.
    pub const GATEWAY: u32 = 18_777;
    /// The limit of a preview that asks while somebody types.
    pub const PREVIEW: u32 = 512;

    /// The gateway's limit.
    #[must_use]
    pub const fn new() -> Self {
        Self { limit: Self::GATEWAY }
    }

    /// The preview's limit.
    #[must_use]
    pub const fn preview() -> Self {
        Self { limit: Self::PREVIEW }
    }

    /// Any other limit; 0 refuses the first consult.
    #[must_use]
    pub const fn limit(self, consults: u32) -> Self {
        Self { limit: consults }
    }

    /// How many consults a lookup may make.
    #[must_use]
    pub const fn consults(self) -> u32 {
        self.limit
    }
}
