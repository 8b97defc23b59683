use std::fmt;

/// How many texts of each kind there may be, and the kind's name: conditions, extensions, main fields, main files, exports fields.
const KINDS: [(usize, &str); 5] =
    [(8, "a condition"), (8, "an extension"), (4, "a main field"), (4, "a main file"), (2, "an exports field")];
const EXTENSIONS: usize = 1;
const MOST_TEXT: usize = 32;

/// Settings under construction: the conditions, extensions, main fields, main files and exports fields of a lookup, and its one imports field.
///
/// ```
/// use hannuvozh::Settings;
///
/// let settings = Settings::new().condition("import").extension(".js").main_field("main").main_file("index").exports_field("exports");
/// assert_eq!(settings, Settings::example());
/// ```
///
/// Texts over 32 bytes, or more than 8 conditions, 8 extensions, 4 main fields, 4 main files or 2 exports fields, are refused by the
/// lookup as 24.
#[derive(Clone, Debug, PartialEq, Eq)]
pub struct Settings {
    texts: [Vec<String>; 5],
    imports: String,
}

impl Default for Settings {
    fn default() -> Self {
        Self::new()
    }
}

impl Settings {
    /// Settings without any text but that of the imports field, which is imports.
    #[must_use]
    pub fn new() -> Self {
        Self { texts: Default::default(), imports: "imports".into() }
    }

    /// One text of each kind: import, .js, main, index, exports, imports.
    #[must_use]
    pub fn example() -> Self {
        Self { texts: ["import", ".js", "main", "index", "exports"].map(|text| vec![text.to_string()]), ..Self::new() }
    }

    /// As Node.js's `require` looks: node and require; .js, .json and .node; main; index; exports; imports.
    #[must_use]
    pub fn require() -> Self {
        Self::new()
            .condition("node")
            .condition("require")
            .extension(".js")
            .extension(".json")
            .extension(".node")
            .main_field("main")
            .main_file("index")
            .exports_field("exports")
    }

    fn with(mut self, kind: usize, text: &str) -> Self {
        self.texts[kind].push(text.to_string());
        self
    }

    /// Adds a condition of exports, as "import". "default" always counts.
    #[must_use]
    pub fn condition(self, text: &str) -> Self {
        self.with(0, text)
    }

    /// Adds an extension, as ".js"; it may be empty.
    #[must_use]
    pub fn extension(self, text: &str) -> Self {
        self.with(1, text)
    }

    /// Adds a main field, as "main".
    #[must_use]
    pub fn main_field(self, text: &str) -> Self {
        self.with(2, text)
    }

    /// Adds a main file, as "index", to which extensions are appended.
    #[must_use]
    pub fn main_file(self, text: &str) -> Self {
        self.with(3, text)
    }

    /// Adds an exports field, as "exports".
    #[must_use]
    pub fn exports_field(self, text: &str) -> Self {
        self.with(4, text)
    }

    /// Sets the imports field, of which there is always one; "imports" unless set.
    #[must_use]
    pub fn imports_field(mut self, text: &str) -> Self {
        self.imports = text.to_string();
        self
    }

    /// The settings' bytes: six counts, the texts' lengths, the texts.
    #[must_use]
    pub fn to_bytes(&self) -> Vec<u8> {
        // A count or a length over 255 is over its limit all the same, and stays refused.
        let byte = |n: usize| u8::try_from(n).unwrap_or(u8::MAX);
        let texts: Vec<&String> = self.texts.iter().flatten().chain([&self.imports]).collect();
        let mut bytes: Vec<u8> = self.texts.iter().map(|texts| byte(texts.len())).chain([1]).collect();
        bytes.extend(texts.iter().map(|text| byte(text.len())));
        bytes.extend(texts.iter().flat_map(|text| text.bytes()));
        bytes
    }

    /// Settings from their bytes, as a file holds them.
    ///
    /// ```
    /// use hannuvozh::{Settings, SettingsFault};
    ///
    /// assert_eq!(Settings::from_bytes(&Settings::example().to_bytes()), Ok(Settings::example()));
    /// assert_eq!(Settings::from_bytes(&[0; 5]), Err(SettingsFault::FiveCounts));
    /// ```
    ///
    /// # Errors
    ///
    /// What is wrong, where the lookup refuses these settings as 24.
    pub fn from_bytes(bytes: &[u8]) -> Result<Self, SettingsFault> {
        read::<6>(bytes).map_err(|fault| if read::<5>(bytes).is_ok() { SettingsFault::FiveCounts } else { fault })
    }
}

/// What is wrong with settings that the lookup refuses as 24.
#[derive(Clone, Copy, Debug, PartialEq, Eq)]
pub enum SettingsFault {
    /// The settings have five counts, as they had before there was an imports field.
    FiveCounts,
    /// There are too many texts for this: "a condition", say.
    TooMany(&'static str),
    /// The sixth count is not 1.
    ImportsCount(u8),
    /// A text for this is empty, over 32 bytes, not UTF-8, or holds "/" or byte 0.
    Text(&'static str),
    /// The counts, the lengths and the texts do not make up these bytes.
    Length,
}

impl fmt::Display for SettingsFault {
    fn fmt(&self, f: &mut fmt::Formatter<'_>) -> fmt::Result {
        match self {
            Self::FiveCounts => f.write_str(
                "the settings have five counts, as before there was an imports field; they now have six, the last of which is 1: write them again",
            ),
            Self::TooMany(kind) => write!(f, "the settings have too many texts for {kind}"),
            Self::ImportsCount(count) => write!(f, "the sixth count of the settings, that of the imports field, is {count} and not 1"),
            Self::Text(kind) => {
                write!(f, "a text of the settings for {kind} is empty, over {MOST_TEXT} bytes, not UTF-8, or holds \"/\" or byte 0")
            }
            Self::Length => f.write_str("the settings' counts and lengths do not add up to their bytes"),
        }
    }
}

impl std::error::Error for SettingsFault {}

/// Settings of so many counts: six, or five as they were before.
fn read<const COUNTS: usize>(bytes: &[u8]) -> Result<Settings, SettingsFault> {
    let counts = bytes.get(..COUNTS).ok_or(SettingsFault::Length)?;
    for (&count, (most, kind)) in counts.iter().zip(KINDS) {
        if usize::from(count) > most {
            return Err(SettingsFault::TooMany(kind));
        }
    }
    if let Some(&count) = counts.get(5).filter(|&&count| count != 1) {
        return Err(SettingsFault::ImportsCount(count));
    }
    let all = counts.iter().map(|&count| usize::from(count)).sum();
    let (lengths, mut rest) = bytes[COUNTS..].split_at_checked(all).ok_or(SettingsFault::Length)?;
    let mut lengths = lengths.iter();
    let mut made = Settings::new();
    for (kind, &count) in counts.iter().enumerate() {
        let name = KINDS.get(kind).map_or("an imports field", |known| known.1);
        for &length in lengths.by_ref().take(usize::from(count)) {
            let (text, after) = rest.split_at_checked(usize::from(length)).ok_or(SettingsFault::Length)?;
            let sound = text.len() <= MOST_TEXT && !text.contains(&b'/') && !text.contains(&0) && (!text.is_empty() || kind == EXTENSIONS);
            let text = std::str::from_utf8(text).ok().filter(|_| sound).ok_or(SettingsFault::Text(name))?;
            made = if kind < KINDS.len() { made.with(kind, text) } else { made.imports_field(text) };
            rest = after;
        }
    }
    if rest.is_empty() { Ok(made) } else { Err(SettingsFault::Length) }
}
