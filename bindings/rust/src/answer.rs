use std::fmt;

/// How a lookup ends, numbered 0 to 7.
///
/// ```
/// use hannuvozh::{Answer, Listing, Settings, lookup};
///
/// let listing = Listing::new().directory("/p").to_bytes();
/// let looked = lookup(&listing, &Settings::example().to_bytes(), "/p", "mat").unwrap();
/// assert_eq!(*looked.answer(), Answer::NotFound { specifier: "mat".into() });
/// assert_eq!(looked.answer().number(), 1);
/// assert_eq!(looked.answer().to_string(), "not found: no file for mat");
/// ```
#[derive(Clone, Debug, PartialEq, Eq)]
pub enum Answer {
    /// 0: the file, and the query and fragment that its exports target had.
    Found {
        /// The file's path in the listing.
        path: String,
        /// "?" and what follows, or nothing.
        query: String,
        /// "#" and what follows, or nothing.
        fragment: String,
    },
    /// 1: nothing in the listing fits the name.
    NotFound {
        /// The name asked for.
        specifier: String,
    },
    /// 2: an exports target is empty, or nothing but a query or fragment.
    Empty {
        /// The target as the manifest has it.
        target: String,
    },
    /// 3: an exports target does not begin with "./", or leads through ".." or node_modules.
    InvalidPackageTarget {
        /// The target, with "*" replaced.
        target: String,
        /// The exports key that led to it.
        key: String,
        /// The manifest's path.
        manifest: String,
    },
    /// 4: the package has exports, and the subpath is not among them.
    PackagePathNotExported {
        /// The subpath asked for, beginning with ".".
        subpath: String,
        /// The package's directory.
        package: String,
    },
    /// 5: exports mixes subpath keys with conditions.
    InvalidPackageConfig {
        /// The manifest's path.
        manifest: String,
    },
    /// 6: a folder key has a target that is no folder.
    InvalidPackageConfigDirectory {
        /// The manifest's path.
        manifest: String,
    },
    /// 7: a manifest is no JSON text.
    Json {
        /// The manifest's path.
        manifest: String,
    },
}

impl Answer {
    pub(crate) fn new(number: u32, texts: [String; 3]) -> Option<Self> {
        let [first, second, third] = texts;
        Some(match number {
            0 => Self::Found { path: first, query: second, fragment: third },
            1 => Self::NotFound { specifier: first },
            2 => Self::Empty { target: first },
            3 => Self::InvalidPackageTarget { target: first, key: second, manifest: third },
            4 => Self::PackagePathNotExported { subpath: first, package: second },
            5 => Self::InvalidPackageConfig { manifest: first },
            6 => Self::InvalidPackageConfigDirectory { manifest: first },
            7 => Self::Json { manifest: first },
            _ => return None,
        })
    }

    /// The answer's number, 0 to 7.
    #[must_use]
    pub fn number(&self) -> u32 {
        match self {
            Self::Found { .. } => 0,
            Self::NotFound { .. } => 1,
            Self::Empty { .. } => 2,
            Self::InvalidPackageTarget { .. } => 3,
            Self::PackagePathNotExported { .. } => 4,
            Self::InvalidPackageConfig { .. } => 5,
            Self::InvalidPackageConfigDirectory { .. } => 6,
            Self::Json { .. } => 7,
        }
    }

    /// The number, and each text after one space; query and fragment join the path.
    #[must_use]
    pub fn printed(&self) -> String {
        let number = self.number();
        match self {
            Self::Found { path, query, fragment } => format!("{number} {path}{query}{fragment}"),
            Self::NotFound { specifier: text } | Self::Empty { target: text } => format!("{number} {text}"),
            Self::InvalidPackageTarget { target, key, manifest } => format!("{number} {target} {key} {manifest}"),
            Self::PackagePathNotExported { subpath, package } => format!("{number} {subpath} {package}"),
            Self::InvalidPackageConfig { manifest } | Self::InvalidPackageConfigDirectory { manifest } | Self::Json { manifest } => {
                format!("{number} {manifest}")
            }
        }
    }
}

impl fmt::Display for Answer {
    fn fmt(&self, f: &mut fmt::Formatter<'_>) -> fmt::Result {
        match self {
            Self::Found { path, query, fragment } => write!(f, "found {path}{query}{fragment}"),
            Self::NotFound { specifier } => write!(f, "not found: no file for {specifier}"),
            Self::Empty { target } => write!(f, "the exports target \"{target}\" names no path"),
            Self::InvalidPackageTarget { target, key, manifest } => {
                write!(f, "the exports target \"{target}\" under \"{key}\" in {manifest} is not allowed")
            }
            Self::PackagePathNotExported { subpath, package } => write!(f, "the package {package} does not export \"{subpath}\""),
            Self::InvalidPackageConfig { manifest } => write!(f, "the exports in {manifest} mix subpaths and conditions"),
            Self::InvalidPackageConfigDirectory { manifest } => {
                write!(f, "a folder key of the exports in {manifest} has a target that is no folder")
            }
            Self::Json { manifest } => write!(f, "{manifest} is not JSON"),
        }
    }
}

/// Why there is no answer.
///
/// ```
/// use hannuvozh::{Listing, Refusal, Settings, lookup};
///
/// let refused = lookup(&Listing::new().to_bytes(), &Settings::example().to_bytes(), "/", "./relative").unwrap_err();
/// assert_eq!(refused.refusal(), Refusal::Specifier);
/// assert_eq!((refused.refusal().number(), refused.refusal().cause()), (22, "the caller"));
/// ```
#[derive(Clone, Copy, Debug, PartialEq, Eq)]
pub enum Refusal {
    /// 20: the result text is too short. [`lookup`](crate::lookup) never gives it.
    ResultTooShort,
    /// 21: the list numbers or the list text are too short. [`lookup`](crate::lookup) never gives it.
    ListTooShort,
    /// 22: the specifier is not bare, over 512 bytes, holds byte 0 or is not UTF-8.
    Specifier,
    /// 23: the start is no directory of the listing.
    Start,
    /// 24: the settings are malformed or over a limit; [`Settings::from_bytes`](crate::Settings::from_bytes) says what is wrong.
    Settings,
    /// 25: the work memory is too short. [`lookup`](crate::lookup) never gives it.
    WorkTooShort,
    /// 30: the listing's sizes, limits or contents are wrong.
    ListingSizes,
    /// 31: a path of the listing breaks a rule, or the paths do not rise.
    ListingPaths,
    /// 32: a directory of the listing is named package.json.
    ManifestDirectory,
    /// 40: a manifest that the lookup reads is over a limit.
    ManifestLimit,
    /// 42: a path or target that the lookup builds has over 2,048 bytes.
    PathTooLong,
    /// 53: the lookup wants to make one consult more than its limit.
    TooManyConsults,
}

impl Refusal {
    /// 41 does not occur; the number stays reserved.
    const ALL: [(u32, Self); 12] = [
        (20, Self::ResultTooShort),
        (21, Self::ListTooShort),
        (22, Self::Specifier),
        (23, Self::Start),
        (24, Self::Settings),
        (25, Self::WorkTooShort),
        (30, Self::ListingSizes),
        (31, Self::ListingPaths),
        (32, Self::ManifestDirectory),
        (40, Self::ManifestLimit),
        (42, Self::PathTooLong),
        (53, Self::TooManyConsults),
    ];

    pub(crate) fn new(number: u32) -> Option<Self> {
        Self::ALL.iter().find(|known| known.0 == number).map(|known| known.1)
    }

    /// The refusal's number, 20 to 53.
    #[must_use]
    pub fn number(self) -> u32 {
        Self::ALL.iter().find(|known| known.1 == self).map_or(0, |known| known.0)
    }

    /// Who causes it, and can mend it.
    #[must_use]
    pub fn cause(self) -> &'static str {
        match self.number() {
            20..30 => "the caller",
            30..40 => "the maker of the listing",
            40..50 => "the package author",
            _ => "the caller",
        }
    }
}

impl fmt::Display for Refusal {
    fn fmt(&self, f: &mut fmt::Formatter<'_>) -> fmt::Result {
        f.write_str(match self {
            Self::ResultTooShort => "the result text is too short",
            Self::ListTooShort => "the list numbers or the list text are too short",
            Self::Specifier => "the specifier is not a bare name of at most 512 bytes of UTF-8",
            Self::Start => "the start is no directory of the listing",
            Self::Settings => "the settings are malformed or over a limit",
            Self::WorkTooShort => "the work memory is too short",
            Self::ListingSizes => "the listing's sizes, limits or contents are wrong",
            Self::ListingPaths => "a path of the listing breaks a rule, or the paths do not rise",
            Self::ManifestDirectory => "a directory of the listing is named package.json",
            Self::ManifestLimit => "a package.json on the way is over a limit",
            Self::PathTooLong => "a path or target on the way has over 2,048 bytes",
            Self::TooManyConsults => "the lookup needs more consults than its limit allows",
        })
    }
}

impl std::error::Error for Refusal {}

/// A refused question: why there is no answer, and how many consults were made by then.
#[derive(Clone, Copy, Debug, PartialEq, Eq)]
pub struct Refused {
    refusal: Refusal,
    consults: u32,
}

impl Refused {
    pub(crate) fn new(refusal: Refusal, consults: u32) -> Self {
        Self { refusal, consults }
    }

    /// Why there is no answer.
    #[must_use]
    pub fn refusal(&self) -> Refusal {
        self.refusal
    }

    /// How many consults were made: 0 where the question was refused before its lookup began, the limit where that stopped it.
    #[must_use]
    pub fn consults(&self) -> u32 {
        self.consults
    }
}

impl fmt::Display for Refused {
    fn fmt(&self, f: &mut fmt::Formatter<'_>) -> fmt::Result {
        self.refusal.fmt(f)
    }
}

impl std::error::Error for Refused {
    fn source(&self) -> Option<&(dyn std::error::Error + 'static)> {
        Some(&self.refusal)
    }
}
