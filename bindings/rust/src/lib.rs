//! Which file does a bare name mean? The lookup of oxc_resolver 11.24.3 over a listing of a job's files, proved, for Rust programs.
//!
//! Build a [`Listing`] of the files and the [`Settings`], then ask:
//!
//! ```
//! use hannuvozh::{Answer, Listing, Settings, lookup};
//!
//! let mut listing = Listing::new();
//! listing.file("/p/node_modules/mat/lib/steel.js");
//! listing.manifest("/p/node_modules/mat", r#"{"exports":{"./*":"./lib/*.js"}}"#);
//! let settings = Settings::example();
//!
//! let looked = lookup(&listing.to_bytes(), &settings.to_bytes(), "/p", "mat/steel").unwrap();
//! assert_eq!(looked.answer().to_string(), "found /p/node_modules/mat/lib/steel.js");
//! let Answer::Found { path, .. } = looked.answer() else { panic!() };
//! assert_eq!(path, "/p/node_modules/mat/lib/steel.js");
//! assert_eq!(looked.consults().len(), 7);
//! ```
//!
//! An [`Answer`] is one of the lookup's own ends, 0 to 7; a [`Refusal`] says that the question itself, or a package on the way, breaks
//! a rule or a limit. [`Options`] set the limit of consults. What the numbers mean, and who can mend what, stands in docs/GUIDE.md.
//!
//! The lookup is pure: the same bytes give the same answer and the same list of consulted paths, and it keeps nothing between calls.

mod answer;
mod disk;
mod library;
mod listing;
mod lookup;
mod options;
mod repeats;
mod settings;

pub use answer::{Answer, Refusal, Refused};
pub use disk::{Packed, resolve, resolve_with};
pub use listing::Listing;
pub use lookup::{Buffers, Consult, Consults, Lookup, State, lookup, lookup_with};
pub use options::Options;
pub use repeats::{Repeat, repeats};
pub use settings::{Settings, SettingsFault};
