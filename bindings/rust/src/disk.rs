use crate::{Buffers, Listing, Lookup, Options, Refused, Settings, State};
use std::fs;
use std::io;
use std::path::{Path, PathBuf};

/// What one question needs of a folder, and how it ended.
#[derive(Clone, Debug, PartialEq, Eq)]
pub struct Packed {
    /// The part of the folder that the lookup looked at.
    pub listing: Listing,
    /// The answer with its list, or the refusal.
    pub outcome: Result<Lookup, Refused>,
}

/// Asks about a folder on disk, of any size; the folder is the lookup's "/", and `start` a path in it.
///
/// Only what the lookup consults is listed: it is asked again and again, each time with the first consulted path added that the folder has
/// and the listing had not, until there is none. The last listing then agrees with the whole folder at every consulted path, and so gives
/// the answer and the list of the whole folder, which may be too large for a listing. Symbolic links count as absent.
///
/// # Errors
///
/// Where something in the folder can't be read.
///
/// ```
/// use hannuvozh::{Settings, resolve};
///
/// let folder = std::env::temp_dir().join(format!("hannuvozh-resolve-{}", std::process::id()));
/// std::fs::create_dir_all(folder.join("node_modules/a"))?;
/// std::fs::write(folder.join("node_modules/a/package.json"), r#"{"main":"x"}"#)?;
/// std::fs::write(folder.join("node_modules/a/x.js"), "")?;
/// let packed = resolve(&folder, &Settings::require(), "/", "a")?;
/// assert_eq!(packed.outcome.unwrap().answer().to_string(), "found /node_modules/a/x.js");
/// # std::fs::remove_dir_all(folder)?;
/// # Ok::<(), std::io::Error>(())
/// ```
pub fn resolve(folder: impl AsRef<Path>, settings: &Settings, start: &str, specifier: &str) -> io::Result<Packed> {
    resolve_with(Options::new(), folder, settings, start, specifier)
}

/// As [`resolve`], with options. The limit counts the consults of the last lookup, whose listing is complete.
///
/// # Errors
///
/// As [`resolve`].
pub fn resolve_with(
    options: Options,
    folder: impl AsRef<Path>,
    settings: &Settings,
    start: &str,
    specifier: &str,
) -> io::Result<Packed> {
    let mut packed = grown(folder.as_ref(), settings, start, specifier)?;
    if options != Options::new() {
        packed.outcome = Buffers::new().lookup_with(options, &packed.listing.to_bytes(), &settings.to_bytes(), start, specifier);
    }
    Ok(packed)
}

/// The listing that has every path the lookup consults, and the outcome over it.
fn grown(folder: &Path, settings: &Settings, start: &str, specifier: &str) -> io::Result<Packed> {
    let settings = settings.to_bytes();
    let mut listing = Listing::new();
    if entry(folder, start)?.is_some_and(|found| found.is_dir()) {
        listing.directory(start);
    }
    let mut buffers = Buffers::new();
    loop {
        let outcome = buffers.lookup(&listing.to_bytes(), &settings, start, specifier);
        let missing = match &outcome {
            Ok(looked) => first_missing(folder, looked)?,
            Err(_) => None,
        };
        let Some(path) = missing else { return Ok(Packed { listing, outcome }) };
        add(&mut listing, folder, &path)?;
    }
}

/// The first path consulted as absent that the folder has.
fn first_missing(folder: &Path, looked: &Lookup) -> io::Result<Option<String>> {
    for consult in looked.consults().filter(|consult| consult.state == State::Absent) {
        if entry(folder, &consult.path)?.is_some() {
            return Ok(Some(consult.path.into_owned()));
        }
    }
    Ok(None)
}

fn add(listing: &mut Listing, folder: &Path, path: &str) -> io::Result<()> {
    if entry(folder, path)?.is_some_and(|found| found.is_dir()) {
        listing.directory(path);
    } else if let Some(directory) = path.strip_suffix("package.json").filter(|before| before.ends_with('/')) {
        listing.manifest(directory, fs::read(below(folder, path))?);
    } else {
        listing.file(path);
    }
    Ok(())
}

fn below(folder: &Path, path: &str) -> PathBuf {
    folder.join(path.trim_start_matches('/'))
}

/// What the folder has at a path in a listing's form: a directory or a file, reached without a link.
fn entry(folder: &Path, path: &str) -> io::Result<Option<fs::Metadata>> {
    let Some(inner) = path.strip_prefix('/') else { return Ok(None) };
    let mut at = folder.to_path_buf();
    let mut found = Some(fs::metadata(&at)?);
    for name in inner.split('/').filter(|_| !inner.is_empty()) {
        if matches!(name, "" | "." | "..") || !found.is_some_and(|found| found.is_dir()) {
            return Ok(None);
        }
        at.push(name);
        found = match fs::symlink_metadata(&at) {
            Ok(found) => (found.is_dir() || found.is_file()).then_some(found),
            Err(fault) if matches!(fault.kind(), io::ErrorKind::NotFound | io::ErrorKind::InvalidFilename) => None,
            Err(fault) => return Err(fault),
        };
    }
    Ok(found)
}
