//! The Rust itself, asked in this process: both builds of the oracle, `logged`, whose cells remember nothing, so that every question
//! reaches the tree and is written down, and `plain`, which has no patched line. They must agree on the answer. With cfg `later` the
//! oracle is ../shared/oracle-later, which asks a name that begins with "#" of `require_hash`, and tells the tree each question by `noted`.

use crate::lent::{Settings, Tree, is_hash};
use crate::model::{Consult, End};
use rustc_hash::FxHashMap;
use std::panic::{AssertUnwindSafe, catch_unwind};
use std::path::{Path, PathBuf};
use std::sync::{Arc, Mutex};
use std::{ffi::OsStr, io, os::unix::ffi::OsStrExt};

pub const AT_HAND: bool = true;

type Log = Arc<Mutex<Vec<Consult>>>;

/// A tree as a file system: a path that no entry spells byte for byte is absent.
#[derive(Clone)]
pub struct Lent {
    tree: Arc<FxHashMap<Vec<u8>, Option<Vec<u8>>>>,
    log: Option<Log>,
}

impl Lent {
    /// Without a log.
    pub fn new(tree: &Tree) -> Self {
        Self { tree: Arc::new(tree.iter().map(|(path, contents)| (path.clone(), contents.clone())).collect()), log: None }
    }

    fn state(&self, path: &Path) -> u8 {
        match self.tree.get(path.as_os_str().as_bytes()) {
            None => 0,
            Some(None) => 1,
            Some(Some(_)) => 2,
        }
    }

    fn note(&self, muted: bool, state: u8, path: &Path) {
        if let (Some(log), false) = (&self.log, muted) {
            let path = path.as_os_str().as_bytes().to_vec();
            log.lock().unwrap().push(Consult { state, path });
        }
    }
}

macro_rules! build {
    ($name:ident, $krate:ident) => {
        pub mod $name {
            use super::{End, Lent, OsStrExt, Path, PathBuf, Settings, io};
            use $krate::{
                EnforceExtension, FileMetadata, FileSystem, FileSystemOs, ResolveError, ResolveOptions, ResolverGeneric, SpecifierError,
            };

            impl FileSystem for Lent {
                fn new() -> Self {
                    unreachable!("made from a tree")
                }
                fn read(&self, path: &Path) -> io::Result<Vec<u8>> {
                    let contents = match self.tree.get(path.as_os_str().as_bytes()) {
                        Some(Some(contents)) => Ok(contents.clone()),
                        Some(None) => Err(io::ErrorKind::IsADirectory.into()),
                        None => Err(io::ErrorKind::NotFound.into()),
                    };
                    let state = if contents.is_ok() { 3 } else { self.state(path) };
                    self.note(FileSystemOs::muted(), state, path);
                    contents
                }
                fn symlink_metadata(&self, path: &Path) -> io::Result<FileMetadata> {
                    let state = self.state(path);
                    #[cfg(not(later))]
                    self.note(FileSystemOs::muted(), state, path);
                    if state == 0 {
                        return Err(io::ErrorKind::NotFound.into());
                    }
                    Ok(FileMetadata::new(state == 2, state == 1, false))
                }
                #[cfg(later)]
                fn noted(&self, path: &Path, metadata: Option<FileMetadata>) {
                    let state = metadata.map_or(0, |metadata| if metadata.is_dir() { 1 } else { 2 });
                    self.note(FileSystemOs::muted(), state, path);
                }
                fn metadata(&self, _: &Path) -> io::Result<FileMetadata> {
                    unreachable!("there are no links")
                }
                fn read_to_string(&self, _: &Path) -> io::Result<String> {
                    unreachable!("there is no tsconfig")
                }
                fn read_link(&self, _: &Path) -> Result<PathBuf, ResolveError> {
                    unreachable!("there are no links")
                }
                fn canonicalize(&self, _: &Path) -> io::Result<PathBuf> {
                    unreachable!("there are no links")
                }
            }

            /// Document 01's fixed options with the settings' texts.
            pub fn options(settings: &Settings) -> ResolveOptions {
                let texts = |kind: usize| settings[kind].iter().map(|text| String::from_utf8_lossy(text).into_owned()).collect::<Vec<_>>();
                ResolveOptions {
                    cwd: None,
                    tsconfig: None,
                    alias: vec![],
                    alias_fields: vec![],
                    condition_names: texts(0),
                    enforce_extension: EnforceExtension::Disabled,
                    exports_fields: texts(4).into_iter().map(|name| vec![name]).collect(),
                    imports_fields: texts(5).into_iter().map(|name| vec![name]).collect(),
                    extension_alias: vec![],
                    extensions: texts(1),
                    fallback: vec![],
                    fully_specified: false,
                    main_fields: texts(2),
                    main_files: texts(3),
                    modules: vec!["node_modules".into()],
                    resolve_to_context: false,
                    prefer_relative: false,
                    prefer_absolute: false,
                    restrictions: vec![],
                    roots: vec![],
                    symlinks: false,
                    node_path: false,
                    builtin_modules: false,
                    module_type: false,
                    allow_package_exports_in_directory_resolve: false,
                }
            }

            pub fn resolver(lent: Lent, options: ResolveOptions) -> ResolverGeneric<Lent> {
                ResolverGeneric::new_with_file_system(lent, options)
            }

            /// Document 01's number and texts of what the Rust gave back.
            pub fn end(outcome: (Result<PathBuf, ResolveError>, Option<String>, Option<String>)) -> Result<End, String> {
                let bytes = |path: PathBuf| path.as_os_str().as_bytes().to_vec();
                let (number, texts) = match outcome.0 {
                    Ok(path) => {
                        (0, vec![bytes(path), outcome.1.unwrap_or_default().into_bytes(), outcome.2.unwrap_or_default().into_bytes()])
                    }
                    Err(ResolveError::NotFound(specifier)) => (1, vec![specifier.into_bytes()]),
                    Err(ResolveError::Specifier(SpecifierError::Empty(target))) => (2, vec![target.into_bytes()]),
                    Err(ResolveError::InvalidPackageTarget(target, key, path)) => {
                        (3, vec![target.into_bytes(), key.into_bytes(), bytes(path)])
                    }
                    Err(ResolveError::PackagePathNotExported { subpath, package_path, .. }) => {
                        (4, vec![subpath.into_bytes(), bytes(package_path)])
                    }
                    Err(ResolveError::InvalidPackageConfig(path)) => (5, vec![bytes(path)]),
                    Err(ResolveError::InvalidPackageConfigDirectory(path)) => (6, vec![bytes(path)]),
                    Err(ResolveError::Json(fault)) => (7, vec![bytes(fault.path)]),
                    Err(ResolveError::InvalidModuleSpecifier(specifier, path)) => (50, vec![specifier.into_bytes(), bytes(path)]),
                    Err(ResolveError::PackageImportNotDefined(specifier, path)) => (51, vec![specifier.into_bytes(), bytes(path)]),
                    Err(ResolveError::Recursion) => (56, vec![]),
                    Err(other) => return Err(format!("an error that no answer stands for: {other:?}")),
                };
                Ok(End { number, texts })
            }
        }
    };
}

build!(logged, oxc_logged);
build!(plain, oxc_plain);

fn both(tree: &Tree, settings: &Settings, start: &Path, specifier: &str) -> Result<(End, Vec<Consult>), String> {
    let unlogged = Lent::new(tree);
    let log = Log::default();
    let lent = Lent { log: Some(Arc::clone(&log)), ..unlogged.clone() };
    let end = logged::end(logged::resolver(lent, logged::options(settings)).oracle_lookup(start, specifier))?;
    let other = plain::end(plain::resolver(unlogged, plain::options(settings)).oracle_lookup(start, specifier))?;
    if end != other {
        return Err(format!("the two builds differ: {end:?} and {other:?}"));
    }
    let list = std::mem::take(&mut *log.lock().unwrap());
    Ok((end, list))
}

/// The Rust's answer and list.
pub fn ask(tree: &Tree, settings: &Settings, start: &[u8], specifier: &[u8]) -> Result<(End, Vec<Consult>), String> {
    let start = Path::new(OsStr::from_bytes(start));
    if is_hash(specifier) && !cfg!(later) {
        return Err("this oracle can't be asked for names that begin with \"#\"".into());
    }
    let specifier = std::str::from_utf8(specifier).map_err(|fault| fault.to_string())?;
    catch_unwind(AssertUnwindSafe(|| both(tree, settings, start, specifier))).unwrap_or_else(|_| Err("the Rust panicked".into()))
}
