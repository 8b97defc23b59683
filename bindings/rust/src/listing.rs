use std::collections::BTreeMap;
use std::io;
use std::os::unix::ffi::OsStrExt;
use std::path::Path;

/// A directory's length of contents in a listing.
const DIRECTORY: u32 = 0xFFFF_FFFF;

/// A listing under construction: the paths of a job's files, with the contents of its manifests.
///
/// Directories above an entry are added with it, and the entries are put in order; everything else is taken as it is, and the lookup
/// refuses a listing that breaks a rule (30, 31 or 32).
///
/// ```
/// let mut listing = hannuvozh::Listing::new();
/// listing.directory("/p/lib").file("/p/x.js").manifest("/p", "{}");
/// let paths: Vec<&[u8]> = listing.paths().collect();
/// assert_eq!(paths, [&b"/"[..], b"/p", b"/p/lib", b"/p/package.json", b"/p/x.js"]);
/// ```
#[derive(Clone, Debug, PartialEq, Eq)]
pub struct Listing {
    entries: BTreeMap<Vec<u8>, Option<Vec<u8>>>,
}

impl Default for Listing {
    fn default() -> Self {
        Self::new()
    }
}

impl Listing {
    /// A listing that holds "/" alone.
    #[must_use]
    pub fn new() -> Self {
        Self { entries: BTreeMap::from([(b"/".to_vec(), None)]) }
    }

    /// Adds a directory.
    pub fn directory(&mut self, path: impl AsRef<[u8]>) -> &mut Self {
        let path = path.as_ref();
        for i in 1..=path.len() {
            if i == path.len() || path[i] == b'/' {
                self.entries.entry(path[..i].to_vec()).or_insert(None);
            }
        }
        self
    }

    /// Adds a file. Only manifests have contents in a listing.
    pub fn file(&mut self, path: impl AsRef<[u8]>) -> &mut Self {
        self.add(path.as_ref(), Vec::new())
    }

    /// Adds the package.json of a directory.
    pub fn manifest(&mut self, directory: impl AsRef<[u8]>, contents: impl AsRef<[u8]>) -> &mut Self {
        let path = join(directory.as_ref(), b"package.json");
        self.add(&path, contents.as_ref().to_vec())
    }

    fn add(&mut self, path: &[u8], contents: Vec<u8>) -> &mut Self {
        let above = path.iter().rposition(|&b| b == b'/').unwrap_or(0);
        self.directory(&path[..above]);
        self.entries.insert(path.to_vec(), Some(contents));
        self
    }

    /// Everything in a folder on disk, listed below the path `at`: file names, and the contents of each package.json. Symbolic links
    /// are left out, since a listing has none.
    ///
    /// A listing holds at most 1,024 entries in 65,536 bytes; for a larger folder, [`resolve`](crate::resolve) lists what one question
    /// needs.
    ///
    /// # Errors
    ///
    /// Where the folder or a manifest in it can't be read.
    ///
    /// ```
    /// let folder = std::env::temp_dir().join(format!("hannuvozh-doc-{}", std::process::id()));
    /// std::fs::create_dir_all(folder.join("node_modules/a"))?;
    /// std::fs::write(folder.join("node_modules/a/package.json"), "{}")?;
    /// let listing = hannuvozh::Listing::from_folder(&folder, "/p")?;
    /// assert_eq!(listing.paths().last(), Some(&b"/p/node_modules/a/package.json"[..]));
    /// # std::fs::remove_dir_all(folder)?;
    /// # Ok::<(), std::io::Error>(())
    /// ```
    pub fn from_folder(folder: impl AsRef<Path>, at: impl AsRef<[u8]>) -> io::Result<Self> {
        let mut listing = Self::new();
        listing.directory(&at);
        listing.add_folder(folder.as_ref(), at.as_ref())?;
        Ok(listing)
    }

    fn add_folder(&mut self, folder: &Path, at: &[u8]) -> io::Result<()> {
        for entry in std::fs::read_dir(folder)? {
            let entry = entry?;
            let path = join(at, entry.file_name().as_bytes());
            let kind = entry.file_type()?;
            if kind.is_dir() {
                self.directory(&path);
                self.add_folder(&entry.path(), &path)?;
            } else if kind.is_file() {
                let manifest = entry.file_name() == "package.json";
                let contents = if manifest { std::fs::read(entry.path())? } else { Vec::new() };
                self.add(&path, contents);
            }
        }
        Ok(())
    }

    /// The paths, in the listing's order.
    pub fn paths(&self) -> impl Iterator<Item = &[u8]> {
        self.entries.keys().map(Vec::as_slice)
    }

    /// The manifests: path and contents of each package.json, in the listing's order.
    pub fn manifests(&self) -> impl Iterator<Item = (&[u8], &[u8])> {
        let manifests = self.entries.iter().filter(|(path, _)| path.ends_with(b"/package.json"));
        manifests.filter_map(|(path, contents)| Some((&path[..], contents.as_deref()?)))
    }

    /// The listing's bytes: entry count, text length, path lengths, contents lengths, then each path with its contents.
    #[must_use]
    pub fn to_bytes(&self) -> Vec<u8> {
        let length = |contents: &Option<Vec<u8>>| contents.as_ref().map_or(0, Vec::len);
        let text: usize = self.entries.iter().map(|(path, contents)| path.len() + length(contents)).sum();
        let mut bytes = Vec::with_capacity(8 + 8 * self.entries.len() + text);
        let mut number = |n: usize| bytes.extend_from_slice(&u32::try_from(n).unwrap_or(u32::MAX).to_le_bytes());
        number(self.entries.len());
        number(text);
        self.entries.keys().for_each(|path| number(path.len()));
        self.entries.values().for_each(|contents| number(contents.as_ref().map_or(DIRECTORY as usize, Vec::len)));
        for (path, contents) in &self.entries {
            bytes.extend_from_slice(path);
            bytes.extend_from_slice(contents.as_deref().unwrap_or(b""));
        }
        bytes
    }
}

pub(crate) fn join(directory: &[u8], name: &[u8]) -> Vec<u8> {
    let slash: &[u8] = if directory.ends_with(b"/") { b"" } else { b"/" };
    [directory, slash, name].concat()
}
