//! What a caller lends, as bytes and taken apart: listing, settings, specifier; and the refusals that document 01 gives for them,
//! worked out here from its words alone.

use std::collections::BTreeMap;

/// Paths with their contents; a directory has none.
pub type Tree = BTreeMap<Vec<u8>, Option<Vec<u8>>>;

pub const CONDITIONS: usize = 0;
pub const EXTENSIONS: usize = 1;
pub const MAIN_FIELDS: usize = 2;
pub const MAIN_FILES: usize = 3;
pub const EXPORTS_FIELDS: usize = 4;
pub const IMPORTS_FIELDS: usize = 5;
pub const KINDS: usize = 6;

/// The most texts of each kind. There is always one imports field.
pub const MOST: [usize; KINDS] = [8, 8, 4, 4, 2, 1];

/// Texts by kind.
pub type Settings = [Vec<Vec<u8>>; KINDS];

pub const DIRECTORY: u32 = 0xFFFF_FFFF;

/// One entry of a listing, right or wrong.
#[derive(Clone)]
pub struct Row {
    pub path: Vec<u8>,
    pub contents: Option<Vec<u8>>,
}

pub fn rows(tree: &Tree) -> Vec<Row> {
    tree.iter().map(|(path, contents)| Row { path: path.clone(), contents: contents.clone() }).collect()
}

/// The listing's bytes: sizes, path lengths, contents lengths, text.
pub fn lay(rows: &[Row]) -> Vec<u8> {
    let length = |row: &Row| row.contents.as_ref().map_or(0, Vec::len);
    let text: usize = rows.iter().map(|row| row.path.len() + length(row)).sum();
    let mut out = Vec::with_capacity(8 + 8 * rows.len() + text);
    let mut number = |n: u32| out.extend_from_slice(&n.to_le_bytes());
    number(rows.len() as u32);
    number(text as u32);
    rows.iter().for_each(|row| number(row.path.len() as u32));
    rows.iter().for_each(|row| number(row.contents.as_ref().map_or(DIRECTORY, |c| c.len() as u32)));
    for row in rows {
        out.extend_from_slice(&row.path);
        out.extend_from_slice(row.contents.as_deref().unwrap_or(b""));
    }
    out
}

pub fn lay_settings(settings: &Settings) -> Vec<u8> {
    let mut out: Vec<u8> = settings.iter().map(|texts| texts.len() as u8).collect();
    let texts: Vec<&Vec<u8>> = settings.iter().flatten().collect();
    out.extend(texts.iter().map(|text| text.len() as u8));
    texts.iter().for_each(|text| out.extend_from_slice(text));
    out
}

pub fn word(bytes: &[u8], at: usize) -> Option<u32> {
    Some(u32::from_le_bytes(bytes.get(at..at + 4)?.try_into().ok()?))
}

pub fn is_utf8(text: &[u8]) -> bool {
    std::str::from_utf8(text).is_ok()
}

/// The bytes behind the last "/".
pub fn name_of(path: &[u8]) -> &[u8] {
    path.rsplit(|&b| b == b'/').next().unwrap_or(path)
}

/// The directory above; "/" is above itself.
pub fn parent(path: &[u8]) -> &[u8] {
    match path.iter().rposition(|&b| b == b'/') {
        Some(0) => b"/",
        Some(at) => &path[..at],
        None => b"",
    }
}

/// Rows as the sizes and lengths cut them, if these fit the listing and its limits.
fn cut(listing: &[u8]) -> Option<Vec<Row>> {
    let (n, t) = (word(listing, 0)? as usize, word(listing, 4)? as usize);
    if listing.len() > 65_536 || !(1..=1_024).contains(&n) || listing.len() != 8 + 8 * n + t {
        return None;
    }
    let mut at = 8 + 8 * n;
    let mut rows = Vec::with_capacity(n);
    for i in 0..n {
        let path_end = at.checked_add(word(listing, 8 + 4 * i)? as usize)?;
        let length = word(listing, 8 + 4 * n + 4 * i)?;
        let end = path_end.checked_add(if length == DIRECTORY { 0 } else { length as usize })?;
        let path = listing.get(at..path_end)?.to_vec();
        let contents = listing.get(path_end..end)?.to_vec();
        rows.push(Row { path, contents: (length != DIRECTORY).then_some(contents) });
        at = end;
    }
    (at == listing.len()).then_some(rows)
}

/// 30: path limits, and contents only in manifests.
fn fits(row: &Row) -> bool {
    let empty = row.contents.as_ref().is_none_or(Vec::is_empty);
    let components = row.path.iter().filter(|&&b| b == b'/').count();
    row.path.len() <= 1_024 && components <= 32 && (empty || name_of(&row.path) == b"package.json")
}

/// 31: the form of one path.
pub fn is_path(path: &[u8]) -> bool {
    let named = |part: &[u8]| !matches!(part, b"" | b"." | b"..");
    let form = path == b"/" || path.strip_prefix(b"/").is_some_and(|rest| rest.split(|&b| b == b'/').all(named));
    form && is_utf8(path) && !path.contains(&0)
}

fn paths_hold(rows: &[Row], tree: &Tree) -> bool {
    let root = rows[0].path == b"/" && rows[0].contents.is_none();
    let rising = rows.windows(2).all(|two| two[0].path < two[1].path);
    let below = |row: &Row| row.path == b"/" || matches!(tree.get(parent(&row.path)), Some(None));
    root && rising && rows.iter().all(|row| is_path(&row.path) && below(row))
}

/// The listing, or its refusal: 30, 31 or 32.
pub fn read_listing(listing: &[u8]) -> Result<Tree, u32> {
    let rows = cut(listing).ok_or(30u32)?;
    if !rows.iter().all(fits) {
        return Err(30);
    }
    let tree: Tree = rows.iter().map(|row| (row.path.clone(), row.contents.clone())).collect();
    if !paths_hold(&rows, &tree) {
        return Err(31);
    }
    let manifest = |row: &Row| row.contents.is_none() && name_of(&row.path) == b"package.json";
    if rows.iter().any(manifest) { Err(32) } else { Ok(tree) }
}

/// The settings; none where they are refused as 24.
pub fn read_settings(settings: &[u8]) -> Option<Settings> {
    let counts: Vec<usize> = settings.get(..KINDS)?.iter().map(|&b| usize::from(b)).collect();
    let mut lengths = settings.get(KINDS..KINDS + counts.iter().sum::<usize>())?.iter();
    let mut rest = &settings[KINDS + lengths.len()..];
    let mut read: Settings = Default::default();
    for kind in 0..KINDS {
        if counts[kind] > MOST[kind] || (kind == IMPORTS_FIELDS && counts[kind] != 1) {
            return None;
        }
        for _ in 0..counts[kind] {
            let (text, after) = rest.split_at_checked(usize::from(*lengths.next()?))?;
            let sound = text.len() <= 32 && is_utf8(text) && !text.contains(&b'/') && !text.contains(&0);
            if !sound || (text.is_empty() && kind != EXTENSIONS) {
                return None;
            }
            read[kind].push(text.to_vec());
            rest = after;
        }
    }
    rest.is_empty().then_some(read)
}

/// Whether the product takes names that begin with "#"; where it does not, it refuses them as 22, and only `compare hash` makes them.
pub const HASH_NAMES: bool = false;

pub fn is_hash(specifier: &[u8]) -> bool {
    specifier.starts_with(b"#")
}

/// A bare specifier within its limit, or one that begins with "#" where these are taken; any other is refused as 22.
pub fn is_specifier(specifier: &[u8], hash_names: bool) -> bool {
    let first = specifier.split(|&b| b == b'/').next().unwrap_or(b"");
    let named = !matches!(first, b"" | b"." | b"..") && (hash_names || !is_hash(specifier));
    named && specifier.len() <= 512 && !specifier.contains(&0) && is_utf8(specifier)
}
