//! Paths, specifiers and keys: path.rs, specifier.rs and the functions of lib.rs that take a text apart.

use crate::lent::parent;

/// A path and all directories above it, "/" last.
pub fn directories(path: &[u8]) -> Vec<&[u8]> {
    let mut all = vec![path];
    let mut path = path;
    while path != b"/" && !path.is_empty() {
        path = parent(path);
        all.push(path);
    }
    all
}

pub fn join(directory: &[u8], name: &[u8]) -> Vec<u8> {
    let slash: &[u8] = if directory.is_empty() || directory.ends_with(b"/") { b"" } else { b"/" };
    [directory, slash, name].concat()
}

pub fn manifest_of(directory: &[u8]) -> Vec<u8> {
    join(directory, b"package.json")
}

pub fn holds(text: &[u8], part: &[u8]) -> bool {
    text.windows(part.len()).any(|window| window == part)
}

pub fn split_at(text: &[u8], byte: u8) -> (&[u8], Option<&[u8]>) {
    match text.iter().position(|&b| b == byte) {
        Some(at) => (&text[..at], Some(&text[at + 1..])),
        None => (text, None),
    }
}

/// `parse_package_specifier`.
pub fn package_name(specifier: &[u8]) -> &[u8] {
    let mut slashes = (0..specifier.len()).filter(|&i| specifier[i] == b'/');
    let end = if specifier.starts_with(b"@") { slashes.nth(1) } else { slashes.next() };
    &specifier[..end.unwrap_or(specifier.len())]
}

pub fn dot_subpath(subpath: &[u8]) -> Vec<u8> {
    if subpath.starts_with(b".") { subpath.to_vec() } else { [b".", subpath].concat() }
}

pub fn strip_package_name<'a>(specifier: &'a [u8], name: &[u8]) -> Option<&'a [u8]> {
    specifier.strip_prefix(name).filter(|tail| matches!(tail.first(), None | Some(b'/' | b'\\')))
}

/// The components behind a leading "/" or ".".
pub fn parts(path: &[u8]) -> impl Iterator<Item = &[u8]> {
    path.split(|&b| b == b'/').filter(|part| !matches!(*part, b"" | b"."))
}

pub fn normalize_relative(path: &[u8]) -> Vec<u8> {
    let mut out = Vec::new();
    for part in parts(path) {
        if part != b".." {
            out = join(&out, part);
        } else if out.is_empty() {
            out = b"..".to_vec();
        } else {
            out = parent(&out).to_vec();
        }
    }
    out
}

pub fn is_invalid_exports_target(target: &[u8]) -> bool {
    parts(target).any(|part| part == b".." || part.eq_ignore_ascii_case(b"node_modules"))
}

/// `Specifier::parse`: path, query and fragment; none where the path is empty.
pub struct Parsed {
    pub path: Vec<u8>,
    pub query: Vec<u8>,
    pub fragment: Vec<u8>,
    pub escaped: bool,
}

pub fn parse_specifier(text: &[u8]) -> Option<Parsed> {
    let skip = usize::from(matches!(text.first()?, b'/' | b'.' | b'#'));
    let fragment = (skip..text.len()).find(|&i| text[i] == b'#' && (i == 0 || text[i - 1] != 0)).unwrap_or(text.len());
    let body = &text[..fragment];
    let query = (skip..fragment).find(|&i| text[i] == b'?').unwrap_or(fragment);
    let escaped = holds(body, b"\0#");
    let mut path = body[..query].to_vec();
    if escaped {
        let kept = |&i: &usize| path[i] != 0 || body.get(i + 1) != Some(&b'#');
        let text: String = (0..path.len()).filter(kept).map(|i| char::from(path[i])).collect();
        path = text.into_bytes();
    }
    let found = Parsed { path, query: body[query..].to_vec(), fragment: text[fragment..].to_vec(), escaped };
    (!found.path.is_empty()).then_some(found)
}

/// The first length of a key that decides, `pattern_key_compare`'s base.
pub fn base_length(key: &[u8]) -> usize {
    key.iter().position(|&b| b == b'*').map_or(key.len(), |at| at + 1)
}

/// The part of `asked` that stands for a pattern key's "*", or behind its folder.
pub fn pattern_match<'a>(asked: &'a [u8], key: &[u8]) -> Option<&'a [u8]> {
    if !key.starts_with(b"./") && !key.starts_with(b"#") {
        return None;
    }
    let (base, trailer) = split_at(key, b'*');
    let Some(trailer) = trailer else {
        return if key.ends_with(b"/") { asked.strip_prefix(key) } else { None };
    };
    let rest = asked.strip_prefix(base)?;
    if trailer.contains(&b'*') || (!trailer.is_empty() && asked.len() < key.len()) {
        return None;
    }
    rest.strip_suffix(trailer)
}

pub fn is_dot_key(key: &[u8]) -> bool {
    key.starts_with(b".") || key.starts_with(b"#")
}

pub fn is_subpath_key(key: &[u8]) -> bool {
    key.starts_with(b"./") || key.starts_with(b"#")
}
