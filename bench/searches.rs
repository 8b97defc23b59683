//! Times single searches of a listing: `listing::search` of the static library, and the search before F-3, which went through all entries by
//! length and last byte. bench/searches builds it. Every answer is compared; so are those over listings whose paths do not rise.

#![allow(dead_code)]

#[path = "../compare/src/lent.rs"]
mod lent;
mod trees;

use lent::{Row, Tree};
use std::hint::black_box;
use std::time::Instant;

unsafe extern "C" {
    fn listing_search(listing: *const u8, length: usize, path: *const u8, path_length: usize) -> u8;
}

/// 0 nothing, 1 a directory, 2 a file.
type Search = fn(&[u8], &[u8]) -> u8;

fn after(listing: &[u8], path: &[u8]) -> u8 {
    unsafe { listing_search(listing.as_ptr(), listing.len(), path.as_ptr(), path.len()) }
}

unsafe fn number(bytes: &[u8], at: usize) -> usize {
    unsafe { bytes.as_ptr().add(at).cast::<u32>().read_unaligned() as usize }
}

/// The form before, over an accepted listing; like the library's code it tests no index that cannot be outside.
#[inline(never)]
fn before(listing: &[u8], path: &[u8]) -> u8 {
    unsafe {
        let n = number(listing, 0);
        let mut at = 8 + 8 * n;
        for i in 0..n {
            let end = at + number(listing, 8 + 4 * i);
            let mark = number(listing, 8 + 4 * n + 4 * i);
            if end - at == path.len()
                && end <= listing.len()
                && (end == at || *listing.get_unchecked(end - 1) == *path.get_unchecked(end - at - 1))
                && same(listing.get_unchecked(at..end), path)
            {
                return if mark == 0xFFFF_FFFF { 1 } else { 2 };
            }
            at = end + if mark == 0xFFFF_FFFF { 0 } else { mark };
        }
        0
    }
}

unsafe fn same(a: &[u8], b: &[u8]) -> bool {
    unsafe {
        let mut k = 0;
        while k + 4 <= a.len() && number(a, k) == number(b, k) {
            k += 4;
        }
        while k < a.len() && *a.get_unchecked(k) == *b.get_unchecked(k) {
            k += 1;
        }
        k == a.len()
    }
}

/// The definition: the first path not below the one sought decides.
fn defined(rows: &[Row], path: &[u8]) -> u8 {
    match rows.iter().find(|row| row.path.as_slice() >= path) {
        Some(row) if row.path == path => if row.contents.is_none() { 1 } else { 2 },
        _ => 0,
    }
}

/// Nanoseconds for one search, the mean over the paths: each form's best of many short rounds, by turns.
fn times(forms: [Search; 2], listing: &[u8], paths: &[Vec<u8>]) -> [f64; 2] {
    let turns = 1 + 2_000 / paths.len();
    let mut best = [f64::MAX; 2];
    for _ in 0..100 {
        for (form, best) in forms.iter().zip(&mut best) {
            let begun = Instant::now();
            for _ in 0..turns {
                for path in paths {
                    black_box(form(black_box(listing), black_box(path)));
                }
            }
            *best = best.min(begun.elapsed().as_nanos() as f64 / (turns * paths.len()) as f64);
        }
    }
    best
}

/// What a lookup asks for in vain: a manifest in each directory, and each path with an extension.
fn absent(tree: &Tree) -> Vec<Vec<u8>> {
    let manifests = tree.iter().filter(|(_, contents)| contents.is_none()).map(|(path, _)| under(path));
    let extended = tree.keys().map(|path| [path, b".js".as_slice()].concat());
    let mut paths: Vec<_> = manifests.chain(extended).filter(|path| !tree.contains_key(path)).collect();
    paths.sort();
    paths
}

fn under(directory: &[u8]) -> Vec<u8> {
    let slash: &[u8] = if directory == b"/" { b"" } else { b"/" };
    [directory, slash, b"package.json"].concat()
}

fn table(name: &str, tree: &Tree) {
    let listing = lent::lay(&lent::rows(tree));
    let hits: Vec<_> = tree.keys().cloned().collect();
    let misses = absent(tree);
    let tenth = misses.len().div_ceil(10);
    for path in hits.iter().chain(&misses) {
        assert_eq!(before(&listing, path), after(&listing, path), "{}", String::from_utf8_lossy(path));
    }
    let kinds = [("hits", &hits[..]), ("misses", &misses[..]), ("early misses", &misses[..tenth]), ("late misses", &misses[misses.len() - tenth..])];
    for (kind, paths) in kinds {
        let [old, new] = times([before, after], &listing, paths);
        println!("| {name} | {kind} | {old:.0} | {new:.0} | {:.2} |", new / old);
    }
}

/// Listings whose paths are shuffled and repeated, against the definition.
fn any_order() {
    let mut seed = 88_172_645_463_325_252u64;
    let mut next = |below: usize| {
        seed ^= seed << 13;
        seed ^= seed >> 7;
        seed ^= seed << 17;
        (seed % below as u64) as usize
    };
    let stems: [&[u8]; 6] = [b"", b"/p", b"/p/node_modules/", b"/p/node_modules/element-", b"/p/node_modules/element-beam/lib/", b"\xff"];
    let mut asked = 0;
    for _ in 0..40_000 {
        let mut path = || {
            let mut path = stems[next(stems.len())].to_vec();
            for _ in 0..next(4) {
                path.push(b"a/\0\xff"[next(4)]);
            }
            path
        };
        let paths: Vec<Vec<u8>> = (0..90).map(|_| path()).collect();
        let sought: Vec<Vec<u8>> = (0..6).map(|_| path()).collect();
        let mut rows: Vec<Row> = paths.into_iter().map(|path| Row { path, contents: None }).collect();
        for row in &mut rows {
            row.contents = [None, Some(vec![]), Some(b"{}".to_vec())][next(3)].clone();
        }
        if next(2) == 0 {
            rows.sort_by(|a, b| a.path.cmp(&b.path));
        }
        rows.truncate(next(91));
        let listing = lent::lay(&rows);
        for path in &sought {
            assert_eq!(defined(&rows, path), after(&listing, path), "{listing:?} {path:?}");
            asked += 1;
        }
    }
    println!("{asked} searches over listings in any order answered as defined");
}

fn main() {
    any_order();
    println!("| entries | asked | before, ns | after, ns | after / before |\n|---|---|---|---|---|");
    for entries in [10, 100, 300, 1_000] {
        table(&entries.to_string(), &trees::sized(entries).tree);
    }
    table("realistic tree", &trees::realistic().tree);
    table("start 32 deep", &trees::longest(32).tree);
}
