//! Demand 3 on calls: two listings that agree at every path the first one's lookup consulted, whatever they hold elsewhere and
//! exports maps of distinct subpath keys and imports maps of distinct keys reordered, must end alike to the last byte, stopped lookups and
//! other refusals included.

use crate::cases::{self, Case};
use crate::expected;
use crate::json::{self, Json, Member};
use crate::lent::{EXPORTS_FIELDS, IMPORTS_FIELDS, Settings, Tree, is_path, lay, name_of, parent, rows};
use crate::manifests::{Around, SOME_REPEATS, damaged};
use crate::model::{self, Walked};
use crate::product;
use crate::rng::Rng;
use std::collections::BTreeMap;

/// The highest state seen at each consulted path.
fn consulted(walked: &Walked) -> BTreeMap<&[u8], u8> {
    let mut states = BTreeMap::new();
    for consult in &walked.list {
        let state = states.entry(&consult.path[..]).or_insert(0);
        *state = consult.state.max(*state);
    }
    states
}

fn add_above(tree: &mut Tree, path: &[u8]) {
    let mut above = path;
    while above != b"/" {
        above = parent(above);
        tree.insert(above.to_vec(), None);
    }
}

struct Other<'a> {
    rng: &'a mut Rng,
    settings: &'a Settings,
    around: Around<'a>,
    reordered: bool,
}

impl Other<'_> {
    /// A tree that agrees with `tree` at the consulted paths and holds the start.
    fn tree(&mut self, tree: &Tree, start: &[u8], walked: &Walked) -> Tree {
        let states = consulted(walked);
        let mut other = Tree::new();
        other.insert(start.to_vec(), None);
        add_above(&mut other, start);
        for (&path, &state) in &states {
            if state > 0 {
                add_above(&mut other, path);
                let contents = tree[path].clone();
                other.insert(path.to_vec(), contents.map(|contents| self.contents(path, state, contents)));
            }
        }
        for (path, contents) in tree {
            if self.rng.chance(50) {
                self.put(&mut other, &states, path, contents.clone());
            }
        }
        for _ in 0..self.rng.below(12) {
            self.put_new(&mut other, &states);
        }
        other
    }

    /// A file's contents: free in a manifest that was not read.
    fn contents(&mut self, path: &[u8], state: u8, contents: Vec<u8>) -> Vec<u8> {
        if state == 3 {
            return self.reorder(contents);
        }
        if name_of(path) == b"package.json" { damaged(&contents, self.rng) } else { contents }
    }

    fn put(&mut self, other: &mut Tree, states: &BTreeMap<&[u8], u8>, path: &[u8], contents: Option<Vec<u8>>) {
        let free = !states.contains_key(path) && !other.contains_key(path);
        if free && is_path(path) && path.len() <= 1_024 && other.get(parent(path)) == Some(&None) {
            other.insert(path.to_vec(), contents);
        }
    }

    fn put_new(&mut self, other: &mut Tree, states: &BTreeMap<&[u8], u8>) {
        let above: Vec<&Vec<u8>> = other.iter().filter(|entry| entry.1.is_none()).map(|entry| entry.0).collect();
        let above = *self.rng.pick(&above);
        let name = self.rng.text(&["a", "b", "x", "x.js", "index.js", "node_modules", "package.json", "lib", "zz", "@s", "é", "main"]);
        let slash = if above == b"/" { "" } else { "/" };
        let path = [above, slash.as_bytes(), name].concat();
        if path.iter().filter(|&&b| b == b'/').count() > 32 {
            return;
        }
        let contents = match name {
            b"package.json" => Some(self.around.manifest(self.rng)),
            _ => self.rng.chance(50).then(Vec::new),
        };
        self.put(other, states, &path, contents);
    }

    /// The manifest with the members of its exports and imports maps in another order, where their keys allow it.
    fn reorder(&mut self, manifest: Vec<u8>) -> Vec<u8> {
        let Ok(Json::Object(members)) = json::read(&manifest) else { return manifest };
        let mut out = manifest.clone();
        let is_field = |kind: usize, member: &Member| self.settings[kind].contains(&member.name);
        let maps = |member: &&Member| is_field(EXPORTS_FIELDS, member) || is_field(IMPORTS_FIELDS, member);
        for member in members.iter().filter(maps).collect::<Vec<_>>() {
            if let Json::Object(map) = &member.value {
                let subpath = |key: &[u8]| key == b"." || key.starts_with(b"./") || key.starts_with(b"#");
                let distinct = map.iter().enumerate().all(|(i, entry)| map[..i].iter().all(|before| before.name != entry.name));
                // The keys of an imports map are free, unless its field is an exports field too.
                let free = !self.settings[EXPORTS_FIELDS].contains(&member.name) || map.iter().all(|entry| subpath(&entry.name));
                if map.len() > 1 && distinct && free {
                    let text = self.map_text(&manifest, member, map);
                    out[member.value_from..member.to].copy_from_slice(&text);
                }
            }
        }
        self.reordered |= out != manifest;
        out
    }

    /// The same members in another order, and as much white space beside them as before.
    fn map_text(&mut self, manifest: &[u8], member: &Member, map: &[Member]) -> Vec<u8> {
        let mut pieces: Vec<&[u8]> = map.iter().map(|entry| &manifest[entry.from..entry.to]).collect();
        self.rng.shuffle(&mut pieces);
        let filled: usize = pieces.iter().map(|piece| piece.len()).sum::<usize>() + pieces.len() + 1;
        let mut blanks = vec![0; 2 * pieces.len()];
        for _ in filled..member.to - member.value_from {
            let at = self.rng.below(blanks.len());
            blanks[at] += 1;
        }
        let mut text = vec![b'{'];
        for (i, piece) in pieces.iter().enumerate() {
            if i > 0 {
                text.push(b',');
            }
            (0..blanks[2 * i]).for_each(|_| text.push(self.rng.one(b" \t\r\n")));
            text.extend_from_slice(piece);
            (0..blanks[2 * i + 1]).for_each(|_| text.push(self.rng.one(b" \t\r\n")));
        }
        text.push(b'}');
        text
    }
}

#[derive(Default)]
struct Seen {
    pairs: u64,
    changed: u64,
    reordered: u64,
    numbers: BTreeMap<u32, u64>,
    faults: u64,
}

impl Seen {
    /// One pair, if the case's lookup begins; it may end in a refusal of its own, at the limit of consults too.
    fn pair(&mut self, case: &Case, rng: &mut Rng) {
        let Ok(accepted) = expected::accept(case, case.work()) else { return };
        let walked = model::lookup(&accepted.tree, &accepted.settings, &case.start, &case.specifier, case.limit as usize);
        let around = Around { settings: &accepted.settings, specifier: &case.specifier, repeats: SOME_REPEATS };
        let mut other = Other { rng, settings: &accepted.settings, around, reordered: false };
        let tree = other.tree(&accepted.tree, &case.start, &walked);
        let reordered = other.reordered;
        let second = Case { listing: lay(&rows(&tree)), ..case.clone() };
        if crate::lent::read_listing(&second.listing).is_err() {
            return;
        }
        let Ok(wanted) = expected::decide(case, case.work(), false) else { return };
        let rooms = expected::rooms(&wanted, case.room);
        let (one, two) = (product::call(case.question(), rooms), product::call(second.question(), rooms));
        if one != two || one != expected::left(&wanted, rooms) {
            self.faults += 1;
            println!("FAULT: two listings that agree, and calls that do not end alike");
            crate::print_case(case);
            crate::print_case(&second);
            crate::print_left("first ", &one);
            crate::print_left("second", &two);
        }
        self.pairs += 1;
        self.changed += u64::from(second.listing != case.listing);
        self.reordered += u64::from(reordered);
        *self.numbers.entry(one.number).or_default() += 1;
    }
}

pub fn run(count: u64, seed: u64) -> bool {
    let mut seen = Seen::default();
    let mut number = 0;
    while seen.changed < count {
        let mut rng = Rng::new(seed ^ 0x7061_6972, number);
        seen.pair(&cases::case(seed, number), &mut rng);
        number += 1;
    }
    println!(
        "pairs: {} whose listings differ, {} of them with an exports or imports map reordered, {} faults",
        seen.changed, seen.reordered, seen.faults
    );
    println!("pairs by number: {:?}", seen.numbers);
    seen.faults == 0
}
