//! The cases: questions over small trees that grow where a lookup looks, so that every routine is reached soon; and the same broken
//! on purpose, at limits and past them. Case N of a seed is always the same.

use crate::broken;
use crate::hash;
use crate::lent::{
    EXPORTS_FIELDS, EXTENSIONS, HASH_NAMES, IMPORTS_FIELDS, MOST, Row, Settings, Tree, is_path, is_specifier, lay, lay_settings, name_of,
    parent, rows,
};
use crate::manifests::{Around, SOME_REPEATS, damaged};
use crate::model;
use crate::product::Question;
use crate::rng::Rng;

/// How long the lent output buffers are, against what the answer needs.
#[derive(Clone, Copy, PartialEq, Eq, Hash, Debug)]
pub enum Room {
    /// So many bytes and numbers more than needed.
    More(usize),
    /// Short by so many, at most all of it: 20, or 21.
    ResultLess(usize),
    NumbersLess(usize),
    ListLess(usize),
    /// Work memory of this length: 25.
    Work(usize),
}

/// The two limits that have a name: the gateway's, which no bare name passes, and the preview's.
pub const GATEWAY: u32 = 18_777;
pub const PREVIEW: u32 = 512;

#[derive(Clone, Hash)]
pub struct Case {
    pub listing: Vec<u8>,
    pub settings: Vec<u8>,
    pub start: Vec<u8>,
    pub specifier: Vec<u8>,
    /// How many consults the lookup may make.
    pub limit: u32,
    pub room: Room,
    /// The number that this case must give, where it was made to give one.
    pub stated: Option<u32>,
}

impl Case {
    pub fn question(&self) -> Question<'_> {
        let Self { listing, settings, start, specifier, .. } = self;
        Question { listing, settings, start, specifier, limit: self.limit }
    }

    /// The length of the lent work memory.
    pub fn work(&self) -> usize {
        if let Room::Work(work) = self.room { work } else { 32_768 }
    }
}

/// A question before it is laid out as bytes.
#[derive(Clone)]
pub struct World {
    pub tree: Tree,
    pub settings: Settings,
    pub start: Vec<u8>,
    pub specifier: Vec<u8>,
    /// `Around::repeats` of its manifests.
    pub repeats: usize,
}

impl World {
    pub fn around(&self) -> Around<'_> {
        Around { settings: &self.settings, specifier: &self.specifier, repeats: self.repeats }
    }

    pub fn case(&self) -> Case {
        self.case_with(&rows(&self.tree))
    }

    pub fn case_with(&self, rows: &[Row]) -> Case {
        Case {
            listing: lay(rows),
            settings: lay_settings(&self.settings),
            start: self.start.clone(),
            specifier: self.specifier.clone(),
            limit: GATEWAY,
            room: Room::More(0),
            stated: None,
        }
    }

    /// The lookup where nothing limits it.
    pub fn walked(&self) -> model::Walked {
        model::lookup(&self.tree, &self.settings, &self.start, &self.specifier, usize::MAX)
    }

    pub fn add_directory(&mut self, path: &[u8]) {
        for i in 1..=path.len() {
            if path.get(i).is_none_or(|&b| b == b'/') {
                self.tree.entry(path[..i].to_vec()).or_insert(None);
            }
        }
    }

    /// Adds the entry and the directories above it, if the listing's rules allow it.
    pub fn add(&mut self, path: &[u8], contents: Option<Vec<u8>>) -> bool {
        let above_is_file = || {
            let mut above = parent(path);
            while above != b"/" && !self.tree.contains_key(above) {
                above = parent(above);
            }
            matches!(self.tree.get(above), Some(Some(_)))
        };
        let components = path.iter().filter(|&&b| b == b'/').count();
        let manifest_directory = parent(path).split(|&b| b == b'/').any(|name| name == b"package.json")
            || (contents.is_none() && name_of(path) == b"package.json");
        let fits = is_path(path) && path.len() <= 1_024 && components <= 32 && !manifest_directory;
        if !fits || self.tree.contains_key(path) || above_is_file() {
            return false;
        }
        self.add_directory(parent(path));
        self.tree.insert(path.to_vec(), contents);
        true
    }
}

/// Case `number` of `seed`. Where the product takes names that begin with "#", every fourth case is of one.
pub fn case(seed: u64, number: u64) -> Case {
    if HASH_NAMES && number % 4 == 3 {
        return hash::case(seed, number);
    }
    let rng = &mut Rng::new(seed, number);
    match rng.below(100) {
        0..=44 => with_room(&grown(rng), rng),
        45..=67 => with_room(&exporting(rng), rng),
        68..=75 => faulty(rng),
        76..=81 => broken::long(rng),
        82..=84 => broken::at_a_limit(rng),
        85..=96 => broken::once(rng),
        _ => broken::twice(rng),
    }
}

/// Case `number` of `seed`, with names that come more than once in each manifest that has any.
pub fn repeating(seed: u64, number: u64) -> Case {
    let rng = &mut Rng::new(seed ^ 0x7265_7065, number);
    let exporting = rng.chance(80);
    let mut world = if exporting { exporting_world(rng) } else { bare_world(rng) };
    world.repeats = 100;
    if exporting {
        export(&mut world, rng)
    } else {
        grow_some(&mut world, rng)
    }
    world.case()
}

/// The limit of a lookup that needs so many consults: mostly the gateway's; else exactly enough, one less, one more, or any.
fn limit(needed: usize, rng: &mut Rng) -> u32 {
    let needed = needed as u32;
    match rng.below(20) {
        0 => needed,
        1 => needed.saturating_sub(1),
        2 => rng.one(&[needed + 1, PREVIEW, u32::MAX]),
        3 => rng.below(needed as usize + 2) as u32,
        4 => rng.below(3) as u32,
        _ => GATEWAY,
    }
}

/// The case with buffers longer than needed, just long enough, or short, and within a limit of consults.
pub fn with_room(world: &World, rng: &mut Rng) -> Case {
    let mut case = world.case();
    let short = if rng.chance(50) { 1 } else { rng.within(1, 400) };
    (case.room, case.stated) = match rng.below(40) {
        0 => (Room::ResultLess(short), Some(20)),
        1 => (Room::NumbersLess(short), Some(21)),
        2 => (Room::ListLess(short), Some(21)),
        3..=9 => (Room::More(rng.below(100)), None),
        _ => (Room::More(0), None),
    };
    // 20 and 21 follow the lookup: its own refusals come first, and an empty text is never too long.
    let walked = world.walked();
    let end = walked.end;
    if case.stated == Some(20) && end.texts.concat().is_empty() {
        case.stated = None;
    }
    if end.is_refusal() {
        case.stated = case.stated.map(|_| end.number);
    }
    case.limit = limit(walked.list.len(), rng);
    if (case.limit as usize) < walked.list.len() {
        case.stated = Some(53);
    }
    case
}

/// A manifest that the lookup reads has a fault, or more than one, in it.
fn faulty(rng: &mut Rng) -> Case {
    let mut world = grown(rng);
    let list = world.walked().list;
    let read: Vec<&model::Consult> = list.iter().filter(|consult| consult.state == 3).collect();
    if !read.is_empty() {
        let path = rng.pick(&read).path.clone();
        let contents = match rng.below(10) {
            0..=4 => damaged(&world.around().manifest(rng), rng),
            5 => damaged(&broken::limit_manifest(rng), rng),
            6 => broken::rfc_manifest(rng),
            _ => broken::limit_manifest(rng),
        };
        world.tree.insert(path, Some(contents));
    }
    with_room(&world, rng)
}

// ---------------------------------------------------------------- worlds

#[rustfmt::skip]
const DIRECTORIES: &[&str] = &[
    "p", "q", "a", "node_modules", "@s", "é", "x.y", "lib",
];
#[rustfmt::skip]
const PACKAGES: &[&str] = &[
    "a", "b", "mat", "@s/a", "@s/b", "@s", "@", "@/a", ".a", "a.b", "é", "node_modules", "a\\b", "x-..", "a b", "package.json", "@s/..",
    "@é/b", "a*", "a\nb", "A", "~",
];
#[rustfmt::skip]
pub const SUBPATHS: &[&str] = &[
    "/x", "/x.js", "/x/y", "/x/y.js", "/lib/x", "/x/", "/", "//", "//x", "/./x", "/x/.", "/../b", "/../../b", "/../../../y", "/x/../y",
    "/x/../../y/", "/*", "/x*", "/x?q", "/x#f", "/é", "/node_modules/b", "/package.json", "\\x", "/a\\b", "/x/../../..", "/..", "/.",
    "/lib", "/x y", "/../../../", "/x/../../../a/b",
];
#[rustfmt::skip]
const PIECES: &[&str] = &[
    "a", "b", "x", "/", "/", "/", ".", "..", "../", "/..", "@", "@s", "\\", "*", "#", "?", "é", "-", ".js", "node_modules", "𝄞",
];

pub fn specifier(rng: &mut Rng) -> Vec<u8> {
    let made: Vec<u8> = match rng.below(10) {
        0..=3 => rng.text(PACKAGES).to_vec(),
        4..=7 => [rng.text(PACKAGES), rng.text(SUBPATHS)].concat(),
        8 => [rng.text(PACKAGES), rng.text(SUBPATHS), rng.text(SUBPATHS)].concat(),
        _ => (0..rng.within(1, 9)).flat_map(|_| rng.text(PIECES).to_vec()).collect(),
    };
    if is_specifier(&made, false) { made } else { b"mat/steel".to_vec() }
}

fn texts(from: &[&str], count: usize, rng: &mut Rng) -> Vec<Vec<u8>> {
    (0..count).map(|_| rng.text(from).to_vec()).collect()
}

pub fn example_settings() -> Settings {
    ["import", ".js", "main", "index", "exports", "imports"].map(|text| vec![text.as_bytes().to_vec()])
}

pub fn settings(rng: &mut Rng) -> Settings {
    if rng.chance(40) {
        return example_settings();
    }
    let pools: [&[&str]; 5] = [
        &["import", "require", "node", ".x", "default", "#c", "é", "browser"],
        &[".js", ".json", "", ".d.ts", "js", ".é", ".node", "x"],
        &["main", "module", "browser", "name", "exports"],
        &["index", "main", ".", "..", "a", "é", "x"],
        &["exports", "x", "main", "exportsé"],
    ];
    let mut made: Settings = Default::default();
    for kind in 0..IMPORTS_FIELDS {
        let most = if rng.chance(10) { MOST[kind] } else { MOST[kind].min(3) };
        let count = if rng.chance(8) { 0 } else { rng.within(1, most) };
        made[kind] = texts(pools[kind], count, rng);
    }
    if made[EXTENSIONS].is_empty() && rng.chance(80) {
        made[EXTENSIONS].push(b".js".to_vec());
    }
    made[IMPORTS_FIELDS] = texts(&["imports", "imports", "x", "exports", "é", "main", "name", "#"], 1, &mut rng.beside(0x696d_706f));
    made
}

/// A start, a specifier and settings over a tree that holds the start alone.
pub fn bare_world(rng: &mut Rng) -> World {
    let depth = if rng.chance(4) { rng.within(5, 30) } else { rng.below(5) };
    let start: Vec<u8> = (0..depth).flat_map(|_| [b"/", rng.text(DIRECTORIES)].concat()).collect();
    let start = if start.is_empty() { b"/".to_vec() } else { start };
    let (settings, specifier) = (settings(rng), specifier(rng));
    let mut world = World { tree: Tree::new(), settings, start: start.clone(), specifier, repeats: SOME_REPEATS };
    world.tree.insert(b"/".to_vec(), None);
    world.add_directory(&start);
    world
}

/// A bare world grown by entries at paths that its lookup asks for in vain.
pub fn grown(rng: &mut Rng) -> World {
    let mut world = bare_world(rng);
    grow_some(&mut world, rng);
    world
}

fn grow_some(world: &mut World, rng: &mut Rng) {
    for _ in 0..rng.within(2, 14) {
        grow(world, rng);
    }
    for _ in 0..rng.below(3) {
        let above: Vec<Vec<u8>> = world.tree.iter().filter(|entry| entry.1.is_none()).map(|entry| entry.0.clone()).collect();
        let path = [rng.pick(&above), &b"/"[..], rng.text(&["x", "z", "x.js", "lib", "b"])].concat();
        let directory = rng.chance(40);
        world.add(&path, if directory { None } else { Some(Vec::new()) });
    }
}

/// A package with exports, grown where they lead.
fn exporting(rng: &mut Rng) -> World {
    let mut world = exporting_world(rng);
    export(&mut world, rng);
    world
}

fn exporting_world(rng: &mut Rng) -> World {
    let mut world = broken::package_world(rng);
    if world.settings[EXPORTS_FIELDS].is_empty() {
        world.settings[EXPORTS_FIELDS].push(b"exports".to_vec());
    }
    world
}

fn export(world: &mut World, rng: &mut Rng) {
    let manifest = world.around().exporting(rng);
    world.tree.insert(b"/node_modules/a/package.json".to_vec(), Some(manifest));
    for _ in 0..rng.below(4) {
        grow(world, rng);
    }
}

fn grow(world: &mut World, rng: &mut Rng) {
    let list = world.walked().list;
    let absent: Vec<&model::Consult> = list.iter().filter(|consult| consult.state == 0).collect();
    let Some(last) = absent.len().checked_sub(1) else { return };
    // The later question more often: a lookup that stops early teaches little.
    let at = if rng.chance(50) { last - rng.below(absent.len().min(4)) } else { rng.below(absent.len()) };
    let path = &absent[at].path;
    if name_of(path) == b"package.json" {
        // A manifest near the root ends many lookups before they begin.
        if path.len() > 14 || rng.chance(30) {
            let contents = world.around().manifest(rng);
            world.add(path, Some(contents));
        }
        return;
    }
    let name = name_of(path);
    let directory = match () {
        () if name == b"node_modules" => 90,
        () if name.ends_with(b".js") => 10,
        () => 50,
    };
    let directory = rng.chance(directory);
    world.add(path, if directory { None } else { Some(Vec::new()) });
}
