//! Cases broken on purpose, each with the number it must give; limits at their value and one past; and fixed examples.

use crate::cases::{Case, Room, SUBPATHS, World, bare_world, example_settings, grown};
use crate::lent::{
    EXPORTS_FIELDS, EXTENSIONS, HASH_NAMES, IMPORTS_FIELDS, KINDS, MAIN_FIELDS, MAIN_FILES, MOST, Row, Settings, Tree, lay, lay_settings,
    name_of, rows,
};
use crate::manifests::{PLAIN, Style, Value, object, text, write};
use crate::rng::Rng;

/// The refusals that come before the lookup, in document 01's order.
const ORDER: [u32; 7] = [25, 24, 30, 31, 32, 22, 23];

pub fn once(rng: &mut Rng) -> Case {
    let number = rng.one(&ORDER);
    breaks(&[number], rng)
}

/// Several things are wrong, and the first in the order counts.
pub fn twice(rng: &mut Rng) -> Case {
    let (one, other) = (rng.one(&ORDER), rng.one(&ORDER));
    breaks(&[one, other], rng)
}

fn breaks(numbers: &[u32], rng: &mut Rng) -> Case {
    let mut world = if rng.chance(70) { grown(rng) } else { bare_world(rng) };
    if numbers.contains(&32) {
        manifest_directory(&mut world.tree, rng);
    }
    let mut entries = rows(&world.tree);
    if numbers.contains(&31) {
        break_paths(&mut entries, rng);
    }
    let mut case = world.case_with(&entries);
    if numbers.contains(&30) {
        break_sizes(&mut case, &mut entries, rng);
    }
    if numbers.contains(&24) {
        break_settings(&mut case.settings, rng);
    }
    if numbers.contains(&22) {
        case.specifier = not_bare(&world.specifier, rng);
    }
    if numbers.contains(&23) {
        case.start = no_directory(&world, rng);
    }
    if numbers.contains(&25) {
        case.room = Room::Work(if rng.chance(50) { 32_767 } else { rng.below(32_768) });
    }
    case.stated = ORDER.into_iter().find(|number| numbers.contains(number));
    case
}

fn manifest_directory(tree: &mut Tree, rng: &mut Rng) {
    let above: Vec<&Vec<u8>> = tree.iter().filter(|entry| entry.1.is_none()).map(|entry| entry.0).collect();
    let above = rng.pick(&above);
    let slash = if above.ends_with(b"/") { "" } else { "/" };
    let path = [&above[..], slash.as_bytes(), b"package.json"].concat();
    tree.insert(path, None);
}

fn break_paths(entries: &mut Vec<Row>, rng: &mut Rng) {
    let at = rng.below(entries.len());
    let above = entries[at].path.clone();
    let row = |path: Vec<u8>| Row { path, contents: None };
    match rng.below(8) {
        0 if entries.len() > 1 => drop(entries.remove(0)),
        1 => entries[0].contents = Some(Vec::new()),
        2 if entries.len() > 2 => {
            let i = rng.within(1, entries.len() - 2);
            entries.swap(i, i + 1);
        }
        3 => entries.insert(at, entries[at].clone()),
        4 => entries.push(row(b"/zz/missing/z".to_vec())),
        5 => {
            let files: Vec<Vec<u8>> = entries.iter().filter(|row| row.contents.is_some()).map(|row| row.path.clone()).collect();
            let file = if files.is_empty() { b"/zz".to_vec() } else { rng.pick(&files).clone() };
            entries.push(row([&file[..], b"/z"].concat()));
            entries.sort_by(|a, b| a.path.cmp(&b.path));
        }
        6 => {
            entries[at] = row(rng
                .one(&[&b""[..], b"p", b"//", b"/.", b"/..", b"/p/", b"/p//q", b"/p/./q", b"/p/../q", b"./p", b"/\0", b"/\xff"])
                .to_vec())
        }
        _ => {
            let bad: &[&[u8]] = &[b"", b".", b"..", b"\0", b"a\0b", b"\xff", b"\xc3", b"\xed\xa0\x80", b"\xc0\xaf", b"a/", b"/a", b"./a"];
            let path = [&above[..], b"/", rng.one(bad)].concat();
            entries.insert(at + 1, row(path));
        }
    }
}

fn break_sizes(case: &mut Case, entries: &mut Vec<Row>, rng: &mut Rng) {
    let file = entries.iter().position(|row| row.contents.is_some() && name_of(&row.path) != b"package.json");
    match rng.below(9) {
        0 if file.is_some() => entries[file.unwrap_or(0)].contents = Some(b" ".to_vec()),
        1 => entries.push(Row { path: [b"/", "y".repeat(rng.within(1_024, 1_100)).as_bytes()].concat(), contents: None }),
        2 => entries.push(Row { path: "/y".repeat(rng.within(33, 40)).into_bytes(), contents: None }),
        kind => return break_bytes(&mut case.listing, entries.len(), kind, rng),
    }
    case.listing = lay(entries);
}

fn break_bytes(listing: &mut Vec<u8>, count: usize, kind: usize, rng: &mut Rng) {
    match kind {
        3 => listing.truncate(rng.below(listing.len())),
        4 => listing.extend(std::iter::repeat_n(rng.below(256) as u8, rng.within(1, 9))),
        5 => listing[0] ^= 1 << rng.below(8),
        6 => listing[4 + rng.below(4)] ^= 1 << rng.below(8),
        7 => listing[..4].copy_from_slice(&rng.one(&[0u32, 1_025, 65_536, 0x2000_0000, 0xFFFF_FFFF]).to_le_bytes()),
        // A path length that no longer fits the sum of all lengths.
        _ => listing[8 + 4 * rng.below(count) + rng.below(4)] ^= 1 << rng.below(8),
    }
}

fn break_settings(settings: &mut Vec<u8>, rng: &mut Rng) {
    let kind = rng.below(KINDS);
    let broken = match rng.below(12) {
        0 => return settings.truncate(rng.below(settings.len())),
        1 => return settings.push(b'a'),
        2 => return settings[kind] = settings[kind].wrapping_add(rng.within(1, 255) as u8),
        3 => return settings.clear(),
        4 => vec![b"a".to_vec(); MOST[kind] + 1],
        5 => vec!["é".repeat(17).into_bytes()],
        6 => vec![vec![b'a'; rng.within(33, 255)]],
        7 => vec![rng.one(&[&b"a/b"[..], b"/", b"\0", b"a\0", b"\xff", b"\xc3", b"\xe2\x82"]).to_vec()],
        8 if kind != EXTENSIONS => vec![Vec::new()],
        10 => return *settings = five_counts(),
        11 => return *settings = lay_settings(&with_imports(vec![b"imports".to_vec(); rng.one(&[0, 0, 2, 3, 255])])),
        _ => vec![b"a".to_vec(); MOST[kind] + rng.within(1, 200)],
    };
    let mut lists = example_settings();
    lists[kind] = broken;
    *settings = lay_settings(&lists);
}

/// The example settings with these imports fields.
fn with_imports(texts: Vec<Vec<u8>>) -> Settings {
    let mut lists = example_settings();
    lists[IMPORTS_FIELDS] = texts;
    lists
}

/// The example settings as they were before there was an imports field.
fn five_counts() -> Vec<u8> {
    let mut bytes = lay_settings(&with_imports(Vec::new()));
    bytes.remove(IMPORTS_FIELDS);
    bytes
}

fn not_bare(specifier: &[u8], rng: &mut Rng) -> Vec<u8> {
    // "#" stands for a name that is refused only where the product does not take these.
    let hash: &[u8] = if HASH_NAMES { b"/#" } else { b"#" };
    let prefix: &[&[u8]] = &[b"/", hash, b"./", b"../", b"//"];
    match rng.below(6) {
        0 => rng.one(&[&b""[..], b".", b"..", b"/", hash, b"./", b"../", b"//"]).to_vec(),
        1 => [rng.one(prefix), specifier].concat(),
        2 => {
            let mut long = specifier.to_vec();
            long.resize(if rng.chance(50) { 513 } else { rng.within(514, 700) }, b'a');
            long
        }
        3 => inserted(specifier, b"\0", rng),
        4 => [specifier, b"\xff"].concat(),
        _ => [specifier, rng.one(&[&b"\xc3"[..], b"\xed\xbf\xbf", b"\x80", b"\xf5\x80\x80\x80"])].concat(),
    }
}

fn inserted(text: &[u8], part: &[u8], rng: &mut Rng) -> Vec<u8> {
    let at = rng.below(text.len() + 1);
    [&text[..at], part, &text[at..]].concat()
}

fn no_directory(world: &World, rng: &mut Rng) -> Vec<u8> {
    let files: Vec<&Vec<u8>> = world.tree.iter().filter(|entry| entry.1.is_some()).map(|entry| entry.0).collect();
    let start = match rng.below(6) {
        0 if !files.is_empty() => rng.pick(&files).to_vec(),
        1 => [&world.start[..], b"/"].concat(),
        2 => [&world.start[..], b"/."].concat(),
        3 => rng.one(&[&b""[..], b".", b"p", b"//", b"/missing", b"\0", b"/\xff"]).to_vec(),
        4 => world.start[..world.start.len() - 1].to_vec(),
        _ => [&world.start[..], b"\0"].concat(),
    };
    if matches!(world.tree.get(&start), Some(None)) { b"/no/such".to_vec() } else { start }
}

// ---------------------------------------------------------------- limits

/// A limit at its value, or one past with its number.
pub fn at_a_limit(rng: &mut Rng) -> Case {
    let past = rng.chance(50);
    let kind = rng.below(9);
    let mut world = if kind == 8 { package_world(rng) } else { grown(rng) };
    let number = reach_limit(&mut world, kind, past, rng);
    let mut case = world.case();
    case.stated = past.then_some(number);
    if number == 25 {
        case.room = Room::Work(32_768 - usize::from(past));
    }
    case
}

/// Brings the world to a limit or one past it; the number that one past gives.
fn reach_limit(world: &mut World, kind: usize, past: bool, rng: &mut Rng) -> u32 {
    let over = usize::from(past);
    let setting = rng.below(KINDS);
    match kind {
        0 => pad_listing(&mut world.tree, 65_536 + over),
        1 => many_entries(&mut world.tree, 1_024 + over),
        2 => drop(world.tree.insert([b"/", "y".repeat(1_023 + over).as_bytes()].concat(), None)),
        3 => deep_entry(&mut world.tree, 32 + over),
        4 => world.specifier.resize(512 + over, b'a'),
        5 => world.settings[setting] = vec![b"b".to_vec(); MOST[setting] + over],
        6 => world.settings[setting] = vec![vec![b'b'; 32 + over]],
        7 => {}
        _ => {
            let (manifest, number) = limit(past, rng);
            world.specifier = rng.text(&["a", "a/x", "a/x.js", "a/lib/x"]).to_vec();
            world.tree.insert(b"/node_modules/a/package.json".to_vec(), Some(manifest));
            return number;
        }
    }
    [30, 30, 30, 30, 22, 24, 24, 25][kind]
}

/// Package a in /node_modules, asked for from "/".
pub fn package_world(rng: &mut Rng) -> World {
    let mut world = bare_world(rng);
    world.tree.clear();
    world.tree.insert(b"/".to_vec(), None);
    world.start = b"/".to_vec();
    world.specifier = if rng.chance(30) { b"a".to_vec() } else { [b"a", rng.text(SUBPATHS)].concat() };
    for file in ["x.js", "index.js", "lib/x.js", "package.json"] {
        world.add(format!("/node_modules/a/{file}").as_bytes(), Some(Vec::new()));
    }
    world
}

fn pad_listing(tree: &mut Tree, length: usize) {
    tree.insert(b"/zz".to_vec(), None);
    tree.insert(b"/zz/package.json".to_vec(), Some(Vec::new()));
    let now = lay(&rows(tree)).len();
    tree.insert(b"/zz/package.json".to_vec(), Some(vec![b' '; length - now]));
}

fn many_entries(tree: &mut Tree, count: usize) {
    for i in 0.. {
        if tree.len() >= count {
            return;
        }
        tree.insert(format!("/z{i:04}").into_bytes(), Some(Vec::new()));
    }
}

fn deep_entry(tree: &mut Tree, components: usize) {
    for depth in 1..=components {
        tree.insert("/y".repeat(depth).into_bytes(), None);
    }
}

/// A manifest at or past one of its limits.
pub fn limit_manifest(rng: &mut Rng) -> Vec<u8> {
    let past = rng.chance(60);
    limit(past, rng).0
}

fn limit(past: bool, rng: &mut Rng) -> (Vec<u8>, u32) {
    let over = usize::from(past);
    let style = Style { blank: rng.below(2) * 5, escape: rng.below(2) * 20 };
    let exports = text(rng.one(&["./x.js", "./x", "./lib/x.js"]));
    let dropped = rng.chance(20);
    // A value that a later member of its name replaces counts for the limits as any other.
    let around = |value: Value| {
        let mut members = vec![("exports", exports.clone()), ("x", value), ("main", text("x.js"))];
        members.extend(dropped.then_some(("x", Value::Raw("1"))));
        object(members)
    };
    let (value, number) = match rng.below(6) {
        0 => {
            let mut bytes = write(&around(Value::Raw("1")), PLAIN, rng);
            let blanks = vec![b' '; 16_384 + over - bytes.len()];
            let at = if rng.chance(50) { 0 } else { bytes.len() };
            bytes.splice(at..at, blanks);
            return (bytes, 40);
        }
        1 => (around(nested(15 + over, rng)), 40),
        2 => (around(Value::Array(vec![Value::Raw("0"); 128 + over])), 40),
        3 => (around(Value::Object((0..128 + over).map(|i| (format!("k{i}").into_bytes(), Value::Raw("0"))).collect())), 40),
        4 => (around(long_text(over, rng)), 40),
        _ => (around(repeated(128 + over, rng)), 40),
    };
    (write(&value, style, rng), number)
}

fn nested(depth: usize, rng: &mut Rng) -> Value {
    let mut value = if rng.chance(50) { Value::Array(Vec::new()) } else { Value::Object(Vec::new()) };
    for _ in 1..depth {
        value = if rng.chance(50) { Value::Array(vec![value]) } else { object(vec![("a", value)]) };
    }
    value
}

fn long_text(over: usize, rng: &mut Rng) -> Value {
    let part = rng.one(&["a", "é", "€", "𝄞", "\n", "/"]);
    let mut made = part.repeat(1_024 / part.len());
    made.push_str(&"b".repeat(1_024 + over - made.len()));
    let made = made.into_bytes();
    if rng.chance(30) { Value::Object(vec![(made, Value::Raw("1"))]) } else { Value::Text(made) }
}

/// So many members, which count as they are written, of fewer names.
fn repeated(count: usize, rng: &mut Rng) -> Value {
    let names = rng.within(1, 127);
    Value::Object((0..count).map(|_| (format!("k{}", rng.below(names)).into_bytes(), Value::Raw("0"))).collect())
}

/// RFC 8259's examples (section 13).
pub const RFC_EXAMPLES: &[&str] = &[
    r#"{
        "Image": {
            "Width":  800,
            "Height": 600,
            "Title":  "View from 15th Floor",
            "Thumbnail": {
                "Url":    "http://www.example.com/image/481989943",
                "Height": 125,
                "Width":  100
            },
            "Animated" : false,
            "IDs": [116, 943, 234, 38793]
          }
      }"#,
    r#"[
        {
           "precision": "zip",
           "Latitude":  37.7668,
           "Longitude": -122.3959,
           "Address":   "",
           "City":      "SAN FRANCISCO",
           "State":     "CA",
           "Zip":       "94107",
           "Country":   "US"
        },
        {
           "precision": "zip",
           "Latitude":  37.371991,
           "Longitude": -122.026020,
           "Address":   "",
           "City":      "SUNNYVALE",
           "State":     "CA",
           "Zip":       "94085",
           "Country":   "US"
        }
      ]"#,
    r#""Hello world!""#,
    "42",
    "true",
    r#"{"G clef":"\uD834\uDD1E"}"#,
];

pub fn rfc_manifest(rng: &mut Rng) -> Vec<u8> {
    let example = rng.one(RFC_EXAMPLES).as_bytes();
    if rng.chance(70) { example.to_vec() } else { inserted(example, rng.one(&[b" ", b",", b"0", b"\""]), rng) }
}

// ---------------------------------------------------------------- paths and targets near 2,048 bytes

pub fn long(rng: &mut Rng) -> Case {
    match rng.below(3) {
        0 => long_substitution(rng),
        _ => long_path(rng),
    }
}

/// A target whose stars make it about 2,048 bytes long, in a package near the root.
fn long_substitution(rng: &mut Rng) -> Case {
    let mut world = package_world(rng);
    let stars = rng.within(3, 6);
    let matched = named(rng.within(1_100 / stars, 500), rng);
    world.specifier = [b"a/", &matched[..]].concat();
    let wanted = rng.within(2_025, 2_052);
    let rest = wanted.saturating_sub(2 + stars * matched.len());
    // Segments "." count in the target and not in the path.
    let filler = if rng.chance(60) { [".".repeat(rest % 2), "./".repeat(rest / 2)].concat() } else { "y".repeat(rest) };
    let target = text(&format!("./{filler}{}", "*".repeat(stars)));
    let target = if rng.chance(30) { Value::Array(vec![text("bad"), target, text("./x.js")]) } else { target };
    let key = if rng.chance(80) { "./*" } else { "./" };
    let manifest = object(vec![("exports", object(vec![(key, target)]))]);
    world.settings[EXPORTS_FIELDS] = vec![b"exports".to_vec()];
    world.tree.insert(b"/node_modules/a/package.json".to_vec(), Some(write(&manifest, PLAIN, rng)));
    world.case()
}

/// A main field or a target below a directory whose path is nearly as long as a listing allows, so that an extension or a main
/// file reaches the limit.
fn long_path(rng: &mut Rng) -> Case {
    let mut world = bare_world(rng);
    world.tree.clear();
    world.tree.insert(b"/".to_vec(), None);
    world.start = [b"/", &named(rng.within(980, 995), rng)[..]].concat();
    world.specifier = rng.text(&["a", "a/", "a/x"]).to_vec();
    let package = [&world.start[..], b"/node_modules/a"].concat();
    world.add_directory(&package);
    let (file, extension) = (rng.within(1, 32), rng.within(1, 32));
    world.settings[MAIN_FILES] = vec![vec![b'i'; file]];
    world.settings[EXTENSIONS] = vec![b".js".to_vec(), vec![b'e'; extension]];
    let tail = if rng.chance(50) { extension } else { 1 + file + extension };
    let below = named((rng.within(2_045, 2_051) - package.len() - 1 - tail).min(1_022), rng);
    let below = if rng.chance(25) { [&below[..below.len() - 3], b"/.."].concat() } else { below };
    let kind = if rng.chance(50) { MAIN_FIELDS } else { EXPORTS_FIELDS };
    world.settings[kind] = vec![b"x".to_vec()];
    let manifest = object(vec![("x", Value::Text([b"./", &below[..]].concat()))]);
    world.add(&[&package[..], b"/package.json"].concat(), Some(write(&manifest, PLAIN, rng)));
    world.case()
}

/// A relative path of exactly this length, in components of mixed lengths.
pub fn named(length: usize, rng: &mut Rng) -> Vec<u8> {
    let mut made = Vec::new();
    while made.len() < length {
        let left = length - made.len();
        let part = rng.within(60, 250).min(left);
        made.extend(std::iter::repeat_n(b'y', part));
        if made.len() + 1 < length {
            made.push(b'/');
        }
    }
    made
}

// ---------------------------------------------------------------- fixed examples

/// Document 01's printed example.
pub fn printed() -> World {
    let mut world =
        World { tree: Tree::new(), settings: example_settings(), start: b"/p".to_vec(), specifier: b"mat/steel".to_vec(), repeats: 0 };
    world.tree.insert(b"/".to_vec(), None);
    world.add_directory(b"/p");
    world.add(b"/p/node_modules/mat/lib/steel.js", Some(Vec::new()));
    world.add(b"/p/node_modules/mat/package.json", Some(br#"{"exports":{"./*":"./lib/*.js"}}"#.to_vec()));
    world
}

/// Exports of /p/node_modules/m, files in it, and what is asked: document 01's marked examples and others.
const EXPORTS: &[(&str, &[&str], &str, u32)] = &[
    (r#"{"./abc/":"./f/","./abc*":"./s*.js"}"#, &["s/x.js"], "m/abc/x", 0),
    (r#"{"./abc*":"./s*.js","./abc/":"./f/"}"#, &["s/x.js"], "m/abc/x", 0),
    (r#"{"./a*":"./b*.js"}"#, &["b.js"], "m/a", 0),
    (r#"{"./a*bc":"./d*.js"}"#, &["d.js"], "m/abc", 4),
    (r#"{"./a*bc":"./d*.js"}"#, &["dx.js"], "m/axbc", 0),
    (r#"".\/x\u0000#y""#, &["x#y"], "m", 0),
    (r#""./a/./b.js""#, &["a/b.js"], "m", 0),
    (r#""./a/../b""#, &["b"], "m", 3),
    (r#""./NODE_MODULES/a""#, &[], "m", 3),
    ("[]", &[], "m", 4),
    (r#"{"import":null,"default":"./d.js"}"#, &["d.js"], "m", 0),
    (r#"{"./f/":"./g"}"#, &[], "m/f/x", 6),
    (r#"{".":"./a","b":"./b"}"#, &[], "m", 5),
    (r#"["./x/..?q","./a#f"]"#, &["a"], "m", 0),
    (r#""""#, &[], "m", 2),
    (r#""?q""#, &[], "m", 2),
    (r#""./a.js""#, &[], "m", 1),
    ("tru", &[], "m", 7),
    (r#""\uD800""#, &[], "m", 7),
];

/// Manifests of the same package in which a name comes more than once, files in it, what is asked, and the file that is found, or the
/// number of another answer.
const REPEATS: &[(&str, &[&str], &str, Result<&str, u32>)] = &[
    // The last value counts: fields of the root, escapes taken into account.
    (r#"{"main":"x","main":"y"}"#, &["x.js", "y.js"], "m", Ok("y.js")),
    (r#"{"main":"x","m\u0061in":"y"}"#, &["x.js", "y.js"], "m", Ok("y.js")),
    (r#"{"m\u0061in":"x","main":"y"}"#, &["x.js", "y.js"], "m", Ok("y.js")),
    (r#"{"main":"y","main":1}"#, &["y.js", "index.js"], "m", Ok("index.js")),
    (r#"{"exports":"./x.js","exports":"./y.js"}"#, &["x.js", "y.js"], "m", Ok("y.js")),
    (r#"{"exports":"./x.js","exports":null}"#, &["x.js"], "m", Err(4)),
    (r#"{"exports":[],"exports":{".":"./x.js"},"exports":"./y.js"}"#, &["x.js", "y.js"], "m", Ok("y.js")),
    // Nothing is joined: a map that is replaced is gone.
    (r#"{"exports":{"./x":"./x.js"},"exports":{"./y":"./y.js"}}"#, &["x.js", "y.js"], "m/x", Err(4)),
    (r#"{"exports":{".":"./x.js","import":"./x.js"},"exports":"./y.js"}"#, &["x.js", "y.js"], "m", Ok("y.js")),
    // Keys of an exports map.
    (r#"{"exports":{".":"./x.js",".":"./y.js"}}"#, &["x.js", "y.js"], "m", Ok("y.js")),
    (r#"{"exports":{"./a":"./x.js","./*":"./z.js","./\u0061":"./y.js"}}"#, &["x.js", "y.js", "z.js"], "m/a", Ok("y.js")),
    (r#"{"exports":{"./*":"./x.js","./a*":null,"./*":"./y.js"}}"#, &["x.js", "y.js"], "m/b", Ok("y.js")),
    (r#"{"exports":{"./f/":"./g/","./f/":"./h/"}}"#, &["g/x", "h/x"], "m/f/x", Ok("h/x")),
    (r#"{"exports":{"./f/":"./g/","./f/":"./h"}}"#, &["g/x", "h/x"], "m/f/x", Err(6)),
    (r#"{"exports":{"./a*":"./x.js","./a*":null,"./*":"./y.js"}}"#, &["x.js", "y.js"], "m/ab", Err(4)),
    (r#"{"exports":{".":1,"import":2,".":"./x.js"}}"#, &["x.js"], "m", Err(5)),
    // Conditions: the last value, in the first's place.
    (r#"{"exports":{"import":"./x.js","import":"./y.js"}}"#, &["x.js", "y.js"], "m", Ok("y.js")),
    (r#"{"exports":{"import":"./x.js","default":"./z.js","import":"./y.js"}}"#, &["x.js", "y.js", "z.js"], "m", Ok("y.js")),
    (r#"{"exports":{"default":"./z.js","import":"./x.js","default":"./y.js"}}"#, &["x.js", "y.js", "z.js"], "m", Ok("y.js")),
    (r#"{"exports":{"default":"./z.js","import":"./x.js","default":null}}"#, &["x.js", "z.js"], "m", Ok("x.js")),
    (r#"{"exports":{"import":"./x.js","default":"./y.js","\u0069mport":null}}"#, &["x.js", "y.js"], "m", Ok("y.js")),
    (r#"{"exports":{"import":"x?q","default":"./y.js","import":null}}"#, &["y.js"], "m", Ok("y.js")),
    (r#"{"exports":{"import":"./x.js","import":"bad"}}"#, &["x.js"], "m", Err(3)),
    (r#"{"exports":{"import":"bad","import":"./x.js"}}"#, &["x.js"], "m", Ok("x.js")),
    // However deep, and in arrays.
    (r#"{"exports":{"./a":{"import":{"default":"./x.js","default":"./y.js"}}}}"#, &["x.js", "y.js"], "m/a", Ok("y.js")),
    (r#"{"exports":{"import":{"default":"./x.js"},"import":{"default":null,"default":"./y.js"}}}"#, &["x.js", "y.js"], "m", Ok("y.js")),
    (r#"{"exports":["bad",{"default":"./x.js","default":"./y.js"}]}"#, &["x.js", "y.js"], "m", Ok("y.js")),
    (r#"{"exports":{"import":[{"x":1,"x":2},{"default":1,"default":"./y.js"}]}}"#, &["x.js", "y.js"], "m", Ok("y.js")),
    // Nothing is moved for names that look like whole numbers.
    (r#"{"exports":{"import":"./x.js","0":"./z.js","0":"./z.js"}}"#, &["x.js", "z.js"], "m", Ok("x.js")),
    (r#"{"exports":{"import":"./x.js","0":"./z.js","import":"./y.js"}}"#, &["x.js", "y.js", "z.js"], "m", Ok("y.js")),
    // An empty name; a name of which another is the beginning.
    (r#"{"":1,"":2,"main":"x","":3}"#, &["x.js"], "m", Ok("x.js")),
    (r#"{"main":"x","mai":"y","mainn":"y"}"#, &["x.js", "y.js"], "m", Ok("x.js")),
];

fn package(manifest: &[u8], files: &[&str], specifier: &str) -> World {
    let (start, specifier) = (b"/p".to_vec(), specifier.as_bytes().to_vec());
    let mut world = World { tree: Tree::new(), settings: example_settings(), start, specifier, repeats: 0 };
    world.tree.insert(b"/".to_vec(), None);
    world.add_directory(b"/p/node_modules/m");
    world.add(b"/p/node_modules/m/package.json", Some(manifest.to_vec()));
    for file in files {
        world.add(format!("/p/node_modules/m/{file}").as_bytes(), Some(Vec::new()));
    }
    world
}

/// The printed example with one imports field, none, more, and with a text at its limits and past them.
fn imports_fields() -> Vec<Case> {
    let text = |length: usize| vec![vec![b'i'; length]];
    let lists = [
        (vec![], 24),
        (vec![b"imports".to_vec(); 2], 24),
        (text(0), 24),
        (text(1), 0),
        (text(32), 0),
        (text(33), 24),
        (vec![b"a/b".to_vec()], 24),
    ];
    let mut all: Vec<(Vec<u8>, u32)> = lists.into_iter().map(|(texts, number)| (lay_settings(&with_imports(texts)), number)).collect();
    all.push((five_counts(), 24));
    all.into_iter().map(|(settings, number)| Case { settings, stated: Some(number), ..printed().case() }).collect()
}

/// The printed example, the marked ones, RFC 8259's examples as manifests, and the imports field of the settings.
pub fn fixed() -> Vec<Case> {
    let stated = |world: World, number: u32| Case { stated: Some(number), ..world.case() };
    let mut all = vec![stated(printed(), 0)];
    for (exports, files, specifier, number) in EXPORTS {
        all.push(stated(package(format!("{{\"exports\":{exports}}}").as_bytes(), files, specifier), *number));
    }
    for (manifest, files, specifier, end) in REPEATS {
        let world = package(manifest.as_bytes(), files, specifier);
        if let Ok(file) = end {
            assert_eq!(world.walked().end.texts[0], format!("/p/node_modules/m/{file}").into_bytes(), "{manifest}");
        }
        all.push(stated(world, end.err().unwrap_or(0)));
    }
    for example in RFC_EXAMPLES {
        all.push(stated(package(example.as_bytes(), &["index.js"], "m"), 0));
    }
    all.extend(imports_fields());
    all
}
