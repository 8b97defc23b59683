//! Cases of names that begin with "#": a manifest with an imports map made around the name, packages that its targets ask for, and a tree
//! that grows where the lookup looks. Case N of a seed is always the same.

use crate::broken;
use crate::cases::{Case, World, example_settings, settings, with_room};
use crate::lent::{CONDITIONS, EXPORTS_FIELDS, EXTENSIONS, IMPORTS_FIELDS, Tree, name_of, parent};
use crate::manifests::{
    Around, PLAIN, SOME_REPEATS, Value, boundary, damaged, folder, object, scalar, style, text, without_repeats, write,
};
use crate::model::Consult;
use crate::rng::Rng;

#[rustfmt::skip]
const NAMES: &[&str] = &[
    "#", "#x", "#x", "#x", "#x/y", "#x/y", "#x/y.js", "#x/y/z", "#x/", "#/", "#/x", "#*", "#x*", "#é", "##", "##x", "#x?q", "#x#f",
    "#x/../y", "#.", "#..", "#x//y", "#lib/x", "#b", "#x/f#g", "#x/é",
];
#[rustfmt::skip]
const KEYS: &[&str] = &[
    "#x", "#*", "#x/*", "#x/", "#/", "#", "#**", "./x", ".", "x", "#*/y", "#x*", "#*y", "#x/y", "default", "",
];
#[rustfmt::skip]
const PACKAGES: &[&str] = &[
    "b", "b", "b", "b", "b", "c", "@s/a", ".", "..", "#x", "#", "node_modules", "é", "@s", "b*", "*", "@s/*",
];
#[rustfmt::skip]
const SUBPATHS: &[&str] = &[
    "", "", "", "/x", "/x", "/x.js", "/lib/x", "/*", "/", "/./x", "/../x", "//x", "/x/", "/lib", "/node_modules/c", "/gone", "/é", "/*.js",
];
#[rustfmt::skip]
const TAILS: &[&str] = &[
    "", "", "", "", "#f", "#f", "#f", "?q", "?q#f", "#g", "#", "#/x", "#f/../x.js", "\0#f", "\0\0#f", "?", "#f?q", "\0\0\0#f", "?\0#f", "#*",
    "#f/../../x", "#f/../../x.js", "#f/",
];
#[rustfmt::skip]
const OTHERS: &[&str] = &[
    "./x.js", "./x.js", "./x", "./*", "./*.js", "./lib/*", "./lib/", "./gone", "./x.js#f", "./x.js?q", "./..", "./..#f", "./..?q",
    "./node_modules/b", "./é\0#f", "", "?q", "../x", "../x#f", "/x", "/", "*", "*/x", "*#f", "b*", "@*", "*\0#f", ".x", "..x", "a:b",
];
/// Files that a package may have.
#[rustfmt::skip]
const FILES: &[&str] = &[
    "x.js", "x", "index.js", "lib/x.js", "lib/index.js", "x#f", "x.js#f", "x#f.js", "lib/x#f", "#f", "x#g", "é", "x/index.js",
    "node_modules/.#f/index.js", "node_modules/.#f/x.js", "node_modules/.#f", "node_modules/.#g.js", "node_modules/.#f.js",
];

/// Case `number` of `seed`.
pub fn case(seed: u64, number: u64) -> Case {
    let rng = &mut Rng::new(seed ^ 0x6861_7368, number);
    let world = match rng.below(100) {
        0..=2 => long(rng),
        3..=7 => many_steps(rng),
        8..=17 => joined(rng),
        _ => grown(rng),
    };
    with_room(&world, rng)
}

/// The scope's directory, with the name asked for from it or from below.
fn scoped(rng: &mut Rng) -> (World, Vec<u8>) {
    let scope = rng.text(&["/", "/p", "/p", "/p", "/p/q", "/node_modules/s", "/p/node_modules"]).to_vec();
    let below = rng.text(&["", "", "", "/src", "/node_modules", "/src/é"]);
    let start = if scope == b"/" && !below.is_empty() { below.to_vec() } else { [&scope[..], below].concat() };
    let mut settings = if rng.chance(50) { example_settings() } else { settings(rng) };
    if rng.chance(80) {
        settings[IMPORTS_FIELDS] = vec![b"imports".to_vec()];
    }
    let specifier = rng.text(NAMES).to_vec();
    let mut world = World { tree: Tree::new(), settings, start: start.clone(), specifier, repeats: SOME_REPEATS };
    world.tree.insert(b"/".to_vec(), None);
    world.add_directory(&scope);
    world.add_directory(&start);
    (world, scope)
}

fn below(directory: &[u8], name: &[u8]) -> Vec<u8> {
    let slash: &[u8] = if directory == b"/" { b"" } else { b"/" };
    [directory, slash, name].concat()
}

fn grown(rng: &mut Rng) -> World {
    let (mut world, scope) = scoped(rng);
    if rng.chance(95) {
        let manifest = scope_manifest(&world, rng);
        world.add(&below(&scope, b"package.json"), Some(manifest));
    }
    packages(&mut world, &scope, rng);
    for _ in 0..rng.below(9) {
        grow(&mut world, rng);
    }
    faulty(&mut world, rng);
    world
}

/// In a few cases a manifest that is read has a fault.
fn faulty(world: &mut World, rng: &mut Rng) {
    if rng.chance(5) {
        let read: Vec<Vec<u8>> = world.walked().list.into_iter().filter(|consult| consult.state == 3).map(|consult| consult.path).collect();
        if !read.is_empty() {
            let path = rng.pick(&read).clone();
            let contents = if rng.chance(30) { broken::limit_manifest(rng) } else { damaged(&package_manifest(world, rng), rng) };
            world.tree.insert(path, Some(contents));
        }
    }
}

/// Some packages, in the scope's node_modules or above.
fn packages(world: &mut World, scope: &[u8], rng: &mut Rng) {
    for name in ["b", "c", "@s/a", "#x", "é"] {
        if !rng.chance(if name == "b" { 85 } else { 25 }) {
            continue;
        }
        let home = if rng.chance(70) { scope } else { b"/" };
        package(world, &below(&below(home, b"node_modules"), name.as_bytes()), rng);
    }
}

fn package(world: &mut World, at: &[u8], rng: &mut Rng) {
    world.add(at, None);
    for _ in 0..rng.below(4) {
        world.add(&below(at, rng.text(FILES)), Some(Vec::new()));
    }
    if rng.chance(50) {
        let manifest = package_manifest(world, rng);
        world.add(&below(at, b"package.json"), Some(manifest));
    }
}

fn grow(world: &mut World, rng: &mut Rng) {
    let list = world.walked().list;
    let absent: Vec<&Consult> = list.iter().filter(|consult| consult.state == 0 && !consult.path.is_empty()).collect();
    let Some(last) = absent.len().checked_sub(1) else { return };
    let at = if rng.chance(60) { last - rng.below(absent.len().min(6)) } else { rng.below(absent.len()) };
    let path = &absent[at].path;
    let directory = match name_of(path) {
        b"package.json" => {
            let manifest = match () {
                () if name_of(parent(path)).starts_with(b".#") => dotted_manifest(world, rng),
                () if name_of(parent(parent(path))) == b"node_modules" || rng.chance(30) => package_manifest(world, rng),
                () => scope_manifest(world, rng),
            };
            world.add(path, Some(manifest));
            return;
        }
        b"node_modules" => 90,
        name if name.starts_with(b".#") => 70,
        name if name.ends_with(b".js") => 10,
        _ => 45,
    };
    let directory = rng.chance(directory);
    world.add(path, if directory { None } else { Some(Vec::new()) });
}

// ---------------------------------------------------------------- manifests

/// A manifest with imports made around the name and, now and then, a name and exports that ".#f" asks for.
fn scope_manifest(world: &World, rng: &mut Rng) -> Vec<u8> {
    let mut members: Vec<(Vec<u8>, Value)> = Vec::new();
    if rng.chance(92) {
        let imports = match rng.below(20) {
            0 => scalar(rng),
            1 => Value::Text(target_text(rng)),
            2 => Value::Array(vec![target(world, rng, 3)]),
            _ => imports(world, rng),
        };
        members.push((world.settings[IMPORTS_FIELDS][0].clone(), imports));
    }
    if rng.chance(30) {
        members.push((b"name".to_vec(), Value::Text(rng.text(&[".#f", ".#f", "b", "c"]).to_vec())));
        if let Some(field) = world.settings[EXPORTS_FIELDS].first() {
            members.push((field.clone(), dotted_exports(rng)));
        }
    }
    rng.shuffle(&mut members);
    let mut value = without_repeats(members);
    let around = Around { settings: &world.settings, specifier: b"b/x", repeats: world.repeats };
    value = around.with_repeats(value, rng);
    let style = style(rng);
    write(&value, style, rng)
}

fn imports(world: &World, rng: &mut Rng) -> Value {
    let count = rng.within(1, 4);
    let mut members: Vec<(Vec<u8>, Value)> = (0..count).map(|_| (key(&world.specifier, rng), target(world, rng, 0))).collect();
    if rng.chance(40) {
        members.insert(0, (world.specifier.clone(), target(world, rng, 0)));
    }
    rng.shuffle(&mut members);
    without_repeats(members)
}

fn key(name: &[u8], rng: &mut Rng) -> Vec<u8> {
    match rng.below(10) {
        0..=2 => name.to_vec(),
        3..=5 => {
            let from = boundary(name, 1, rng);
            let to = boundary(name, from, rng);
            [&name[..from], b"*", &name[to..]].concat()
        }
        6..=7 if name.contains(&b'/') => folder(name, rng),
        _ => rng.text(KEYS).to_vec(),
    }
}

fn target_text(rng: &mut Rng) -> Vec<u8> {
    match rng.below(10) {
        0..=6 => [rng.text(PACKAGES), rng.text(SUBPATHS), rng.text(TAILS)].concat(),
        _ => rng.text(OTHERS).to_vec(),
    }
}

fn target(world: &World, rng: &mut Rng, depth: usize) -> Value {
    let kind = if depth > 3 { rng.below(12) } else { rng.below(20) };
    match kind {
        0..=10 => Value::Text(target_text(rng)),
        11 => scalar(rng),
        12..=16 => {
            let count = if rng.chance(5) { 0 } else { rng.within(1, 5) };
            Value::Array((0..count).map(|_| target(world, rng, depth + 1)).collect())
        }
        _ => {
            let conditions = &world.settings[CONDITIONS];
            let name = |rng: &mut Rng| match rng.below(3) {
                0 if !conditions.is_empty() => rng.pick(conditions).clone(),
                1 => b"default".to_vec(),
                _ => rng.text(&["import", "require", "types", "node", "x"]).to_vec(),
            };
            without_repeats((0..rng.below(4)).map(|_| (name(rng), target(world, rng, depth + 1))).collect())
        }
    }
}

/// A package's manifest: often without exports, so that its files are asked for.
fn package_manifest(world: &World, rng: &mut Rng) -> Vec<u8> {
    match rng.below(10) {
        0..=2 => b"{}".to_vec(),
        3..=4 => {
            let main = text(rng.one(&["x", "lib", "x#f", "", "../c", "gone", "x.js?q"]));
            write(&object(vec![("main", main)]), style(rng), rng)
        }
        _ => {
            let specifier = [rng.text(&["b", "c", "@s/a", "."]), rng.text(SUBPATHS)].concat();
            Around { settings: &world.settings, specifier: &specifier, repeats: world.repeats }.manifest(rng)
        }
    }
}

fn dotted_exports(rng: &mut Rng) -> Value {
    text(rng.one(&["./x.js", "./x.js?q", "./x.js?q#g", "./x.js#g", "./index.js?q", "./gone?q", "./gone", "x?q", "./..?q", "", "?q", "x"]))
}

/// The manifest of a package that a name such as ".#f" asks for.
fn dotted_manifest(world: &World, rng: &mut Rng) -> Vec<u8> {
    let field = world.settings[EXPORTS_FIELDS].first().cloned().unwrap_or_default();
    let manifest = match rng.below(8) {
        0 => return b"{".to_vec(),
        1 => return broken::limit_manifest(rng),
        2 => object(vec![("main", text("x"))]),
        3 => Value::Object(vec![(field, Value::Array(vec![text("x?q"), dotted_exports(rng)]))]),
        4 => Value::Object(vec![(field, Value::Array(vec![]))]),
        _ => Value::Object(vec![(field, dotted_exports(rng))]),
    };
    write(&manifest, style(rng), rng)
}

// ---------------------------------------------------------------- what is seldom reached

/// A package without exports asked for with a fragment, and one of the fragment's name.
fn joined(rng: &mut Rng) -> World {
    let (mut world, scope) = scoped(rng);
    world.specifier = b"#x".to_vec();
    let first = ["gone#f", "../x#f", "b/gone#f", "./..#f", "b#f", "gone", "../x", "b?r", "/x#f"];
    let last = ["b", "b/x", "b/lib/x", "b#f", "b/x#f", "b/", "b/gone", "c", "b/\0\0#f", "b/x\0\0#f"];
    let mut targets: Vec<Value> = (0..rng.below(3)).map(|_| text(rng.one(&first))).collect();
    targets.push(text(rng.one(&last)));
    let imports = if rng.chance(80) { Value::Array(targets) } else { text("b#f") };
    let mut members = vec![(world.settings[IMPORTS_FIELDS][0].clone(), object(vec![("#x", imports)]))];
    if rng.chance(30)
        && let Some(field) = world.settings[EXPORTS_FIELDS].first()
    {
        members.push((b"name".to_vec(), text(".#f")));
        members.push((field.clone(), dotted_exports(rng)));
    }
    let manifest = write(&without_repeats(members), style(rng), rng);
    world.add(&below(&scope, b"package.json"), Some(manifest));
    let modules = below(&scope, b"node_modules");
    let home = below(&modules, b"b");
    world.add(&home, None);
    for file in ["index.js", "x.js", "x#f", "lib/x#f.js", "x.js#f"] {
        if rng.chance(30) {
            world.add(&below(&home, file.as_bytes()), Some(Vec::new()));
        }
    }
    if rng.chance(40) {
        world.add(&below(&home, b"package.json"), Some(b"{}".to_vec()));
    }
    if rng.chance(80) {
        let dotted = if rng.chance(50) { below(&home, b"node_modules/.#f") } else { below(&modules, b".#f") };
        world.add(&dotted, None);
        for file in ["x.js", "index.js"] {
            if rng.chance(40) {
                world.add(&below(&dotted, file.as_bytes()), Some(Vec::new()));
            }
        }
        if rng.chance(85) {
            let manifest = dotted_manifest(&world, rng);
            world.add(&below(&dotted, b"package.json"), Some(manifest));
        }
    }
    for _ in 0..rng.below(4) {
        grow(&mut world, rng);
    }
    world
}

/// So many relative steps that the 65th or the 256th is reached, or nearly.
fn many_steps(rng: &mut Rng) -> World {
    let (mut world, scope) = scoped(rng);
    world.specifier = b"#x".to_vec();
    let count = match rng.below(4) {
        0 => rng.within(60, 66),
        1 => rng.within(64, 130),
        2 => rng.within(250, 260),
        _ => rng.within(300, 325),
    };
    let mut targets: Vec<Value> = (0..count).map(|_| text(rng.one(&["b/n", "b/n", "b/n", "b", "b/n/", "b/n", "b/n#f"]))).collect();
    let last = text(rng.one(&["b/x", "b/x.js", "b", "b/n", "./x.js", "./gone", "b/x#f", "c"]));
    // An array has at most 128 elements.
    while targets.len() > 120 {
        let size = rng.within(50, 110);
        let tail = targets.split_off(size);
        let head = std::mem::replace(&mut targets, vec![]);
        targets.push(Value::Array(head));
        targets.extend(tail);
        if let Some(first) = targets.iter().position(|target| matches!(target, Value::Text(_))) {
            targets.rotate_left(first);
        }
    }
    if rng.chance(80) {
        targets.push(last);
    }
    let imports = object(vec![("#x", Value::Array(targets))]);
    let field = String::from_utf8_lossy(&world.settings[IMPORTS_FIELDS][0]).into_owned();
    let manifest = write(&object(vec![(&field, imports)]), PLAIN, rng);
    world.add(&below(&scope, b"package.json"), Some(manifest));
    let home = below(&below(&scope, b"node_modules"), b"b");
    world.add(&home, None);
    if rng.chance(50) {
        world.add(&below(&home, b"package.json"), Some(b"{}".to_vec()));
    }
    if rng.chance(80) {
        world.add(&below(&home, b"x.js"), Some(Vec::new()));
    }
    world
}

/// Targets and fragments that come near 2,048 bytes, or pass them.
fn long(rng: &mut Rng) -> World {
    let (mut world, _) = scoped(rng);
    let scope = [b"/", &broken::named(rng.within(700, 980), rng)[..]].concat();
    world.start = scope.clone();
    world.add_directory(&scope);
    let stars = rng.within(2, 5);
    world.specifier = [b"#", &broken::named(rng.within(1_600 / stars, 2_100 / stars).min(511), rng)[..]].concat();
    let fragment = "f".repeat(rng.within(900, 1_010));
    let target = match rng.below(5) {
        4 => format!("./{}", "*".repeat(stars)),
        0 => format!("b#{fragment}"),
        1 => format!("b/x#{fragment}"),
        2 => format!("b/{}", "*".repeat(stars)),
        _ => format!("b/{}{}", "./".repeat(rng.within(0, 40)), "*".repeat(stars)),
    };
    let target = if rng.chance(30) { Value::Array(vec![text(&target), text("./x.js")]) } else { text(&target) };
    let field = String::from_utf8_lossy(&world.settings[IMPORTS_FIELDS][0]).into_owned();
    let manifest = write(&object(vec![(&field, object(vec![("#*", target)]))]), PLAIN, rng);
    world.add(&below(&scope, b"package.json"), Some(manifest));
    world.add(&below(&scope, b"node_modules/b"), None);
    world
}

// ---------------------------------------------------------------- fixed examples

/// Imports of /p/package.json, files with their contents, what is asked for from /p, and the printed answer.
type Example = (&'static str, &'static [(&'static str, &'static str)], &'static str, &'static str);

const EXAMPLES: &[Example] = &[
    (r##"{"#x":"./x.js"}"##, &[("/p/x.js", "")], "#x", "0 /p/x.js"),
    (r##"{"#x":"./gone.js"}"##, &[], "#x", "1 #x"),
    (r##"{"#*":"./lib/*.js"}"##, &[("/p/lib/a.js", "")], "#a", "0 /p/lib/a.js"),
    (r##"{"#f/":"./lib/"}"##, &[("/p/lib/a.js", "")], "#f/a.js", "0 /p/lib/a.js"),
    (r##"{"#f/":"./lib"}"##, &[], "#f/a.js", "6 /p/package.json"),
    (r##"{"#f/":"b"}"##, &[], "#f/a.js", "6 /p/package.json"),
    // 50 only where there is an imports map; 51.
    ("{}", &[], "#", "50 # /p/package.json"),
    ("[]", &[], "#", "1 #"),
    ("{}", &[], "#x", "51 #x /p/package.json"),
    (r##"{"#x":null}"##, &[], "#x", "51 #x /p/package.json"),
    (r##"{"#x/":"./"}"##, &[], "#x/", "51 #x/ /p/package.json"),
    // A package with exports and without; its file is asked for twice.
    (
        r##"{"#x":"b/x"}"##,
        &[("/p/node_modules/b/package.json", r#"{"exports":{"./x":"./y.js"}}"#), ("/p/node_modules/b/y.js", "")],
        "#x",
        "0 /p/node_modules/b/y.js",
    ),
    (r##"{"#x":"b/x"}"##, &[("/p/node_modules/b/x.js", "")], "#x", "0 /p/node_modules/b/x.js"),
    (r##"{"#x":"b"}"##, &[("/p/node_modules/b/index.js", "")], "#x", "0 /p/node_modules/b/index.js"),
    (r##"{"#x":"b"}"##, &[("/node_modules/b/index.js", "")], "#x", "0 /node_modules/b/index.js"),
    // NotFound carries the package's name, ".", or "./" and the subpath.
    (r##"{"#x":"b/x"}"##, &[], "#x", "1 b/x"),
    (r##"{"#x":"b/x"}"##, &[("/p/node_modules/b/y", "")], "#x", "1 ./x"),
    (r##"{"#x":"b"}"##, &[("/p/node_modules/b/y", "")], "#x", "1 ."),
    // An array's last NotFound leaves nothing.
    (r##"{"#x":["gone"]}"##, &[], "#x", "51 #x /p/package.json"),
    (r##"{"#x":["gone","./x.js"]}"##, &[("/p/x.js", "")], "#x", "0 /p/x.js"),
    // A second target may not ask again.
    (
        r##"{"#x":"b"}"##,
        &[("/p/node_modules/b/package.json", r#"{"exports":"c"}"#), ("/p/node_modules/c/index.js", "")],
        "#x",
        "3 c . /p/node_modules/b/package.json",
    ),
    // ".", ".." and "#y" are names of packages; "../y" and "/y" are not allowed.
    (r##"{"#x":"."}"##, &[("/p/node_modules/index.js", "")], "#x", "0 /p/node_modules/index.js"),
    (r##"{"#x":".."}"##, &[("/p/index.js", ""), ("/p/node_modules/b", "")], "#x", "0 /p/index.js"),
    (r##"{"#x":"#y","#y":"./y.js"}"##, &[("/p/y.js", "")], "#x", "1 #y"),
    (r##"{"#x":"#y","#y":"./y.js"}"##, &[("/p/node_modules/#y/index.js", "")], "#x", "0 /p/node_modules/#y/index.js"),
    (r##"{"#x":"../y"}"##, &[], "#x", "3 ../y #x /p/package.json"),
    (r##"{"#x":"/y"}"##, &[], "#x", "3 /y #x /p/package.json"),
    // A name that substitution left empty.
    (r##"{"#x*":"*"}"##, &[("/p/node_modules/b/index.js", "")], "#x", "1 "),
    // Fragments: tried as a part of the path, unless there is a query.
    (r##"{"#x":"b/x#f"}"##, &[("/p/node_modules/b/x#f", ""), ("/p/node_modules/b/x.js", "")], "#x", "0 /p/node_modules/b/x#f"),
    (r##"{"#x":"b/x#f"}"##, &[("/p/node_modules/b/x.js", "")], "#x", "0 /p/node_modules/b/x.js#f"),
    (r##"{"#x":"b/x?q#f"}"##, &[("/p/node_modules/b/x#f", ""), ("/p/node_modules/b/x.js", "")], "#x", "0 /p/node_modules/b/x.js?q#f"),
    (r##"{"#x":["gone#f","b/x"]}"##, &[("/p/node_modules/b/x#f", "")], "#x", "0 /p/node_modules/b/x#f"),
    // "." with a fragment is a bare name, sought from the package on; what is dropped leaves its query.
    (
        r##"{"#x":"b#f"}"##,
        &[("/p/node_modules/b/index.js", ""), ("/p/node_modules/.#f/index.js", "")],
        "#x",
        "0 /p/node_modules/.#f/index.js",
    ),
    (
        r##"{"#x":"b#f"}"##,
        &[
            ("/p/node_modules/b/index.js", ""),
            ("/p/node_modules/.#f/package.json", r#"{"exports":"./x.js?q#g"}"#),
            ("/p/node_modules/.#f/x.js", ""),
        ],
        "#x",
        "0 /p/node_modules/.#f/x.js?q#g",
    ),
    (
        r##"{"#x":"b#f"}"##,
        &[("/p/node_modules/b/index.js", ""), ("/p/node_modules/.#f/package.json", r#"{"exports":"./gone?q"}"#)],
        "#x",
        "0 /p/node_modules/b/index.js?q#f",
    ),
    (
        r##"{"#x":"b#f"}"##,
        &[("/p/node_modules/b/index.js", ""), ("/p/node_modules/.#f/package.json", r#"{"exports":"x?q"}"#)],
        "#x",
        "0 /p/node_modules/b/index.js?q#f",
    ),
    (
        r##"{"#x":"b#f"}"##,
        &[("/p/node_modules/b/index.js", ""), ("/p/node_modules/.#f/package.json", "{")],
        "#x",
        "0 /p/node_modules/b/index.js#f",
    ),
    // Targets are parsed twice.
    (r##"{"#x":"b/x\u0000#f"}"##, &[("/p/node_modules/b/x.js", "")], "#x", "0 /p/node_modules/b/x.js#f"),
    (r##"{"#x":"b/x\u0000\u0000#f"}"##, &[("/p/node_modules/b/x#f", "")], "#x", "0 /p/node_modules/b/x#f"),
    (r##"{"#*":"b/*"}"##, &[("/p/node_modules/b/x.js", "")], "#x?q", "0 /p/node_modules/b/x.js?q"),
    (r##"{"#x":[]}"##, &[], "#x", "4 . /p"),
    (r##"{"#x":""}"##, &[], "#x", "2 "),
];

/// So many relative steps in vain, by few consults, and then one that finds a file.
fn steps(count: usize) -> World {
    let mut targets = vec![Value::Array(vec![text("b/n/"); count % 100])];
    targets.extend((0..count / 100).map(|_| Value::Array(vec![text("b/n/"); 100])));
    targets.push(text("b/x.js"));
    let imports = Value::Array(targets);
    let manifest = write(&object(vec![("imports", object(vec![("#x", imports)]))]), PLAIN, &mut Rng::new(0, 0));
    let mut world = world(&manifest, &[("/p/node_modules/b/x.js", ""), ("/p/node_modules/b/package.json", "{}")], "#x");
    world.settings[EXTENSIONS].clear();
    world
}

/// Refusals that nothing drops: a manifest over a limit, met where a fragment is tried as a part of the path, and a target that is too long.
fn refused() -> Vec<(World, u32)> {
    let members = format!("[0{}]", ",0".repeat(128));
    let dotted = [("/p/node_modules/b/index.js", ""), ("/p/node_modules/.#f/package.json", &members)];
    let name = format!("#{}", "y".repeat(500));
    let long = |target: &str| world(format!(r##"{{"imports":{{"#*":["{target}","./x.js"]}}}}"##).as_bytes(), &[("/p/x.js", "")], &name);
    vec![
        (world(br##"{"imports":{"#x":["b#f","./x.js"]}}"##, &dotted, "#x"), 40),
        (long("b/****"), 0),
        (long("b/****y".repeat(2).as_str()), 42),
        (long("b*****"), 42),
        (long("*****"), 42),
    ]
}

fn world(manifest: &[u8], files: &[(&str, &str)], specifier: &str) -> World {
    let (start, specifier) = (b"/p".to_vec(), specifier.as_bytes().to_vec());
    let mut world = World { tree: Tree::new(), settings: example_settings(), start, specifier, repeats: 0 };
    world.tree.insert(b"/".to_vec(), None);
    world.add_directory(b"/p");
    world.add(b"/p/package.json", Some(manifest.to_vec()));
    for (path, contents) in files {
        assert!(world.add(path.as_bytes(), Some(contents.as_bytes().to_vec())), "{path}");
    }
    world
}

pub fn fixed() -> Vec<Case> {
    let mut all = Vec::new();
    for (imports, files, specifier, printed) in EXAMPLES {
        let world = world(format!("{{\"imports\":{imports}}}").as_bytes(), files, specifier);
        let end = world.walked().end;
        let texts = if end.number == 0 { end.texts.concat() } else { end.texts.join(&b' ') };
        let words = format!("{} {}", end.number, String::from_utf8_lossy(&texts));
        assert_eq!(words, *printed, "{imports} {specifier}");
        all.push(Case { stated: Some(end.number), ..world.case() });
    }
    // The 64th step is made, the 65th to the 255th are not, and from the 256th on they are again.
    for (before, number) in [(63, 0), (64, 56), (254, 56), (255, 0), (319, 0), (320, 56)] {
        all.push(Case { stated: Some(number), ..steps(before).case() });
    }
    all.extend(refused().into_iter().map(|(world, number)| Case { stated: Some(number), ..world.case() }));
    all
}
