//! The trees and questions that are timed; the same in every run.

use crate::lent::{Settings, Tree};

pub struct Job {
    pub name: String,
    pub tree: Tree,
    pub settings: Settings,
    /// Start and specifier.
    pub questions: Vec<(String, String)>,
}

fn settings(texts: [&[&str]; 6]) -> Settings {
    texts.map(|texts| texts.iter().map(|text| text.as_bytes().to_vec()).collect())
}

fn add(tree: &mut Tree, path: &str, contents: Option<String>) {
    for (at, _) in path.match_indices('/') {
        tree.entry(path[..at.max(1)].as_bytes().to_vec()).or_insert(None);
    }
    tree.insert(path.as_bytes().to_vec(), contents.map(String::into_bytes));
}

fn file(tree: &mut Tree, path: &str) {
    add(tree, path, Some(String::new()));
}

/// Document 01's printed example.
pub fn printed() -> Job {
    let mut tree = Tree::new();
    file(&mut tree, "/p/node_modules/mat/lib/steel.js");
    add(&mut tree, "/p/node_modules/mat/package.json", Some(r#"{"exports":{"./*":"./lib/*.js"}}"#.into()));
    let settings = settings([&["import"], &[".js"], &["main"], &["index"], &["exports"], &["imports"]]);
    Job { name: "printed example".into(), tree, settings, questions: vec![("/p".into(), "mat/steel".into())] }
}

/// A target 16 brackets deep, the deepest that a manifest may have: what is put around it by turns, from the inside.
pub fn nested(name: &str, around: [(&str, &str); 2]) -> Job {
    let mut target = r#""./x.js""#.to_string();
    for level in 0..14 {
        let (open, close) = around[level % 2];
        target = format!("{open}{target}{close}");
    }
    let mut tree = Tree::new();
    file(&mut tree, "/p/node_modules/mat/x.js");
    add(&mut tree, "/p/node_modules/mat/package.json", Some(format!(r#"{{"exports":{{".":{target}}}}}"#)));
    Job { name: name.into(), tree, questions: vec![("/p".into(), "mat".into())], ..printed() }
}

// ---------------------------------------------------------------- manifests of 16 KiB

/// Package mat with this manifest, asked for with this name; eight conditions, which with "default" make nine.
fn with_manifest(name: &str, manifest: String, specifier: &str) -> Job {
    assert!(manifest.len() <= 16_384, "{name}: {} bytes", manifest.len());
    let mut tree = Tree::new();
    file(&mut tree, "/p/node_modules/mat/x.js");
    add(&mut tree, "/p/node_modules/mat/package.json", Some(manifest));
    let settings =
        settings([&["c1", "c2", "c3", "c4", "c5", "c6", "c7", "c8"], &[".js"], &["main"], &["index"], &["exports"], &["imports"]]);
    Job { name: name.into(), tree, settings, questions: vec![("/p".into(), specifier.into())] }
}

/// The manifest filled up to 16 KiB in the place of "FILL", by members with texts of 1,000 bytes.
fn filled(manifest: String) -> String {
    let mut fill = String::new();
    for i in 0.. {
        let left = 16_384 - (manifest.len() - 4) - fill.len();
        if left < 20 {
            break;
        }
        let comma = if i > 0 { "," } else { "" };
        fill += &format!("{comma}\"x{i}\":\"{}\"", "a".repeat((left - 12).min(1_000)));
    }
    manifest.replacen("FILL", &fill, 1)
}

/// A manifest as packages have them, of 16 KiB.
pub fn plain() -> Job {
    let parts: String =
        (0..90).map(|i| format!("    \"./part{i}\": {{ \"c1\": \"./x.js\", \"c2\": \"./dist/part{i}.cjs\" }},\n")).collect();
    let head = "  \"name\": \"mat\",\n  \"version\": \"4.17.21\",\n  \"description\": \"A library of parts.\",\n";
    let mut manifest = format!("{{\n{head}  \"exports\": {{\n{parts}    \".\": \"./x.js\"\n  }}");
    for group in 0.. {
        if manifest.len() > 15_000 {
            break;
        }
        let packages: String = (0..60).map(|i| format!(",\n    \"package-{i}\": \"^{}.{}.0\"", i % 7, i % 11)).collect();
        manifest += &format!(",\n  \"dependencies{group}\": {{\n    \"first\": 10.25{packages}\n  }}");
    }
    let blank = " ".repeat(16_384 - 2 - manifest.len());
    with_manifest("plain", format!("{manifest}{blank}\n}}"), "mat/part45")
}

/// The manifests that cost a lookup most where names come more than once, or conditions are nested.
pub fn worst() -> Vec<Job> {
    let around = |levels: usize, open: &str, inside: &str, close: &str| {
        (0..levels).fold(inside.to_string(), |value, _| format!("{open}{value}{close}"))
    };
    let exports = |value: String| format!("{{\"exports\":{value}}}");
    let defaults = "\"default\":0,".repeat(127);
    let others: String = (2..9).map(|i| format!(",\"c{i}\":0")).collect();
    let key = |last: &str| format!("\"./{}*\":{last}", "\\u0061".repeat(18));
    let keys = format!("{{{}{}}}", [key("0"), ",".into()].concat().repeat(127), key("\"./x.js\""));
    vec![
        with_manifest(
            "128 members default in each of ten levels",
            exports(around(10, &format!("{{{defaults}\"default\":"), "\"./x.js\"", "}")),
            "mat",
        ),
        with_manifest(
            "a condition before 127 members default, in each of ten levels",
            exports(around(10, "{\"c1\":", "0", &format!(",{}\"default\":0}}", &defaults[..12 * 126]))),
            "mat",
        ),
        with_manifest(
            "nine conditions in each of 14 levels around a long value",
            filled(exports(around(14, "{\"c1\":", "{FILL}", &format!("{others},\"default\":0}}")))),
            "mat",
        ),
        with_manifest(
            "the same, the long value last",
            filled(exports(around(14, &format!("{{\"default\":0{others},\"c1\":"), "{FILL}", "}"))),
            "mat",
        ),
        with_manifest(
            "a long value before 126 members default",
            filled(exports(format!("{{\"x\":{{FILL}},{}\"default\":\"./x.js\"}}", &defaults[..12 * 125]))),
            "mat",
        ),
        with_manifest(
            "128 exports fields",
            format!("{{{}\"exports\":\"./x.js\"}}", format!("\"exports\":\"{}\",", "a".repeat(110)).repeat(127)),
            "mat",
        ),
        with_manifest("128 times one star key, escaped", exports(keys), &format!("mat/{}b", "a".repeat(18))),
    ]
}

// ---------------------------------------------------------------- a job as designers bring them

#[rustfmt::skip]
const PACKAGES: [&str; 60] = [
    "element-beam", "element-shell", "element-solid", "element-truss", "element-spring", "element-contact", "mesh-core",
    "mesh-quality", "mesh-refine", "mesh-import", "solver-direct", "solver-iterative", "solver-modal", "solver-implicit",
    "solver-explicit", "post-stress", "post-plot", "post-report", "units", "tensor", "sparse", "dense", "ordering", "partition",
    "quadrature", "shape-functions", "load-cases", "constraints", "materials-base", "fatigue", "@materials/steel",
    "@materials/aluminium", "@materials/titanium", "@materials/rubber", "@materials/composite", "@materials/concrete",
    "@materials/wood", "@materials/plastic", "@vendor/licence", "@vendor/telemetry", "@vendor/preprocess", "@vendor/viewer",
    "@vendor/cad-import", "@vendor/step", "@vendor/iges", "logger", "config", "csv", "table", "queue", "semver", "glob", "colour",
    "text-wrap", "argument", "cache", "retry", "deep-equal", "uuid", "clock",
];

/// The ways into a package: exports with conditions, exports with a star, a main field, or none but index.js.
const WAYS: [&str; 4] = [
    r#"  "main": "./index.js",
  "exports": {
    ".": { "import": "./index.mjs", "require": "./index.js" },
    "./package.json": "./package.json"
  },
"#,
    r#"  "exports": {
    ".": { "node": { "import": "./index.mjs", "default": "./index.js" }, "default": "./index.js" },
    "./*": "./lib/*.js",
    "./lib/*": null
  },
"#,
    r#"  "main": "lib/main",
  "files": ["lib"],
"#,
    r#"  "keywords": ["fe", "job"],
"#,
];

fn manifest(i: usize, name: &str) -> String {
    let head = format!("{{\n  \"name\": \"{name}\",\n  \"version\": \"{}.{}.0\",\n  \"license\": \"MIT\",\n", i % 7, i % 11);
    let (one, other) = (PACKAGES[(i * 7 + 3) % 60], PACKAGES[(i * 11 + 5) % 60]);
    let dependencies = format!("  \"dependencies\": {{ \"{one}\": \"^1.0.0\", \"{other}\": \"~2.1.0\" }}\n}}\n");
    [&head, WAYS[i % 4], &dependencies].concat()
}

/// 300 entries and 60 packages: 48 in the project's node_modules, 12 nested in others; and 100 questions.
pub fn realistic() -> Job {
    let mut tree = Tree::new();
    add(&mut tree, "/job/package.json", Some("{ \"name\": \"bracket\", \"private\": true }".into()));
    for name in ["run.js", "model/bracket.js", "model/loads.js", "post/report.js"] {
        file(&mut tree, &format!("/job/src/{name}"));
    }
    let home = |i: usize| match i {
        0..48 => format!("/job/node_modules/{}", PACKAGES[i]),
        _ => format!("/job/node_modules/{}/node_modules/{}", PACKAGES[(i - 48) * 2], PACKAGES[i]),
    };
    for (i, name) in PACKAGES.iter().enumerate() {
        add(&mut tree, &format!("{}/package.json", home(i)), Some(manifest(i, name)));
        let main = if i % 4 == 2 { "lib/main.js" } else { "index.js" };
        file(&mut tree, &format!("{}/{main}", home(i)));
        if i % 4 == 1 {
            file(&mut tree, &format!("{}/lib/core.js", home(i)));
        }
    }
    for i in 0.. {
        if tree.len() >= 300 {
            break;
        }
        file(&mut tree, &format!("/job/src/model/part{i:02}.js"));
    }
    let settings = settings([&["node", "require"], &[".js", ".json", ".node"], &["main"], &["index"], &["exports"], &["imports"]]);
    Job { name: "realistic tree".into(), tree, settings, questions: questions(home) }
}

/// From the sources, for each package; from packages, for what they depend on; and some names that lead nowhere.
fn questions(home: impl Fn(usize) -> String) -> Vec<(String, String)> {
    let mut all = Vec::new();
    for (i, name) in PACKAGES.iter().enumerate().take(48) {
        let start = ["/job/src", "/job/src/model", "/job/src/post"][i % 3];
        all.push((start.to_string(), if i % 4 == 1 && i % 8 == 1 { format!("{name}/core") } else { (*name).to_string() }));
    }
    for i in 0..42 {
        let from = (i * 5) % 60;
        all.push((home(from), PACKAGES[(from * 7 + 3) % 48].to_string()));
    }
    for i in 0..5 {
        all.push(("/job/src/model".into(), format!("missing-{i}")));
        all.push(("/job/src".into(), format!("{}/gone/{i}", PACKAGES[i * 3 + 2])));
    }
    all
}

// ---------------------------------------------------------------- trees by size

/// A tree of so many entries, in packages of four, and up to twenty questions spread over them.
pub fn sized(entries: usize) -> Job {
    let mut tree = Tree::new();
    add(&mut tree, "/p/node_modules", None);
    let mut packages = 0;
    while tree.len() + 4 <= entries {
        let home = format!("/p/node_modules/k{packages:03}");
        add(&mut tree, &format!("{home}/package.json"), Some(r#"{"exports":{"./*":"./*.js"}}"#.into()));
        file(&mut tree, &format!("{home}/index.js"));
        file(&mut tree, &format!("{home}/x.js"));
        packages += 1;
    }
    for i in 0.. {
        if tree.len() >= entries {
            break;
        }
        file(&mut tree, &format!("/p/z{i}"));
    }
    let asked = packages.min(20);
    let questions = (0..asked).map(|i| ("/p".to_string(), format!("k{:03}/x", i * packages / asked))).collect();
    let settings = settings([&["import"], &[".js"], &["main"], &["index"], &["exports"], &["imports"]]);
    Job { name: format!("{entries} entries"), tree, settings, questions }
}

// ---------------------------------------------------------------- the longest list

/// The longest list that was found for a start of this depth: a name that climbs out of its package, so that the walk is made twice,
/// and in every directory of the climb a directory that it leads to, whose four main fields lead nowhere.
pub fn longest(depth: usize) -> Job {
    let mut tree = Tree::new();
    add(&mut tree, &"/a".repeat(depth), None);
    let mains = r#"{"m1":"x1","m2":"x2","m3":"x3","m4":"x4"}"#;
    for k in 0..=depth.min(31) {
        let directory = "/a".repeat(k);
        add(&mut tree, &format!("{directory}/node_modules"), None);
        add(&mut tree, &format!("{directory}/y"), None);
        if k <= 30 {
            add(&mut tree, &format!("{directory}/node_modules/x-.."), None);
            add(&mut tree, &format!("{directory}/y/package.json"), Some(mains.into()));
        }
    }
    let extensions = [".1", ".2", ".3", ".4", ".5", ".6", ".7", ".8"];
    let settings = settings([&[], &extensions, &["m1", "m2", "m3", "m4"], &["f1", "f2", "f3", "f4"], &["exports"], &["imports"]]);
    Job { name: "longest list".into(), tree, settings, questions: vec![("/a".repeat(depth), "x-../../../y".into())] }
}
