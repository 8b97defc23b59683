//! A real tree: a folder with node_modules, every dependency name asked for from where it is required.
//!
//! A listing holds at most 1,024 entries, so it is cut for each question: it begins with the start and the directories above it, and
//! grows by the first consulted path that the folder has and the listing had not, until there is none. The cut listing then agrees with
//! the whole folder at every consulted path, and the Rust asked about the whole folder must give the same answer and list.

use crate::cases::{Case, World};
use crate::json::{self, Json};
use crate::lent::{HASH_NAMES, Settings, Tree, name_of, parent};
use crate::{Report, rust};
use std::collections::BTreeMap;
use std::os::unix::ffi::OsStrExt;
use std::path::Path;
use std::{fs, io};

fn whole(folder: &Path, at: &[u8], tree: &mut Tree) -> io::Result<()> {
    for entry in fs::read_dir(folder)? {
        let entry = entry?;
        let path = [at, b"/", entry.file_name().as_bytes()].concat();
        if entry.file_type()?.is_dir() {
            tree.insert(path.clone(), None);
            whole(&entry.path(), &path, tree)?;
        } else if entry.file_type()?.is_file() {
            let manifest = name_of(&path) == b"package.json";
            tree.insert(path, Some(if manifest { fs::read(entry.path())? } else { Vec::new() }));
        }
    }
    Ok(())
}

/// As Node's `require` looks.
fn settings() -> Settings {
    [&["node", "require"][..], &[".js", ".json", ".node"], &["main"], &["index"], &["exports"], &["imports"]]
        .map(|texts| texts.iter().map(|text| text.as_bytes().to_vec()).collect())
}

/// What is asked for of each dependency, as in resolve.mjs.
const SUFFIXES: [&[u8]; 3] = [b"", b"/package.json", b"/missing"];

/// The names that a manifest depends on, and paths in them; and, where they are taken, the names of its imports.
fn dependencies(manifest: &[u8]) -> Vec<Vec<u8>> {
    let Ok(Json::Object(members)) = json::read(manifest) else { return Vec::new() };
    let kinds = [&b"dependencies"[..], b"optionalDependencies", b"peerDependencies"];
    let mut names = Vec::new();
    for member in members.iter().filter(|member| kinds.contains(&&member.name[..])) {
        if let Json::Object(dependencies) = &member.value {
            for suffix in SUFFIXES {
                names.extend(dependencies.iter().map(|dependency| [&dependency.name[..], suffix].concat()));
            }
        }
    }
    for member in members.iter().filter(|member| HASH_NAMES && member.name == b"imports") {
        if let Json::Object(imports) = &member.value {
            names.extend(imports.iter().map(|import| import.name.clone()));
        }
    }
    names
}

/// The world of one question, cut from the whole tree.
fn cut(tree: &Tree, start: &[u8], specifier: &[u8]) -> World {
    let (settings, specifier) = (settings(), specifier.to_vec());
    let mut world = World { tree: Tree::new(), settings, start: start.to_vec(), specifier, repeats: 0 };
    world.tree.insert(b"/".to_vec(), None);
    world.add_directory(start);
    loop {
        let list = world.walked().list;
        let missing = list.into_iter().find(|consult| consult.state == 0 && tree.contains_key(&consult.path));
        let Some(missing) = missing else { return world };
        if !world.add(&missing.path, tree[&missing.path].clone()) {
            return world;
        }
    }
}

/// How Node ends where this answer means the same.
fn as_node(number: u32, texts: &[Vec<u8>]) -> String {
    match number {
        0 => String::from_utf8_lossy(&texts[0]).into_owned(),
        1 => "MODULE_NOT_FOUND".into(),
        2 | 3 => "ERR_INVALID_PACKAGE_TARGET".into(),
        4 => "ERR_PACKAGE_PATH_NOT_EXPORTED".into(),
        5 | 7 => "ERR_INVALID_PACKAGE_CONFIG".into(),
        50 => "ERR_INVALID_MODULE_SPECIFIER".into(),
        51 => "ERR_PACKAGE_IMPORT_NOT_DEFINED".into(),
        _ => format!("answer {number}"),
    }
}

/// Node's answers by start and name, as resolve.mjs prints them.
fn node_answers(file: &str) -> io::Result<BTreeMap<(String, String), String>> {
    let text = fs::read_to_string(file)?;
    let rows = text.lines().filter_map(|line| {
        let mut cells = line.split('\t').map(str::to_string);
        Some(((cells.next()?, cells.next()?), cells.next()?))
    });
    Ok(rows.collect())
}

fn ask(report: &mut Report, tree: &Tree, start: &[u8], name: &[u8]) -> Option<String> {
    let world = cut(tree, start, name);
    let case: Case = world.case();
    report.ask(&format!("{} from {}", name.escape_ascii(), start.escape_ascii()), &case);
    let walked = world.walked();
    if rust::AT_HAND {
        let (end, list) = rust::ask(tree, &settings(), start, name).ok()?;
        if end != walked.end || list.len() != walked.list.len() {
            report.fault("real", &case, "the whole folder gives another answer than the cut listing");
        }
    }
    Some(as_node(walked.end.number, &walked.end.texts))
}

pub fn run(folder: &str, node: Option<&str>) -> bool {
    let mut tree = Tree::from([(b"/".to_vec(), None)]);
    let known = node.map_or(Ok(BTreeMap::new()), node_answers);
    let (Ok(()), Ok(known)) = (whole(Path::new(folder), b"", &mut tree), known) else {
        println!("the folder or Node's answers can't be read");
        return false;
    };
    let manifests: Vec<(&Vec<u8>, &Vec<u8>)> = tree
        .iter()
        .filter(|entry| name_of(entry.0) == b"package.json")
        .filter_map(|(path, contents)| Some((path, contents.as_ref()?)))
        .collect();
    let mut report = Report::new();
    let (mut questions, mut same, mut asked_node) = (0, 0, 0);
    for (path, manifest) in &manifests {
        let start = parent(path);
        for name in dependencies(manifest) {
            questions += 1;
            let Some(answer) = ask(&mut report, &tree, start, &name) else { continue };
            let text = |bytes: &[u8]| String::from_utf8_lossy(bytes).into_owned();
            if let Some(node) = known.get(&(text(start), text(&name))) {
                asked_node += 1;
                same += u64::from(*node == answer);
                if *node != answer {
                    println!("Node differs: {} from {}: {answer} here, {node} there", text(&name), text(start));
                }
            }
        }
    }
    println!("{} entries, {} manifests, {questions} questions, {} distinct", tree.len(), manifests.len(), report.distinct.len());
    println!("by number: {:?}; {} faults; {same} of {asked_node} as Node resolves them", report.numbers, report.faults);
    report.faults == 0
}
