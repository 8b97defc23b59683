//! The dumps and examples of docs/GUIDE.md, run.

use hannuvozh::{Listing, Settings, lookup};

const GUIDE: &str = include_str!("../../../docs/GUIDE.md");

fn example() -> Listing {
    let mut listing = Listing::new();
    listing.file("/p/node_modules/mat/lib/steel.js").manifest("/p/node_modules/mat", r#"{"exports":{"./*":"./lib/*.js"}}"#);
    listing
}

/// The bytes of the dump with this name: on each line, the hexadecimal pairs before the words.
fn dump(name: &str) -> Vec<u8> {
    let after = GUIDE.split(&format!("```{name}\n")).nth(1).expect("a dump of this name");
    let lines = after.split("\n```").next().unwrap().lines();
    let bytes =
        |line: &str| line.split_whitespace().map_while(|pair| (pair.len() == 2).then(|| u8::from_str_radix(pair, 16).ok())?).collect();
    lines.flat_map(|line| -> Vec<u8> { bytes(line.get(..52).unwrap_or(line)) }).collect()
}

#[test]
fn listing_and_settings() {
    assert_eq!(dump("tree"), example().to_bytes());
    assert_eq!(dump("settings"), Settings::example().to_bytes());
}

#[test]
fn list_numbers() {
    let looked = lookup(&example().to_bytes(), &Settings::example().to_bytes(), "/p", "mat/steel").unwrap();
    let paths = looked.consults().map(|consult| consult.path.len());
    let states = looked.consults().map(|consult| consult.state.number() as usize);
    let numbers = [looked.consults().len(), paths.clone().sum()].into_iter().chain(paths).chain(states);
    let bytes: Vec<u8> = numbers.flat_map(|n| u32::try_from(n).unwrap().to_le_bytes()).collect();
    assert_eq!(dump("numbers"), bytes);
}

/// The rows of the table under a heading, cell by cell, without the table's head.
fn rows(heading: &str) -> Vec<Vec<&'static str>> {
    let section = GUIDE.split(&format!("\n## {heading}\n")).nth(1).unwrap().split("\n## ").next().unwrap();
    let rows = section.lines().filter(|line| line.starts_with('|'));
    let cells = |row: &'static str| row.trim_matches('|').split('|').map(|cell| cell.trim().trim_matches('`')).collect();
    rows.skip(2).map(cells).collect()
}

/// What is printed for package m in `/p/node_modules` with this manifest and these files, asked for from /p.
fn asked(manifest: &str, files: &str, specifier: &str) -> String {
    let mut listing = Listing::new();
    listing.manifest("/p/node_modules/m", manifest);
    for file in files.split(", ").filter(|file| !file.is_empty()) {
        listing.file(format!("/p/node_modules/m/{file}"));
    }
    let looked = lookup(&listing.to_bytes(), &Settings::example().to_bytes(), "/p", specifier).unwrap();
    looked.answer().printed().replace(" /p/node_modules/m/", " m/")
}

#[test]
fn an_example_of_each_answer() {
    let mut seen = Vec::new();
    for row in rows("Answers") {
        let &[_, manifest, files, specifier, printed] = &row[..] else { panic!("a row of five cells: {row:?}") };
        assert_eq!(asked(manifest, files, specifier), printed, "{row:?}");
        seen.push(printed.as_bytes()[0]);
    }
    seen.dedup();
    assert_eq!(seen, b"01234567");
}

#[test]
fn repeated_names() {
    let rows = rows("Repeated names");
    for row in &rows {
        let &[manifest, files, specifier, printed] = &row[..] else { panic!("a row of four cells: {row:?}") };
        assert_eq!(asked(manifest, files, specifier), printed, "{row:?}");
    }
    assert_eq!(rows.len(), 5);
}

#[test]
fn which_export_applies() {
    let rows = rows("Which export applies");
    for row in &rows {
        let &[_, exports, files, specifier, key, printed] = &row[..] else { panic!("a row of six cells: {row:?}") };
        assert_eq!(asked(&format!("{{\"exports\":{exports}}}"), files, specifier), printed, "{row:?}");
        assert!(key == "none" || exports.contains(&format!("\"{key}\"")), "{row:?}");
    }
    let steps: Vec<&str> = rows.iter().map(|row| &row[0][..1]).collect();
    assert_eq!(steps, ["1", "2", "2", "3", "4", "5", "5"]);
}
