//! A folder on disk, listed whole and listed for one question: both must give the same answer and list.

use hannuvozh::{Listing, Options, Refusal, Settings, lookup, lookup_with, resolve, resolve_with};
use std::fs;
use std::path::{Path, PathBuf};

const FILES: &[(&str, &str)] = &[
    ("package.json", r#"{"name":"job","exports":{"./*":"./src/*.js"}}"#),
    ("src/run.js", ""),
    ("src/node_modules/a/package.json", r#"{"main":"lib"}"#),
    ("src/node_modules/a/lib/index.js", ""),
    ("node_modules/a/index.js", ""),
    ("node_modules/b/package.json", r#"{"exports":{".":{"node":"./x"},"./f/":"./g"}}"#),
    ("node_modules/b/x.json", ""),
    ("node_modules/c/package.json", "{"),
    ("node_modules/@s/d/index.node", ""),
    ("node_modules/e.js", ""),
    ("node_modules/f/package.json", r#"{"a":1,"a":2}"#),
    ("y/index.js", ""),
];

fn folder() -> PathBuf {
    let folder = std::env::temp_dir().join(format!("hannuvozh-disk-{}", std::process::id()));
    for (path, contents) in FILES {
        let path = folder.join(path);
        fs::create_dir_all(path.parent().unwrap()).unwrap();
        fs::write(path, contents).unwrap();
    }
    std::os::unix::fs::symlink("a", folder.join("node_modules/link")).unwrap();
    folder
}

fn same(folder: &Path, whole: &[u8], start: &str, specifier: &str) -> Option<u32> {
    let settings = Settings::require();
    let packed = resolve(folder, &settings, start, specifier).unwrap();
    assert_eq!(packed.outcome, lookup(whole, &settings.to_bytes(), start, specifier), "{specifier} from {start}");
    assert!(packed.listing.to_bytes().len() <= whole.len());
    for limit in [0, 5, 8] {
        let options = Options::new().limit(limit);
        let packed = resolve_with(options, folder, &settings, start, specifier).unwrap();
        assert_eq!(packed.outcome, lookup_with(options, whole, &settings.to_bytes(), start, specifier), "{limit} for {specifier}");
    }
    packed.outcome.ok().map(|looked| looked.answer().number())
}

#[test]
fn whole_and_cut_listings_agree() {
    let folder = folder();
    let whole = Listing::from_folder(&folder, "/").unwrap().to_bytes();
    let names = [
        "a",
        "a/lib",
        "b",
        "b/f/x",
        "b/y",
        "c",
        "@s/d",
        "@s/none",
        "e",
        "f",
        "link",
        "job/run",
        "job",
        "none",
        "x-../../../y",
        "a/../b",
        "./a",
    ];
    let mut seen = Vec::new();
    for start in ["/", "/src", "/src/node_modules/a", "/node_modules", "/none"] {
        seen.extend(names.iter().map(|name| same(&folder, &whole, start, name)));
    }
    fs::remove_dir_all(&folder).unwrap();
    for number in [Some(0), Some(1), Some(4), Some(6), Some(7), None] {
        assert!(seen.contains(&number), "{number:?}");
    }
}

#[test]
fn a_folder_that_is_not_there() {
    assert!(resolve("/no/such/folder", &Settings::require(), "/", "a").is_err());
    assert!(Listing::from_folder("/no/such/folder", "/").is_err());
    let refused = lookup(&Listing::new().to_bytes(), &Settings::require().to_bytes(), "/none", "a");
    assert_eq!(refused.map_err(|refused| refused.refusal()), Err(Refusal::Start));
}
