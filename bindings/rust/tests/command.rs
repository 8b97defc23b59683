//! The command, run on a folder made for it.

use std::fs;
use std::path::{Path, PathBuf};
use std::process::{Command, Output};

fn folder(name: &str) -> PathBuf {
    let folder = std::env::temp_dir().join(format!("hannuvozh-{name}-{}", std::process::id()));
    let package = folder.join("job/p/node_modules/mat");
    fs::create_dir_all(package.join("lib")).unwrap();
    fs::write(package.join("package.json"), r#"{"exports":{"./*":"./lib/*.js"}}"#).unwrap();
    fs::write(package.join("lib/steel.js"), "contents of other files are not listed").unwrap();
    folder
}

fn run(folder: &Path, args: &[&str]) -> Output {
    Command::new(env!("CARGO_BIN_EXE_hannuvozh")).args(args).current_dir(folder).output().unwrap()
}

fn text(output: &Output) -> String {
    String::from_utf8(output.stdout.clone()).unwrap()
}

const PRINTED: &str = "0 /p/node_modules/mat/lib/steel.js\n0 /p/package.json\n0 /package.json\n1 /p\n1 /p/node_modules\n\
                       1 /p/node_modules/mat\n3 /p/node_modules/mat/package.json\n2 /p/node_modules/mat/lib/steel.js\n";

#[test]
fn pack_settings_ask() {
    let folder = folder("ask");
    assert!(run(&folder, &["pack", "job"]).status.success());
    let options = ["settings", "--condition", "import", "--extension", ".js", "--main-field", "main", "--main-file", "index"];
    assert!(run(&folder, &[&options[..], &["--exports-field", "exports"]].concat()).status.success());
    let unsaid = fs::read(folder.join("settings")).unwrap();
    assert!(run(&folder, &[&options[..], &["--exports-field", "exports", "--imports-field", "imports"]].concat()).status.success());
    assert_eq!(fs::read(folder.join("settings")).unwrap(), unsaid);
    let asked = run(&folder, &["ask", "/p", "mat/steel"]);
    assert_eq!(asked.status.code(), Some(0));
    let words = text(&asked);
    assert!(words.starts_with("mat/steel, asked for from /p:\nfound /p/node_modules/mat/lib/steel.js\n7 paths were consulted"), "{words}");
    assert!(words.ends_with(PRINTED), "{words}");
    assert_eq!(fs::read(folder.join("question")).unwrap(), b"/p\nmat/steel");
    assert_eq!(text(&run(&folder, &["--plain", "ask"])), PRINTED);
    fs::remove_dir_all(folder).unwrap();
}

/// Settings that were written before there was an imports field are refused, and the command says why.
#[test]
fn settings_of_five_counts() {
    let folder = folder("five");
    assert!(run(&folder, &["pack", "job"]).status.success());
    fs::write(folder.join("settings"), b"\x01\x01\x01\x01\x01\x06\x03\x04\x05\x07import.jsmainindexexports").unwrap();
    let refused = run(&folder, &["ask", "/p", "mat/steel"]);
    assert_eq!(refused.status.code(), Some(2));
    let words = "refused: the settings are malformed or over a limit; the caller can mend it\n\
                 the settings have five counts, as before there was an imports field; they now have six, the last of which is 1: write them again\n\
                 0 paths were consulted\n24\n";
    assert!(text(&refused).ends_with(words), "{}", text(&refused));
    assert_eq!(text(&run(&folder, &["--plain", "ask"])), "24\n");
    let long = run(&folder, &["resolve", "job", "/p", "mat/steel", "--imports-field", &"i".repeat(33)]);
    assert_eq!(long.status.code(), Some(2));
    assert!(text(&long).contains("a text of the settings for an imports field is empty, over 32 bytes"), "{}", text(&long));
    fs::remove_dir_all(folder).unwrap();
}

#[test]
fn resolve_on_disk() {
    let folder = folder("resolve");
    let found = run(&folder, &["--plain", "resolve", "job", "/p", "mat/steel", "--exports-field", "exports"]);
    assert_eq!((found.status.code(), text(&found).as_str()), (Some(0), PRINTED));
    let missing = run(&folder, &["resolve", "job", "/p", "mat/iron"]);
    assert_eq!(missing.status.code(), Some(1));
    assert!(text(&missing).contains("not found: no file for mat/iron"));
    let refused = run(&folder, &["resolve", "job", "/nowhere", "mat"]);
    assert_eq!(refused.status.code(), Some(2));
    let words = "refused: the start is no directory of the listing; the caller can mend it\n0 paths were consulted\n23\n";
    assert!(text(&refused).contains(words), "{}", text(&refused));
    assert_eq!(run(&folder, &["resolve", "job"]).status.code(), Some(3));
    fs::remove_dir_all(folder).unwrap();
}

#[test]
fn check() {
    let folder = folder("check");
    let package = |name: &str, manifest: &str| {
        let package = folder.join("job/p/node_modules").join(name);
        fs::create_dir_all(&package).unwrap();
        fs::write(package.join("package.json"), manifest).unwrap();
    };
    let checked = run(&folder, &["check", "job"]);
    assert_eq!((checked.status.code(), text(&checked).as_str()), (Some(0), "1 manifests, 0 warnings\n"));
    package("a", r#"{"main":"x", "exports":{"./k":[{"import":1,"\u0069mport":2,"import":{"a":null}}]}, "main" : "y" }"#);
    let checked = run(&folder, &["check", "job"]);
    let warnings = "/p/node_modules/a/package.json: warning: the name \"import\" comes 3 times in exports > ./k > 0; \
                    its last value counts, in the place of the first: {\"a\":null}\n\
                    /p/node_modules/a/package.json: warning: the name \"main\" comes 2 times in the root; \
                    its last value counts, in the place of the first: \"y\"\n";
    assert_eq!((checked.status.code(), text(&checked)), (Some(0), format!("{warnings}2 manifests, 2 warnings\n")));
    package("b", "{");
    package("c", &" ".repeat(16_385));
    package("d", &" ".repeat(100_000));
    let faults = "/p/node_modules/b/package.json: not JSON\n/p/node_modules/c/package.json: over a limit\n\
                  /p/node_modules/d/package.json: over a limit\n";
    let checked = run(&folder, &["check", "job"]);
    assert_eq!((checked.status.code(), text(&checked)), (Some(2), format!("{warnings}{faults}5 manifests, 2 warnings\n")));
    fs::remove_dir_all(folder).unwrap();
}

#[test]
fn limits() {
    let folder = folder("limits");
    let question = ["resolve", "job", "/p", "mat/steel", "--exports-field", "exports"];
    let within = |options: &[&str]| run(&folder, &[options, &question[..]].concat());
    for options in [&["--plain", "--preview"][..], &["--limit", "7", "--plain"], &["--plain", "--limit", "18777"]] {
        let found = within(options);
        assert_eq!((found.status.code(), text(&found).as_str()), (Some(0), PRINTED));
    }
    let stopped = within(&["--limit", "6"]);
    assert_eq!(stopped.status.code(), Some(2));
    let words = "mat/steel, asked for from /p:\nrefused: the lookup needs more consults than its limit allows; the caller can mend it\n\
                 6 paths were consulted\n53\n";
    assert_eq!(text(&stopped), words);
    assert_eq!(text(&within(&["--plain", "--limit", "0"])), "53\n");
    for wrong in [&["--limit", "-1"][..], &["--limit", "many"], &["--limit", "4294967296"]] {
        let refused = within(wrong);
        assert_eq!(refused.status.code(), Some(3));
        assert!(String::from_utf8_lossy(&refused.stderr).starts_with("--limit wants a number up to 4294967295"));
    }
    fs::remove_dir_all(folder).unwrap();
}
