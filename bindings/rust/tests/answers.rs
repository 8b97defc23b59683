//! A question for each answer and each refusal that a caller of this crate can meet.

use hannuvozh::{Answer, Buffers, Listing, Lookup, Options, Refusal, Refused, Settings, SettingsFault, State, lookup, lookup_with};

/// Package m in `/p/node_modules` with this manifest and these files.
fn ask(manifest: &str, files: &[&str], specifier: &str) -> Result<Lookup, Refused> {
    ask_within(Options::new(), manifest, files, specifier)
}

fn ask_within(options: Options, manifest: &str, files: &[&str], specifier: &str) -> Result<Lookup, Refused> {
    let mut listing = Listing::new();
    listing.manifest("/p/node_modules/m", manifest);
    for file in files {
        listing.file(format!("/p/node_modules/m/{file}"));
    }
    lookup_with(options, &listing.to_bytes(), &Settings::example().to_bytes(), "/p", specifier)
}

/// Why a question is refused, and how many consults were made by then.
fn refused(outcome: Result<Lookup, Refused>) -> (Refusal, u32) {
    let refused = outcome.unwrap_err();
    (refused.refusal(), refused.consults())
}

fn answer(manifest: &str, files: &[&str], specifier: &str) -> Answer {
    ask(manifest, files, specifier).unwrap().answer().clone()
}

#[test]
fn printed_example() {
    let mut listing = Listing::new();
    listing.file("/p/node_modules/mat/lib/steel.js").manifest("/p/node_modules/mat", r#"{"exports":{"./*":"./lib/*.js"}}"#);
    let looked = lookup(&listing.to_bytes(), &Settings::example().to_bytes(), "/p", "mat/steel").unwrap();
    let lines = "0 /p/node_modules/mat/lib/steel.js\n0 /p/package.json\n0 /package.json\n1 /p\n1 /p/node_modules\n\
                 1 /p/node_modules/mat\n3 /p/node_modules/mat/package.json\n2 /p/node_modules/mat/lib/steel.js\n";
    assert_eq!(looked.printed(), lines);
    assert_eq!(looked.consults().map(|consult| consult.state).nth(5), Some(State::ManifestRead));
}

#[test]
fn every_answer() {
    let manifest = "/p/node_modules/m/package.json".to_string();
    let found = answer(r#"{"exports":"./x.js?q#f"}"#, &["x.js"], "m");
    assert_eq!(found, Answer::Found { path: "/p/node_modules/m/x.js".into(), query: "?q".into(), fragment: "#f".into() });
    assert_eq!(answer("{}", &[], "m/y"), Answer::NotFound { specifier: "m/y".into() });
    assert_eq!(answer(r#"{"exports":"?q"}"#, &[], "m"), Answer::Empty { target: "?q".into() });
    let invalid = Answer::InvalidPackageTarget { target: "./../b".into(), key: "./*".into(), manifest: manifest.clone() };
    assert_eq!(answer(r#"{"exports":{"./*":"./*"}}"#, &[], "m/../b"), invalid);
    let unexported = Answer::PackagePathNotExported { subpath: "./y".into(), package: "/p/node_modules/m".into() };
    assert_eq!(answer(r#"{"exports":"./x.js"}"#, &[], "m/y"), unexported);
    assert_eq!(answer(r#"{"exports":{".":"./a","b":"./b"}}"#, &[], "m"), Answer::InvalidPackageConfig { manifest: manifest.clone() });
    let folder = Answer::InvalidPackageConfigDirectory { manifest: manifest.clone() };
    assert_eq!(answer(r#"{"exports":{"./f/":"./g"}}"#, &[], "m/f/x"), folder);
    assert_eq!(answer("{", &[], "m"), Answer::Json { manifest });
}

#[test]
fn numbers_and_printed_forms_agree() {
    for (manifest, number) in [("{}", "1 m"), (r#"{"exports":""}"#, "2 "), (r#"{"exports":null}"#, "4 . /p/node_modules/m")] {
        let answer = answer(manifest, &[], "m");
        assert_eq!(answer.printed(), number);
        assert!(number.starts_with(&answer.number().to_string()));
    }
}

#[test]
fn refusals() {
    let (listing, settings) = (Listing::new().directory("/p").to_bytes(), Settings::example().to_bytes());
    assert_eq!(refused(lookup(&listing, &settings, "/p", "../a")), (Refusal::Specifier, 0));
    assert_eq!(refused(lookup(&listing, &settings, "/q", "a")), (Refusal::Start, 0));
    assert_eq!(refused(lookup(&listing, b"", "/p", "a")), (Refusal::Settings, 0));
    assert_eq!(refused(lookup(b"", &settings, "/p", "a")), (Refusal::ListingSizes, 0));
    assert_eq!(refused(lookup(&Listing::new().file("/.").to_bytes(), &settings, "/", "a")), (Refusal::ListingPaths, 0));
    let manifest = Listing::new().directory("/package.json").to_bytes();
    assert_eq!(refused(lookup(&manifest, &settings, "/", "a")), (Refusal::ManifestDirectory, 0));
    assert_eq!(refused(ask(&" ".repeat(16_385), &[], "m")), (Refusal::ManifestLimit, 6));
    let long = format!("m/{}", "x".repeat(500));
    assert_eq!(refused(ask(r#"{"exports":{"./*":"./*****"}}"#, &[], &long)), (Refusal::PathTooLong, 6));
}

/// The last value of a name counts, in the place of its first member, in every object; escapes are taken into account.
#[test]
fn repeated_names() {
    let files = ["x.js", "y.js", "z.js"];
    let rows = [
        (r#"{"main":"x","main":"y"}"#, "m", "y.js"),
        (r#"{"main":"x","m\u0061in":"y"}"#, "m", "y.js"),
        (r#"{"exports":"./x.js","main":"z","exports":"./y.js"}"#, "m", "y.js"),
        (r#"{"exports":{"./a":"./x.js","./*":"./z.js","./a":"./y.js"}}"#, "m/a", "y.js"),
        (r#"{"exports":{"./*":"./x.js","./b*":null,"./\u002a":"./y.js"}}"#, "m/a", "y.js"),
        (r#"{"exports":{"import":"./x.js","default":"./z.js","import":"./y.js"}}"#, "m", "y.js"),
        (r#"{"exports":{"default":"./x.js","import":"./z.js","default":"./y.js"}}"#, "m", "y.js"),
        (r#"{"exports":{"default":"./x.js","import":"./y.js","default":null}}"#, "m", "y.js"),
        (r#"{"exports":{".":[{"import":{"default":"./x.js","default":"./y.js"}}]}}"#, "m", "y.js"),
        (r#"{"exports":{"import":"./y.js","0":"./z.js","0":"./x.js"}}"#, "m", "y.js"),
    ];
    for (manifest, specifier, file) in rows {
        let found = Answer::Found { path: format!("/p/node_modules/m/{file}"), query: String::new(), fragment: String::new() };
        assert_eq!(answer(manifest, &files, specifier), found, "{manifest}");
    }
    let many = |count: usize| format!("{{{}\"main\":\"y\"}}", "\"main\":\"x\",".repeat(count - 1));
    assert_eq!(answer(&many(128), &files, "m").number(), 0);
    assert_eq!(refused(ask(&many(129), &files, "m")), (Refusal::ManifestLimit, 6));
}

/// Every limit below what a lookup needs stops it; every other leaves answer and list as they are.
#[test]
fn limits() {
    let manifest = r#"{"exports":{"./*":"./lib/*.js"}}"#;
    let whole = ask(manifest, &["lib/steel.js"], "m/steel").unwrap();
    assert_eq!(whole.consults().len(), 7);
    for limit in (0..20).chain([Options::PREVIEW, Options::GATEWAY, u32::MAX]) {
        let outcome = ask_within(Options::new().limit(limit), manifest, &["lib/steel.js"], "m/steel");
        if limit < 7 {
            assert_eq!(refused(outcome), (Refusal::TooManyConsults, limit));
        } else {
            assert_eq!(outcome.unwrap(), whole);
        }
    }
    assert_eq!((Refusal::TooManyConsults.number(), Refusal::TooManyConsults.cause()), (53, "the caller"));
}

#[test]
fn settings_over_their_limits_are_refused_however_far() {
    let listing = Listing::new().to_bytes();
    let mut many = Settings::new();
    for _ in 0..300 {
        many = many.condition("a");
    }
    assert_eq!(refused(lookup(&listing, &many.to_bytes(), "/", "a")), (Refusal::Settings, 0));
    let long = Settings::new().main_file(&"a".repeat(300));
    assert_eq!(refused(lookup(&listing, &long.to_bytes(), "/", "a")), (Refusal::Settings, 0));
}

/// The fault that `from_bytes` names, where the lookup refuses the settings, and nowhere else.
fn settings_fault(settings: &[u8]) -> Option<SettingsFault> {
    let outcome = lookup(&Listing::new().to_bytes(), settings, "/", "a");
    let fault = Settings::from_bytes(settings).err();
    let is_refused = outcome.is_err_and(|refused| refused.refusal() == Refusal::Settings);
    assert_eq!(fault.is_some(), is_refused, "{settings:?}");
    fault
}

#[test]
fn one_imports_field() {
    let example = Settings::example().to_bytes();
    assert_eq!(&example[..12], [1, 1, 1, 1, 1, 1, 6, 3, 4, 5, 7, 7]);
    assert_eq!(settings_fault(&example), None);
    let five = [&example[..5], &example[6..11], b"import.jsmainindexexports"].concat();
    assert_eq!(settings_fault(&five), Some(SettingsFault::FiveCounts));
    for (length, fault) in
        [(0, Some(SettingsFault::Text("an imports field"))), (1, None), (32, None), (33, Some(SettingsFault::Text("an imports field")))]
    {
        assert_eq!(settings_fault(&Settings::example().imports_field(&"i".repeat(length)).to_bytes()), fault);
    }
    let none = [&example[..5], &[0], &example[6..11], b"import.jsmainindexexports"].concat();
    assert_eq!(settings_fault(&none), Some(SettingsFault::ImportsCount(0)));
    let two = [&example[..5], &[2], &example[6..12], b"\x07import.jsmainindexexportsimportsimports"].concat();
    assert_eq!(settings_fault(&two), Some(SettingsFault::ImportsCount(2)));
    assert_eq!(settings_fault(b""), Some(SettingsFault::Length));
    assert_eq!(
        settings_fault(&Settings::new().exports_field("a").exports_field("b").exports_field("c").to_bytes()),
        Some(SettingsFault::TooMany("an exports field"))
    );
}

/// Whatever one byte of the settings becomes, and wherever they end, `from_bytes` refuses what the lookup refuses, and reads the rest.
#[test]
fn from_bytes_refuses_as_the_lookup_does() {
    let whole = Settings::require().extension("").imports_field("é").to_bytes();
    for at in 0..whole.len() {
        settings_fault(&whole[..at]);
        for byte in 0..=255 {
            let mut changed = whole.clone();
            changed[at] = byte;
            settings_fault(&changed);
            if let Ok(read) = Settings::from_bytes(&changed) {
                assert_eq!(read.to_bytes(), changed);
            }
        }
    }
}

/// A list that is longer than the first buffers.
#[test]
fn buffers_grow() {
    let mut listing = Listing::new();
    let mut start = String::new();
    for _ in 0..30 {
        start += "/directory-of-30-bytes-and-more";
        listing.directory(format!("{start}/node_modules/a"));
    }
    let mut settings = Settings::example();
    for i in 0..7 {
        settings = settings.extension(&format!(".{i}"));
    }
    let mut buffers = Buffers::new();
    let long = buffers.lookup(&listing.to_bytes(), &settings.to_bytes(), &start, "a").unwrap();
    assert!(long.consults().len() > 256, "{}", long.consults().len());
    let fresh = lookup(&listing.to_bytes(), &settings.to_bytes(), &start, "a").unwrap();
    assert_eq!(long, fresh);
}
