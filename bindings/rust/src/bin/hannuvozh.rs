//! The lookup on the command line: packs a folder, writes settings, asks, and says the answer in words and in the program's form.

use hannuvozh::{Answer, Listing, Lookup, Options, Refusal, Refused, Settings, lookup, lookup_with, repeats, resolve_with};
use std::path::Path;
use std::process::ExitCode;
use std::{env, fs, io};

const HELP: &str = "\
hannuvozh pack FOLDER [AT]                       writes the file tree: what FOLDER holds, listed below the path AT (/ if not given)
hannuvozh settings [OPTION TEXT]..               writes the file settings
hannuvozh ask START SPECIFIER                    asks the files tree and settings of this folder, and writes the file question
hannuvozh ask                                    asks the files tree, settings and question of this folder
hannuvozh resolve FOLDER START SPECIFIER [OPTION TEXT]..
                                                 asks about a folder on disk, of any size; START is a path in it that begins with /
hannuvozh check FOLDER                           says which package.json of the folder no lookup can read, and warns of member names that
                                                 come more than once in one object

OPTION is --condition, --extension, --main-field, --main-file or --exports-field, each as often as wanted, or --imports-field, which sets
the one imports field (imports if not given). Without any: the conditions node and require, the extensions .js, .json and .node, main,
index, exports, imports.

First may stand: --plain, which leaves the words out; --limit N, which refuses a lookup that needs more than N consults (18777 if not
given, which no bare name passes); --preview, a limit of 512.

The exit status is 0 where a file is found, 1 for any other answer, 2 for a refusal, 3 where the command can't be carried out. That of
check is 0 where every package.json can be read, 1 where one is not JSON, 2 where one is over a limit; a warning does not count.
";

fn settings(options: &[&str]) -> Result<Settings, String> {
    if options.is_empty() {
        return Ok(Settings::require());
    }
    let mut made = Settings::new();
    for pair in options.chunks(2) {
        let &[option, text] = pair else { return Err(format!("{} wants a text", pair[0])) };
        made = match option {
            "--condition" => made.condition(text),
            "--extension" => made.extension(text),
            "--main-field" => made.main_field(text),
            "--main-file" => made.main_file(text),
            "--exports-field" => made.exports_field(text),
            "--imports-field" => made.imports_field(text),
            _ => return Err(format!("{option} is no option")),
        };
    }
    Ok(made)
}

fn read(name: &str) -> Result<Vec<u8>, String> {
    fs::read(name).map_err(|fault| format!("{name}: {fault}"))
}

fn write(name: &str, bytes: &[u8]) -> Result<(), String> {
    fs::write(name, bytes).map_err(|fault| format!("{name}: {fault}"))?;
    println!("{name}: {} bytes", bytes.len());
    Ok(())
}

/// Which path was consulted for what, one to a line.
fn explain(looked: &Lookup) {
    println!("{} paths were consulted, in this order:", looked.consults().len());
    for (i, consult) in looked.consults().enumerate() {
        println!("{:>5}. {:<12} {}", i + 1, consult.state.to_string(), consult.path);
    }
}

/// What stands before the subcommand.
struct Ways {
    plain: bool,
    options: Options,
}

/// Takes the options that stand first, and gives the rest.
fn ways<'a, 'b>(mut args: &'a [&'b str]) -> Result<(Ways, &'a [&'b str]), String> {
    let mut ways = Ways { plain: false, options: Options::new() };
    loop {
        args = match args {
            ["--plain", rest @ ..] => {
                ways.plain = true;
                rest
            }
            ["--preview", rest @ ..] => {
                ways.options = Options::preview();
                rest
            }
            ["--limit", number, rest @ ..] => {
                let limit = number.parse().map_err(|_| format!("--limit wants a number up to {}, not {number}", u32::MAX))?;
                ways.options = Options::new().limit(limit);
                rest
            }
            _ => return Ok((ways, args)),
        };
    }
}

fn print(plain: bool, start: &str, specifier: &str, settings: &[u8], outcome: &Result<Lookup, Refused>) -> u8 {
    if !plain {
        println!("{specifier}, asked for from {start}:");
    }
    match outcome {
        Ok(looked) => {
            if !plain {
                println!("{}", looked.answer());
                explain(looked);
                println!("\nnumber, texts and consults:");
            }
            print!("{}", looked.printed());
            u8::from(looked.answer().number() != 0)
        }
        Err(refused) => {
            if !plain {
                println!("refused: {refused}; {} can mend it", refused.refusal().cause());
                if let (Refusal::Settings, Err(fault)) = (refused.refusal(), Settings::from_bytes(settings)) {
                    println!("{fault}");
                }
                println!("{} paths were consulted", refused.consults());
            }
            println!("{}", refused.refusal().number());
            2
        }
    }
}

/// The question's start and specifier: what stands before the first newline, and behind it.
fn question() -> Result<(Vec<u8>, Vec<u8>), String> {
    let bytes = read("question")?;
    let cut = bytes.iter().position(|&b| b == b'\n').unwrap_or(bytes.len());
    Ok((bytes[..cut].to_vec(), bytes.get(cut + 1..).unwrap_or(b"").to_vec()))
}

fn ask(ways: &Ways, start: &[u8], specifier: &[u8]) -> Result<u8, String> {
    let settings = read("settings")?;
    let outcome = lookup_with(ways.options, &read("tree")?, &settings, start, specifier);
    Ok(print(ways.plain, &String::from_utf8_lossy(start), &String::from_utf8_lossy(specifier), &settings, &outcome))
}

/// The exit status that a manifest's fault gives, which the lookup finds: it is the first thing read where a name is asked for beside it.
fn fault(manifest: &[u8]) -> u8 {
    let listing = Listing::new().manifest("/", manifest).to_bytes();
    match lookup(&listing, &Settings::require().to_bytes(), "/", "a") {
        Ok(looked) => u8::from(matches!(looked.answer(), Answer::Json { .. })),
        // One that is too long for a listing is over its own limit too.
        Err(refused) => 2 * u8::from(matches!(refused.refusal(), Refusal::ManifestLimit | Refusal::ListingSizes)),
    }
}

/// What can be said of one manifest: its exit status, and how many warnings.
fn check_manifest(path: &str, manifest: &[u8]) -> (u8, usize) {
    let status = fault(manifest);
    match status {
        1 => println!("{path}: not JSON"),
        2 => println!("{path}: over a limit"),
        _ => {}
    }
    let found = if status == 0 { repeats(manifest) } else { Vec::new() };
    found.iter().for_each(|repeat| println!("{path}: warning: {repeat}"));
    (status, found.len())
}

fn check(folder: &Path) -> io::Result<u8> {
    let listing = Listing::from_folder(folder, "/")?;
    let (mut status, mut warnings) = (0, 0);
    for (path, manifest) in listing.manifests() {
        let (fault, found) = check_manifest(&String::from_utf8_lossy(path), manifest);
        status = status.max(fault);
        warnings += found;
    }
    println!("{} manifests, {warnings} warnings", listing.manifests().count());
    Ok(status)
}

fn run(args: &[&str]) -> Result<u8, String> {
    let words = |fault: io::Error| fault.to_string();
    let (ways, args) = ways(args)?;
    match args {
        ["pack", folder] => write("tree", &Listing::from_folder(Path::new(folder), "/").map_err(words)?.to_bytes()).map(|()| 0),
        ["pack", folder, at] => write("tree", &Listing::from_folder(Path::new(folder), at).map_err(words)?.to_bytes()).map(|()| 0),
        ["settings", options @ ..] => write("settings", &settings(options)?.to_bytes()).map(|()| 0),
        ["ask"] => question().and_then(|(start, specifier)| ask(&ways, &start, &specifier)),
        ["ask", start, specifier] => {
            fs::write("question", format!("{start}\n{specifier}")).map_err(words)?;
            ask(&ways, start.as_bytes(), specifier.as_bytes())
        }
        ["check", folder] => check(Path::new(folder)).map_err(words),
        ["resolve", folder, start, specifier, options @ ..] => {
            let settings = settings(options)?;
            let packed = resolve_with(ways.options, Path::new(folder), &settings, start, specifier).map_err(words)?;
            Ok(print(ways.plain, start, specifier, &settings.to_bytes(), &packed.outcome))
        }
        _ => Err(HELP.into()),
    }
}

fn main() -> ExitCode {
    let args: Vec<String> = env::args().skip(1).collect();
    let args: Vec<&str> = args.iter().map(String::as_str).collect();
    match run(&args) {
        Ok(status) => ExitCode::from(status),
        Err(words) => {
            eprintln!("{}", words.trim_end());
            ExitCode::from(3)
        }
    }
}
