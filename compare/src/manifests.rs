//! Manifests: values of every JSON kind around the question asked, with names that come once or more often, written with white space
//! and escapes, whole or damaged.

use crate::lent::{CONDITIONS, EXPORTS_FIELDS, MAIN_FIELDS, Settings};
use crate::names::{dot_subpath, package_name, strip_package_name};
use crate::rng::Rng;

/// A JSON value to be written.
#[derive(Clone)]
pub enum Value {
    /// As it stands: null, a number, or anything a case wants.
    Raw(&'static str),
    Text(Vec<u8>),
    Array(Vec<Value>),
    Object(Vec<(Vec<u8>, Value)>),
}

pub fn text(s: &str) -> Value {
    Value::Text(s.as_bytes().to_vec())
}

pub fn object(members: Vec<(&str, Value)>) -> Value {
    Value::Object(members.into_iter().map(|(name, value)| (name.as_bytes().to_vec(), value)).collect())
}

/// How a value is written: the chance, in percent, of white space in each place and of an escape for each character.
#[derive(Clone, Copy)]
pub struct Style {
    pub blank: usize,
    pub escape: usize,
}

pub const PLAIN: Style = Style { blank: 0, escape: 0 };

pub fn style(rng: &mut Rng) -> Style {
    rng.one(&[PLAIN, PLAIN, PLAIN, Style { blank: 30, escape: 0 }, Style { blank: 0, escape: 10 }, Style { blank: 10, escape: 60 }])
}

pub fn write(value: &Value, style: Style, rng: &mut Rng) -> Vec<u8> {
    let mut writer = Writer { style, rng, out: Vec::new() };
    writer.value(value);
    writer.out
}

struct Writer<'a> {
    style: Style,
    rng: &'a mut Rng,
    out: Vec<u8>,
}

impl Writer<'_> {
    fn blank(&mut self) {
        while self.rng.chance(self.style.blank) {
            self.out.push(self.rng.one(b" \t\n\r"));
        }
    }

    fn value(&mut self, value: &Value) {
        self.blank();
        match value {
            Value::Raw(raw) => self.out.extend_from_slice(raw.as_bytes()),
            Value::Text(text) => self.text(text),
            Value::Array(elements) => {
                self.list(b'[', elements.len(), b']', |writer, i| writer.value(&elements[i]));
            }
            Value::Object(members) => {
                self.list(b'{', members.len(), b'}', |writer, i| {
                    writer.blank();
                    writer.text(&members[i].0);
                    writer.blank();
                    writer.out.push(b':');
                    writer.value(&members[i].1);
                });
            }
        }
        self.blank();
    }

    fn list(&mut self, open: u8, count: usize, close: u8, one: impl Fn(&mut Self, usize)) {
        self.out.push(open);
        for i in 0..count {
            if i > 0 {
                self.out.push(b',');
            }
            one(self, i);
        }
        if count == 0 {
            self.blank();
        }
        self.out.push(close);
    }

    fn text(&mut self, text: &[u8]) {
        self.out.push(b'"');
        for c in String::from_utf8_lossy(text).chars() {
            self.character(c);
        }
        self.out.push(b'"');
    }

    fn character(&mut self, c: char) {
        let short = match c {
            '"' | '\\' | '/' => Some(c),
            '\u{8}' => Some('b'),
            '\u{C}' => Some('f'),
            '\n' => Some('n'),
            '\r' => Some('r'),
            '\t' => Some('t'),
            _ => None,
        };
        let must = c < ' ' || c == '"' || c == '\\';
        if !must && !self.rng.chance(self.style.escape) {
            self.out.extend_from_slice(c.encode_utf8(&mut [0; 4]).as_bytes());
        } else if let (Some(short), true) = (short, self.rng.chance(70)) {
            self.out.extend_from_slice(&[b'\\', short as u8]);
        } else {
            for unit in c.encode_utf16(&mut [0; 2]) {
                let hex = if self.rng.chance(50) { format!("\\u{unit:04x}") } else { format!("\\u{unit:04X}") };
                self.out.extend_from_slice(hex.as_bytes());
            }
        }
    }
}

// ---------------------------------------------------------------- values around a question

#[rustfmt::skip]
const TARGETS: &[&str] = &[
    "./x.js", "./x", "./lib/x.js", "./lib", "./", "./.", ".//x.js", "././x.js", "./a/./b", "./index.js", "./é", "./a b", "./x.js",
    "./lib/y", "./*", "./*.js", "./lib/*", "./lib/*.js", "./*/*", "./g/", "./g/*", "./g/*.js", "./lib/", "./x/*y", "./package.json",
    "./a\\b", "./%2e%2e/x", "./x.js?q", "./x.js#f", "./x.js?q#f", "./x?a?b", "./x#a#b", "./*?*", "./*#*", "./x.js?", "./x.js#", "./x?q",
    "./x#f?q", "./x\0#y", "./é\0#y", "./x\0#y?q", "./x?\0#y", "./é?\0#y#f", "./\0#", "./x\0y", "\0#", "./*\0#*", "./a/../b", "./..",
    "./x/..", "./node_modules/a", "./NODE_MODULES/a", "./Node_Modules", "./a/node_modules", "./node_modulesx", "./x/..?q", "./..x", "x",
    "x.js", "/x", "/", ".", "..", "../x", ".x", "#x", "#", "x?q#f", "a/b", "@s/a", "x*", "*", "", "?q", "?", "?#",
];

#[rustfmt::skip]
const MAINS: &[&str] = &[
    "", "x.js", "x", "./x", "lib", "lib/", "lib/x.js", "/x.js", "/", ".", "./", "..", "../", "../x.js", "../..", "../../..", "../b",
    "a/../x.js", "x/./y", "index", "index.js", "package.json", "é", "x?q", "x#f", "x*", "node_modules/b", "//x", "x//y", "x/", "a\\b",
    "...", "./..", "\0#x",
];

#[rustfmt::skip]
const KEYS: &[&str] = &[
    ".", "./", "./x", "./x.js", "./x/", "./*", "./x*", "./*x", "./**", "./*/*", "./x/*", "./*.js", "#x", "#", "#*", "#x/", ".x", ".*",
    "..", "../x", "./é*", "./.", "./*é",
];

#[rustfmt::skip]
const CONDITIONS_TOO: &[&str] = &[
    "default", "import", "require", "node", "types", "0", "1", "", "x", "browser", ".x", "é",
];

/// Random manifests of one question.
pub struct Around<'a> {
    pub settings: &'a Settings,
    pub specifier: &'a [u8],
    /// The chance, in percent, that names come more than once in a manifest.
    pub repeats: usize,
}

/// `Around::repeats` of an ordinary case.
pub const SOME_REPEATS: usize = 20;

impl Around<'_> {
    /// A manifest's bytes, faultless.
    pub fn manifest(&self, rng: &mut Rng) -> Vec<u8> {
        let style = style(rng);
        let value = self.root(rng);
        let value = self.with_repeats(value, rng);
        let mut bytes = write(&value, style, rng);
        if rng.chance(3) {
            bytes.splice(0..0, [0xEF, 0xBB, 0xBF]);
        }
        bytes
    }

    /// A manifest whose first exports field is asked for the package's subpath.
    pub fn exporting(&self, rng: &mut Rng) -> Vec<u8> {
        let subpath = dot_subpath(&self.specifier[package_name(self.specifier).len()..]);
        let exports = match rng.below(10) {
            0..=2 => self.folders(&subpath, rng),
            3..=6 if rng.chance(self.repeats) => self.nested(&subpath, rng),
            _ => self.exports(&subpath, rng),
        };
        let mut members = vec![(self.settings[EXPORTS_FIELDS][0].clone(), exports)];
        for field in &self.settings[MAIN_FIELDS] {
            if rng.chance(30) {
                members.push((field.clone(), self.main(rng)));
            }
        }
        rng.shuffle(&mut members);
        let style = style(rng);
        let value = self.with_repeats(without_repeats(members), rng);
        write(&value, style, rng)
    }

    /// The value, in some cases with names that come more than once, in objects of every kind.
    pub fn with_repeats(&self, mut value: Value, rng: &mut Rng) -> Value {
        if rng.chance(self.repeats) {
            let subpath = dot_subpath(&self.specifier[package_name(self.specifier).len()..]);
            self.repeat(&mut value, &subpath, 0, rng);
        }
        value
    }

    fn repeat(&self, value: &mut Value, subpath: &[u8], depth: usize, rng: &mut Rng) {
        match value {
            Value::Object(members) => {
                for member in members.iter_mut() {
                    self.repeat(&mut member.1, subpath, depth + 1, rng);
                }
                while !members.is_empty() && members.len() < 100 && rng.chance(if depth == 0 { 35 } else { 60 }) {
                    let name = rng.pick(members).0.clone();
                    let other = self.other(&name, members, subpath, depth, rng);
                    members.insert(rng.below(members.len() + 1), (name, other));
                }
            }
            Value::Array(elements) => elements.iter_mut().for_each(|element| self.repeat(element, subpath, depth + 1, rng)),
            _ => {}
        }
    }

    /// A value for one more member of a name: often one that another member of the object has, so that the two can change places.
    fn other(&self, name: &[u8], members: &[(Vec<u8>, Value)], subpath: &[u8], depth: usize, rng: &mut Rng) -> Value {
        match rng.below(4) {
            0 => rng.pick(members).1.clone(),
            1 => scalar(rng),
            _ if depth == 0 && self.settings[EXPORTS_FIELDS].iter().any(|field| field == name) => self.exports(subpath, rng),
            _ if depth == 0 => self.main(rng),
            // The depth of what is put in is that of its surroundings, within the limit of brackets.
            _ => self.target(subpath, rng, depth.max(4)),
        }
    }

    /// Folder keys and star keys of one beginning.
    fn folders(&self, subpath: &[u8], rng: &mut Rng) -> Value {
        let mut members = Vec::new();
        for _ in 0..rng.within(1, 4) {
            let mut key = folder(subpath, rng);
            if rng.chance(30) {
                key.pop();
                key.push(b'*');
            }
            let target = text(rng.one(&["./g/", "./g", "./lib/", "./g/*.js", "./*", "./lib/*", "./x.js", "./g/?q", "./.."]));
            members.push((key, if rng.chance(20) { Value::Array(vec![target, text("./lib/")]) } else { target }));
        }
        if rng.chance(30) {
            members.push((starred(subpath, rng), self.target(subpath, rng, 0)));
        }
        without_repeats(members)
    }

    pub fn root(&self, rng: &mut Rng) -> Value {
        if rng.chance(3) {
            return self.no_object(rng);
        }
        let mut members: Vec<(Vec<u8>, Value)> = Vec::new();
        let name = self.name(rng);
        if rng.chance(55) {
            members.push((b"name".to_vec(), if rng.chance(4) { scalar(rng) } else { Value::Text(name.clone()) }));
        }
        for field in &self.settings[MAIN_FIELDS] {
            if rng.chance(50) {
                members.push((field.clone(), self.main(rng)));
            }
        }
        let subpath = self.subpath(&name, rng);
        for field in &self.settings[EXPORTS_FIELDS] {
            if rng.chance(60) {
                members.push((field.clone(), self.exports(&subpath, rng)));
            }
        }
        if rng.chance(20) {
            members.push((b"version".to_vec(), scalar(rng)));
        }
        if rng.chance(10) {
            members.push((b"dependencies".to_vec(), self.target(&subpath, rng, 0)));
        }
        rng.shuffle(&mut members);
        without_repeats(members)
    }

    fn no_object(&self, rng: &mut Rng) -> Value {
        match rng.below(3) {
            0 => scalar(rng),
            1 => Value::Array(vec![self.target(b".", rng, 3)]),
            _ => Value::Text(b"./x.js".to_vec()),
        }
    }

    /// A name: the asked package's more often than not.
    fn name(&self, rng: &mut Rng) -> Vec<u8> {
        let cut = |byte: u8| self.specifier.split(|&b| b == byte).next().unwrap_or(b"").to_vec();
        match rng.below(12) {
            0..=5 => package_name(self.specifier).to_vec(),
            6 => self.specifier.to_vec(),
            7 => cut(b'/'),
            8 => cut(b'\\'),
            9 => rng.text(&["", "@s", "a", "b", "\\", "A", "é"]).to_vec(),
            _ => rng.text(&["a", "mat", "@s/a", "b", "c"]).to_vec(),
        }
    }

    /// The subpath that this manifest's exports will be asked for.
    fn subpath(&self, name: &[u8], rng: &mut Rng) -> Vec<u8> {
        let of_package = &self.specifier[package_name(self.specifier).len()..];
        let subpath = strip_package_name(self.specifier, name).filter(|_| rng.chance(50)).unwrap_or(of_package);
        dot_subpath(subpath)
    }

    fn main(&self, rng: &mut Rng) -> Value {
        match rng.below(10) {
            0 => scalar(rng),
            1 => self.target(b".", rng, 2),
            _ => Value::Text(rng.text(MAINS).to_vec()),
        }
    }

    pub fn exports(&self, subpath: &[u8], rng: &mut Rng) -> Value {
        match rng.below(20) {
            0..=1 => Value::Text(rng.text(TARGETS).to_vec()),
            2 => scalar(rng),
            3 => self.array(subpath, rng, 0),
            4..=6 => self.conditions(subpath, rng, 0),
            7 => self.mixed(subpath, rng),
            8 => self.deep(subpath, rng),
            _ => self.subpaths(subpath, rng),
        }
    }

    /// A map of subpath keys.
    pub fn subpaths(&self, subpath: &[u8], rng: &mut Rng) -> Value {
        let count = if rng.chance(5) { rng.below(20) } else { rng.within(1, 5) };
        without_repeats((0..count).map(|_| (self.key(subpath, rng), self.target(subpath, rng, 0))).collect())
    }

    fn mixed(&self, subpath: &[u8], rng: &mut Rng) -> Value {
        let mut members = vec![(self.key(subpath, rng), self.target(subpath, rng, 0)), (self.condition(rng), self.target(subpath, rng, 0))];
        rng.shuffle(&mut members);
        without_repeats(members)
    }

    fn key(&self, subpath: &[u8], rng: &mut Rng) -> Vec<u8> {
        match rng.below(10) {
            0..=1 => subpath.to_vec(),
            2..=5 => starred(subpath, rng),
            6 => folder(subpath, rng),
            _ => rng.text(KEYS).to_vec(),
        }
    }

    fn condition(&self, rng: &mut Rng) -> Vec<u8> {
        match rng.below(3) {
            0 if !self.settings[CONDITIONS].is_empty() => rng.pick(&self.settings[CONDITIONS]).clone(),
            _ => rng.text(CONDITIONS_TOO).to_vec(),
        }
    }

    fn target(&self, subpath: &[u8], rng: &mut Rng, depth: usize) -> Value {
        let kind = if depth > 5 { rng.below(12) } else { rng.below(20) };
        match kind {
            0..=9 => Value::Text(self.target_text(subpath, rng)),
            10..=11 => scalar(rng),
            12..=14 => self.array(subpath, rng, depth + 1),
            _ => self.conditions(subpath, rng, depth + 1),
        }
    }

    fn target_text(&self, subpath: &[u8], rng: &mut Rng) -> Vec<u8> {
        match rng.below(10) {
            0 if subpath.starts_with(b"./") => subpath.to_vec(),
            1 if subpath.starts_with(b"./") => starred(subpath, rng),
            2..=5 => rng.text(&["./x.js", "./lib/*", "./*", "./x", "./*.js", "./g/", "./lib/x.js"]).to_vec(),
            6 if rng.chance(60) => rng.text(&["", "?q", "?", "?x#y"]).to_vec(),
            _ => rng.text(TARGETS).to_vec(),
        }
    }

    fn array(&self, subpath: &[u8], rng: &mut Rng, depth: usize) -> Value {
        if rng.chance(30) {
            return self.failing(rng);
        }
        let count = rng.below(5);
        Value::Array((0..count).map(|_| self.target(subpath, rng, depth + 1)).collect())
    }

    /// Targets of which the first fail, with queries and fragments that outlive them.
    fn failing(&self, rng: &mut Rng) -> Value {
        let first = ["b?q", "b#f", "./..?r", "x?a#b", "./node_modules?n", "", "?", "./x/..#g"];
        let last = ["./x.js", "./x", "./lib/x.js#h", "./x.js?s", "./gone", "./*"];
        let mut all: Vec<Value> = (0..rng.within(1, 3)).map(|_| text(rng.one(&first))).collect();
        all.push(text(rng.one(&last)));
        Value::Array(all)
    }

    fn conditions(&self, subpath: &[u8], rng: &mut Rng, depth: usize) -> Value {
        let count = rng.below(5);
        without_repeats((0..count).map(|_| (self.condition(rng), self.target(subpath, rng, depth + 1))).collect())
    }

    /// Conditions in conditions, most of which hold, for "." or under the subpath's own key.
    fn nested(&self, subpath: &[u8], rng: &mut Rng) -> Value {
        let mut value = self.target(subpath, rng, 6);
        for _ in 0..rng.within(1, 4) {
            let mut members = vec![(self.condition(rng), self.target(subpath, rng, 6)), (b"default".to_vec(), value)];
            members.extend(self.settings[CONDITIONS].first().map(|name| (name.clone(), self.target(subpath, rng, 6))));
            rng.shuffle(&mut members);
            value = without_repeats(members);
        }
        if subpath == b"." && rng.chance(50) { value } else { Value::Object(vec![(subpath.to_vec(), value)]) }
    }

    /// Conditions and arrays around a text, up to the limit of depth and past it.
    fn deep(&self, subpath: &[u8], rng: &mut Rng) -> Value {
        let mut value = Value::Text(self.target_text(subpath, rng));
        for _ in 0..rng.within(4, 16) {
            value = match rng.below(3) {
                0 => Value::Array(vec![value]),
                1 => object(vec![("default", value)]),
                _ => Value::Object(vec![(self.condition(rng), value)]),
            };
        }
        value
    }
}

pub fn scalar(rng: &mut Rng) -> Value {
    Value::Raw(rng.one(&["null", "null", "true", "false", "0", "-1", "1.5", "1e999", "-0.0E-7", "123456789012345678901234567890"]))
}

pub fn without_repeats(members: Vec<(Vec<u8>, Value)>) -> Value {
    let mut kept: Vec<(Vec<u8>, Value)> = Vec::new();
    for member in members {
        if !kept.iter().any(|known| known.0 == member.0) {
            kept.push(member);
        }
    }
    Value::Object(kept)
}

/// A place where the text may be cut and stays UTF-8, not before `from`.
pub fn boundary(text: &[u8], from: usize, rng: &mut Rng) -> usize {
    let from = from.min(text.len());
    let places: Vec<usize> = (from..=text.len()).filter(|&i| i == text.len() || text[i] & 0xC0 != 0x80).collect();
    rng.one(&places)
}

/// The text with a part of it replaced by "*".
fn starred(text: &[u8], rng: &mut Rng) -> Vec<u8> {
    let from = boundary(text, 2, rng);
    let to = boundary(text, from, rng);
    [&text[..from], b"*", &text[to..]].concat()
}

/// The text up to one of its slashes.
pub fn folder(text: &[u8], rng: &mut Rng) -> Vec<u8> {
    let slashes: Vec<usize> = (0..text.len()).filter(|&i| text[i] == b'/').collect();
    if slashes.is_empty() { b"./".to_vec() } else { text[..=rng.one(&slashes)].to_vec() }
}

// ---------------------------------------------------------------- damage

/// What is put into a text to damage it.
#[rustfmt::skip]
const PIECES: &[&[u8]] = &[
    b",", b"\"", b"{", b"}", b"[", b"]", b":", b"\\", b"\\u", b"\\ud800", b"\\udc00", b"\\uD800\\u0041", b"\\x", b"\x00", b"\x1f",
    b"\x7f", b"\xff", b"\xc0\x80", b"\xed\xa0\x80", b"\xf4\x90\x80\x80", b"\xe2\x82", b"\xef\xbb\xbf", b"-", b"01", b"1.", b"1e", b".5",
    b"+1", b"tru", b"nul", b"NaN", b"//", b"'", b" ", b"\n",
];

/// The bytes with something taken away, put in, changed or doubled.
pub fn damaged(bytes: &[u8], rng: &mut Rng) -> Vec<u8> {
    let mut out = bytes.to_vec();
    let at = rng.below(out.len() + 1);
    match rng.below(5) {
        0 => out.truncate(at),
        1 if at < out.len() => drop(out.remove(at)),
        2 if at < out.len() => out[at] = rng.below(256) as u8,
        3 if at < out.len() => out[at] ^= 1 << rng.below(8),
        _ => drop(out.splice(at..at, rng.one(PIECES).iter().copied())),
    }
    out
}
