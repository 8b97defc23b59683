//! The lookup in plain steps, for what the Rust cannot tell: where a lookup meets refusals 40, 42 and 53, and which routines and
//! branches a case reaches. It is trusted with neither alone: on every case without such a refusal its answer and list must be
//! the Rust's own.
//!
//! Routines have the Rust's names, and the context is the Rust's: query and fragment so far, and how many relative steps were made. A
//! routine that ends the lookup gives `Err`, for a found file too; one that comes back has found nothing.

use crate::json::{self, Json, Member};
use crate::lent::{CONDITIONS, EXPORTS_FIELDS, EXTENSIONS, IMPORTS_FIELDS, MAIN_FIELDS, MAIN_FILES, Settings, Tree, is_hash, parent};
use crate::names::*;
use crate::points::{Marks, Point, no_marks};
use std::rc::Rc;

/// How a lookup ends: document 01's number, and the texts of an answer.
#[derive(Clone, PartialEq, Eq, Debug)]
pub struct End {
    pub number: u32,
    pub texts: Vec<Vec<u8>>,
}

impl End {
    fn new(number: u32, texts: &[&[u8]]) -> Self {
        Self { number, texts: texts.iter().map(|text| text.to_vec()).collect() }
    }

    pub fn is_refusal(&self) -> bool {
        !is_answer(self.number)
    }
}

/// Whether the number is an answer's: 0 to 7 and, for names that begin with "#", 50, 51 and 56.
pub fn is_answer(number: u32) -> bool {
    matches!(number, 0..=7 | 50 | 51 | 56)
}

pub struct Consult {
    pub state: u8,
    pub path: Vec<u8>,
}

pub struct Walked {
    pub end: End,
    pub list: Vec<Consult>,
    pub marks: Marks,
}

/// The lookup, which may make `limit` consults.
pub fn lookup(tree: &Tree, settings: &Settings, start: &[u8], specifier: &[u8], limit: usize) -> Walked {
    let context = Context::default();
    let mut walk = Walk { tree, settings, limit, list: Vec::new(), marks: no_marks(), read: Vec::new(), context };
    let hash = is_hash(specifier);
    let walked = if hash { walk.require_hash(start, specifier) } else { walk.load_package_self_or_node_modules(start, specifier) };
    let end = match walked {
        Err(end) => end,
        Ok(never) => match never {},
    };
    Walked { end, list: walk.list, marks: walk.marks }
}

/// Document 01's bound on the length of a bare name's list, d + 2dW.
pub fn formula(tree: &Tree, settings: &Settings, start: &[u8]) -> usize {
    let d = directories(start).len();
    let heights = tree.iter().filter(|entry| entry.1.is_none()).map(|entry| directories(entry.0).len());
    let (h, e) = (heights.max().unwrap_or(0), settings[EXTENSIONS].len());
    let (f, m) = (settings[MAIN_FILES].len(), settings[MAIN_FIELDS].len());
    d + 2 * d * (6 + 2 * h + 2 * e + f * e + m * (1 + e + f * e))
}

type Look<T> = Result<T, End>;

enum Never {}

/// context.rs: the query and fragment that go with the path to be found, and the relative steps made, in a byte.
#[derive(Default)]
struct Context {
    query: Vec<u8>,
    fragment: Vec<u8>,
    depth: u8,
    /// Which target gave the fragment: how many had been parsed.
    fragment_of: usize,
    parsed: usize,
}

struct Scope {
    directory: Vec<u8>,
    manifest: Rc<Json>,
}

/// What one target resolution does not change.
struct Request<'a> {
    directory: &'a [u8],
    key: &'a [u8],
    matched: Option<&'a [u8]>,
    imports: bool,
}

struct Walk<'a> {
    tree: &'a Tree,
    settings: &'a Settings,
    limit: usize,
    list: Vec<Consult>,
    marks: Marks,
    /// Manifests already taken apart, by path.
    read: Vec<(Vec<u8>, Result<Rc<Json>, u32>)>,
    context: Context,
}

fn get<'a>(members: &'a [Member], name: &[u8]) -> Option<&'a Json> {
    members.iter().find(|member| member.name == name).map(|member| &member.value)
}

fn field<'a>(manifest: &'a Json, name: &[u8]) -> Option<&'a Json> {
    let Json::Object(members) = manifest else { return None };
    get(members, name)
}

fn text_field<'a>(manifest: &'a Json, name: &[u8]) -> Option<&'a [u8]> {
    let Some(Json::Text(text)) = field(manifest, name) else { return None };
    Some(text)
}

impl Walk<'_> {
    fn mark(&mut self, point: Point) {
        self.marks[point as usize] += 1;
    }

    fn mark_if(&mut self, condition: bool, point: Point) {
        if condition {
            self.mark(point);
        }
    }

    /// Marks names that come more than once, in an object that the lookup looks at.
    fn mark_repeats(&mut self, members: &[Member], point: Point) {
        let repeats = || members.iter().filter(|member| member.times > 1);
        if repeats().next().is_some() {
            self.mark(Point::Repeated);
            self.mark(point);
            self.mark_if(repeats().any(|member| member.respelled), Point::RepeatedEscape);
            self.mark_if(repeats().any(|member| member.times > 2), Point::RepeatedThrice);
        }
    }

    /// One consult, or refusal 53 where the limit allows no more.
    fn note(&mut self, state: u8, path: &[u8]) -> Look<()> {
        if self.list.len() == self.limit {
            self.mark(Point::TooManyConsults);
            return Err(End::new(53, &[]));
        }
        self.list.push(Consult { state, path: path.to_vec() });
        Ok(())
    }

    fn consult(&mut self, path: &[u8]) -> Look<u8> {
        let state = match self.tree.get(path) {
            None => 0,
            Some(None) => 1,
            Some(Some(_)) => 2,
        };
        self.note(state, path)?;
        Ok(state)
    }

    fn is_file(&mut self, path: &[u8]) -> Look<bool> {
        Ok(self.consult(path)? == 2)
    }

    fn is_dir(&mut self, path: &[u8]) -> Look<bool> {
        Ok(self.consult(path)? == 1)
    }

    /// Refusal 42: a path over 2,048 bytes.
    fn limited(&mut self, path: Vec<u8>) -> Look<Vec<u8>> {
        if path.len() > 2_048 {
            self.mark(Point::PathTooLong);
            return Err(End::new(42, &[]));
        }
        Ok(path)
    }

    fn normalize_with(&mut self, base: &[u8], sub: &[u8]) -> Look<Vec<u8>> {
        if sub.is_empty() || sub.starts_with(b"/") {
            return self.limited(sub.to_vec());
        }
        let mut path = self.limited(base.to_vec())?;
        for part in parts(sub) {
            if part == b".." {
                self.mark_if(path == b"/", Point::PopAtRoot);
                path = parent(&path).to_vec();
            } else {
                path = self.limited(join(&path, part))?;
            }
        }
        Ok(path)
    }

    fn manifest(&mut self, path: &[u8], contents: &[u8]) -> Look<Rc<Json>> {
        let known = self.read.iter().find(|known| known.0 == path).map(|known| known.1.clone());
        let read = known.unwrap_or_else(|| {
            let read = json::read(contents).map(json::settled).map(Rc::new);
            self.read.push((path.to_vec(), read.clone()));
            read
        });
        self.mark_if(contents.starts_with(&[0xEF, 0xBB, 0xBF]), Point::ManifestBom);
        let read = read.inspect(|json| match &**json {
            Json::Object(members) => self.mark_repeats(members, Point::RepeatedField),
            _ => self.mark(Point::ManifestNoObject),
        });
        read.map_err(|number| {
            self.mark(if number == 7 { Point::Fault7 } else { Point::Fault40 });
            if number == 7 { End::new(7, &[path]) } else { End::new(number, &[]) }
        })
    }

    fn find_package_json(&mut self, from: &[u8]) -> Look<Option<Scope>> {
        for directory in directories(from) {
            let path = self.limited(manifest_of(directory))?;
            let Some(Some(contents)) = self.tree.get(&path) else {
                self.consult(&path)?;
                continue;
            };
            self.note(3, &path)?;
            let manifest = self.manifest(&path, contents)?;
            self.mark(Point::NearestFound);
            self.mark_if(directory != from, Point::NearestAbove);
            return Ok(Some(Scope { directory: directory.to_vec(), manifest }));
        }
        self.mark(Point::NearestNone);
        Ok(None)
    }

    fn get_package_json(&mut self, directory: &[u8]) -> Look<Option<Rc<Json>>> {
        let Some(scope) = self.find_package_json(directory)? else { return Ok(None) };
        let own = scope.directory == directory;
        self.mark(if own { Point::OwnKept } else { Point::OwnDropped });
        Ok(own.then_some(scope.manifest))
    }

    fn load_package_self_or_node_modules(&mut self, start: &[u8], specifier: &[u8]) -> Look<Never> {
        self.load_package_self(start, specifier)?;
        self.load_node_modules(start, specifier)?;
        if holds(specifier, b"/../..") || holds(specifier, b"../../") {
            let mut normalized = normalize_relative(specifier);
            if specifier.ends_with(b"/") {
                normalized.push(b'/');
            }
            if package_name(&normalized) == b".." {
                self.mark(Point::SecondWalk);
                let walked = self.load_node_modules(start, &normalized);
                self.mark_if(walked.as_ref().is_err_and(|end| end.number == 0), Point::SecondWalkFound);
                walked?;
            }
        }
        Err(End::new(1, &[specifier]))
    }

    fn load_package_self(&mut self, start: &[u8], specifier: &[u8]) -> Look<()> {
        let Some(scope) = self.find_package_json(start)? else {
            self.mark(Point::SelfNoScope);
            return Ok(());
        };
        let Some(name) = text_field(&scope.manifest, b"name") else {
            self.mark(Point::SelfNoName);
            return Ok(());
        };
        let Some(subpath) = strip_package_name(specifier, name) else {
            self.mark(Point::SelfOtherName);
            return Ok(());
        };
        self.mark_if(subpath.starts_with(b"\\"), Point::SelfBackslash);
        let Some(exports) = self.exports_field(&scope.manifest) else {
            self.mark(Point::SelfNoExports);
            return Ok(());
        };
        self.mark(Point::SelfExports);
        match self.by_exports(specifier, &scope.directory, subpath, exports)? {}
    }

    /// The first exports field of the settings that is present.
    fn exports_field<'b>(&mut self, manifest: &'b Json) -> Option<&'b Json> {
        let fields = &self.settings[EXPORTS_FIELDS];
        let place = fields.iter().position(|name| field(manifest, name).is_some())?;
        self.mark_if(place > 0, Point::SecondExportsField);
        field(manifest, &fields[place])
    }

    fn by_exports(&mut self, specifier: &[u8], directory: &[u8], subpath: &[u8], exports: &Json) -> Look<Never> {
        let path = self.package_exports_resolve(directory, &dot_subpath(subpath), exports)?;
        self.resolve_esm_match(specifier, &path)
    }

    fn load_node_modules(&mut self, start: &[u8], specifier: &[u8]) -> Look<()> {
        for (i, directory) in directories(start).into_iter().enumerate() {
            if !self.is_dir(directory)? {
                continue;
            }
            let modules = self.normalize_with(directory, b"node_modules")?;
            if !self.is_dir(&modules)? {
                self.mark(Point::ModulesNoDirectory);
                continue;
            }
            self.mark_if(i > 0, Point::ModulesSecond);
            self.mark_if(directory.ends_with(b"/node_modules"), Point::ModulesNamed);
            self.in_modules(specifier, &modules)?;
        }
        Ok(())
    }

    fn in_modules(&mut self, specifier: &[u8], modules: &[u8]) -> Look<()> {
        let name = package_name(specifier);
        let subpath = &specifier[name.len()..];
        let package = self.normalize_with(modules, name)?;
        if self.is_dir(&package)? {
            self.mark(Point::ModulesPackage);
            self.load_package_exports(specifier, subpath, &package)?;
        } else if !subpath.is_empty() {
            self.mark(Point::ModulesSubpathSkipped);
            return Ok(());
        } else if name.starts_with(b"@") {
            if !self.is_dir(parent(&package))? {
                self.mark(Point::ModulesScopeSkipped);
                return Ok(());
            }
            self.mark(Point::ModulesScopeThere);
        }
        self.in_package(specifier, name, modules)
    }

    fn in_package(&mut self, specifier: &[u8], name: &[u8], modules: &[u8]) -> Look<()> {
        let path = self.normalize_with(modules, specifier)?;
        if specifier != name && !specifier.ends_with(b"/") {
            self.load_as_file(&path)?;
        }
        self.mark_if(specifier.ends_with(b"/"), Point::FirstFileSkipped);
        if self.is_dir(&path)? {
            return self.load_as_directory(&path);
        }
        self.mark(Point::FileForNoDirectory);
        self.load_as_file(&path)
    }

    fn load_package_exports(&mut self, specifier: &[u8], subpath: &[u8], package: &[u8]) -> Look<()> {
        let Some(manifest) = self.get_package_json(package)? else {
            self.mark(Point::PackageNoManifest);
            return Ok(());
        };
        let Some(exports) = self.exports_field(&manifest) else {
            self.mark(Point::PackageNoExports);
            return Ok(());
        };
        self.mark(Point::PackageExports);
        match self.by_exports(specifier, package, subpath, exports)? {}
    }

    fn try_file(&mut self, path: &[u8], point: Point) -> Look<()> {
        if self.is_file(path)? {
            self.mark(point);
            return Err(End::new(0, &[path, &self.context.query, &self.context.fragment]));
        }
        Ok(())
    }

    fn load_as_file(&mut self, path: &[u8]) -> Look<()> {
        self.try_file(path, Point::FileFound)?;
        for extension in &self.settings[EXTENSIONS] {
            let path = self.limited([path, extension].concat())?;
            self.try_file(&path, Point::ExtensionFound)?;
        }
        Ok(())
    }

    fn load_index(&mut self, path: &[u8]) -> Look<()> {
        self.mark_if(path == b"/", Point::IndexUnderRoot);
        let mut point = Point::IndexFound;
        for main_file in &self.settings[MAIN_FILES] {
            for extension in &self.settings[EXTENSIONS] {
                let path = self.limited([path, b"/", main_file, extension].concat())?;
                self.try_file(&path, point)?;
                point = Point::IndexLater;
            }
        }
        Ok(())
    }

    fn load_as_directory(&mut self, path: &[u8]) -> Look<()> {
        if let Some(manifest) = self.get_package_json(path)? {
            for (i, name) in self.settings[MAIN_FIELDS].iter().enumerate() {
                if let Some(main) = text_field(&manifest, name) {
                    self.load_main(path, main, i)?;
                }
            }
        }
        self.load_index(path)
    }

    fn load_main(&mut self, path: &[u8], main: &[u8], number: usize) -> Look<()> {
        self.mark(Point::DirectoryMain);
        self.mark_if(main.is_empty(), Point::DirectoryMainEmpty);
        self.mark_if(main.starts_with(b"/"), Point::DirectoryMainAbsolute);
        self.mark_if(parts(main).any(|part| part == b".."), Point::DirectoryMainClimbs);
        let below = if main.is_empty() || main.starts_with(b"/") { [b"./", main].concat() } else { main.to_vec() };
        let path = self.normalize_with(path, &below)?;
        let as_file = self.load_as_file(&path);
        self.mark_main(&as_file, Point::DirectoryMainFound, number);
        as_file?;
        let index = self.load_index(&path);
        self.mark_main(&index, Point::DirectoryMainIndex, number);
        index
    }

    fn mark_main(&mut self, tried: &Look<()>, point: Point, number: usize) {
        let found = tried.as_ref().is_err_and(|end| end.number == 0);
        self.mark_if(found, point);
        self.mark_if(found && number > 0, Point::DirectoryLaterMain);
    }

    fn resolve_esm_match(&mut self, specifier: &[u8], path: &[u8]) -> Look<Never> {
        let as_file = self.load_as_file(path);
        self.mark_if(as_file.as_ref().is_err_and(|end| end.number == 0), Point::MatchFile);
        as_file?;
        if self.is_dir(path)? {
            self.mark(Point::MatchDirectory);
            self.load_as_directory(path)?;
        }
        self.mark(Point::MatchNotFound);
        Err(End::new(1, &[specifier]))
    }

    // ------------------------------------------------------------ exports

    fn package_exports_resolve(&mut self, directory: &[u8], subpath: &[u8], exports: &Json) -> Look<Vec<u8>> {
        if let Json::Object(members) = exports {
            if members.iter().any(|member| is_dot_key(&member.name)) {
                self.mark_repeats(members, Point::RepeatedKey);
            }
            let dots = members.iter().filter(|member| is_dot_key(&member.name)).count();
            if dots > 0 && dots < members.len() {
                self.mark(Point::ExportsMixed);
                return Err(End::new(5, &[&manifest_of(directory)]));
            }
        }
        let mut found = if subpath == b"." { self.main_export(directory, exports)? } else { None };
        if let (None, Json::Object(members)) = (&found, exports) {
            found = self.package_imports_exports_resolve(directory, subpath, members, false)?;
        }
        self.mark_if(matches!(exports, Json::Scalar), Point::ExportsScalar);
        found.ok_or_else(|| {
            self.mark(Point::ExportsNotExported);
            End::new(4, &[subpath, directory])
        })
    }

    fn main_export(&mut self, directory: &[u8], exports: &Json) -> Look<Option<Vec<u8>>> {
        let target = match exports {
            Json::Scalar => return Ok(None),
            Json::Text(_) | Json::Array(_) => (exports, Point::ExportsDotText),
            Json::Object(members) => match get(members, b".") {
                Some(target) => (target, Point::ExportsDotKey),
                None if members.iter().any(|member| is_subpath_key(&member.name)) => return Ok(None),
                None => (exports, Point::ExportsDotConditions),
            },
        };
        self.mark(target.1);
        let request = Request { directory, key: b".", matched: None, imports: false };
        let found = self.package_target_resolve(&request, target.0, 0)?;
        self.mark_if(found.is_none(), Point::ExportsDotNothing);
        Ok(found)
    }

    /// The path that the chosen key's target gives, if any.
    fn package_imports_exports_resolve(
        &mut self,
        directory: &[u8],
        asked: &[u8],
        members: &[Member],
        imports: bool,
    ) -> Look<Option<Vec<u8>>> {
        if asked.ends_with(b"/") {
            self.mark(Point::KeySlash);
            return Ok(None);
        }
        self.mark_if(asked.contains(&b'*'), Point::KeyStarAsked);
        if let Some(target) = get(members, asked).filter(|_| !asked.contains(&b'*')) {
            self.mark(Point::KeyLiteral);
            let request = Request { directory, key: asked, matched: None, imports };
            return self.package_target_resolve(&request, target, 0);
        }
        let Some((member, matched)) = self.best_key(asked, members) else {
            self.mark(Point::KeyNone);
            return Ok(None);
        };
        self.mark_key(&member.name, matched);
        let request = Request { directory, key: &member.name, matched: Some(matched), imports };
        self.package_target_resolve(&request, &member.value, 0)
    }

    fn mark_key(&mut self, key: &[u8], matched: &[u8]) {
        let star = key.contains(&b'*');
        self.mark(if star { Point::KeyStar } else { Point::KeyFolder });
        self.mark_if(star && matched.is_empty(), Point::KeyStarEmpty);
        self.mark_if(star && !key.ends_with(b"*"), Point::KeyStarTrailer);
    }

    fn best_key<'b, 'c>(&mut self, asked: &'c [u8], members: &'b [Member]) -> Option<(&'b Member, &'c [u8])> {
        let mut best: Option<(&Member, &[u8])> = None;
        for member in members {
            self.mark_if(member.name.iter().filter(|&&b| b == b'*').count() > 1, Point::KeyTwoStars);
            self.mark_if(member.name.starts_with(b"#"), Point::KeyHash);
            if let Some(matched) = pattern_match(asked, &member.name) {
                let better = best.is_none_or(|(known, _)| self.comes_first(&member.name, &known.name));
                best = if better { Some((member, matched)) } else { best };
            }
        }
        best
    }

    /// Whether `pattern_key_compare` puts the new key strictly before the one known.
    fn comes_first(&mut self, new: &[u8], known: &[u8]) -> bool {
        let (new_base, known_base) = (base_length(new), base_length(known));
        if new_base != known_base {
            self.mark(Point::CompareBase);
            return new_base > known_base;
        }
        if !known.contains(&b'*') || !new.contains(&b'*') {
            self.mark(Point::CompareFolder);
            return !known.contains(&b'*');
        }
        self.mark(Point::CompareLength);
        new.len() > known.len()
    }

    /// The path that the target gives, if any; its query and fragment are left in the context.
    fn package_target_resolve(&mut self, request: &Request, target: &Json, depth: usize) -> Look<Option<Vec<u8>>> {
        self.mark_if(depth == 4, Point::TargetDeep);
        match target {
            Json::Text(text) => self.string_target(request, text),
            Json::Object(members) => self.conditions(request, members, depth),
            Json::Array(elements) => self.elements(request, elements, depth),
            Json::Scalar => {
                self.mark(Point::TargetScalar);
                Ok(None)
            }
        }
    }

    fn conditions(&mut self, request: &Request, members: &[Member], depth: usize) -> Look<Option<Vec<u8>>> {
        self.mark_repeats(members, if depth == 0 { Point::RepeatedCondition } else { Point::RepeatedDeep });
        for member in members {
            if member.name == b"default" {
                self.mark(Point::TargetDefault);
            } else if self.settings[CONDITIONS].contains(&member.name) {
                self.mark(Point::TargetCondition);
            } else {
                self.mark(Point::TargetConditionSkipped);
                continue;
            }
            let found = self.package_target_resolve(request, &member.value, depth + 1)?;
            if found.is_some() {
                return Ok(found);
            }
            self.mark(Point::TargetConditionNull);
        }
        Ok(None)
    }

    fn elements(&mut self, request: &Request, elements: &[Json], depth: usize) -> Look<Option<Vec<u8>>> {
        let Some((last, others)) = elements.split_last() else {
            self.mark(Point::TargetArrayEmpty);
            return Err(End::new(4, &[request.matched.unwrap_or(b"."), request.directory]));
        };
        self.mark(Point::TargetArray);
        for element in others {
            match self.package_target_resolve(request, element, depth + 1) {
                Ok(Some(path)) => return Ok(Some(path)),
                Ok(None) => self.mark(Point::TargetArrayNull),
                Err(end) if end.is_refusal() => {
                    self.mark(Point::TargetArrayRefused);
                    return Err(end);
                }
                Err(end) => {
                    self.mark(Point::TargetArrayDrops);
                    self.mark_if(end.number == 56, Point::TargetArrayRecursion);
                }
            }
        }
        match self.package_target_resolve(request, last, depth + 1) {
            // A package that is not found leaves nothing.
            Err(end) if end.number == 1 => {
                self.mark(Point::TargetArrayNotFound);
                Ok(None)
            }
            found => found,
        }
    }

    fn string_target(&mut self, request: &Request, text: &[u8]) -> Look<Option<Vec<u8>>> {
        let Some(parsed) = parse_specifier(text) else {
            self.mark(Point::TargetEmpty);
            return Err(End::new(2, &[text]));
        };
        self.context.parsed += 1;
        self.with_query_fragment(&parsed);
        if request.imports && !parsed.path.starts_with(b"./") {
            return self.bare_target(request, parsed.path);
        }
        self.mark_if(request.imports, Point::ImportsPath);
        if !parsed.path.starts_with(b"./") {
            self.mark(Point::TargetNoDot);
            return Err(End::new(3, &[&parsed.path, request.key, &manifest_of(request.directory)]));
        }
        let target = self.normalize_string_target(request, parsed.path)?;
        if target.len() > 2_048 {
            self.mark(Point::TargetTooLong);
            return Err(End::new(42, &[]));
        }
        if is_invalid_exports_target(&target) {
            self.mark(Point::TargetInvalid);
            return Err(End::new(3, &[&target, request.key, &manifest_of(request.directory)]));
        }
        self.normalize_with(request.directory, &target).map(Some)
    }

    fn with_query_fragment(&mut self, parsed: &Parsed) {
        self.mark_if(!parsed.query.is_empty(), Point::ParseQuery);
        self.mark_if(!parsed.fragment.is_empty(), Point::ParseFragment);
        self.mark_if(parsed.escaped, Point::ParseEscape);
        self.mark_if(parsed.escaped && !parsed.path.is_ascii(), Point::ParseWidened);
        for (old, new) in [(&self.context.query, &parsed.query), (&self.context.fragment, &parsed.fragment)] {
            let point = if new.is_empty() { Point::ContextKept } else { Point::ContextReplaced };
            self.marks[point as usize] += u64::from(!old.is_empty());
        }
        if !parsed.query.is_empty() {
            self.context.query.clone_from(&parsed.query);
        }
        if !parsed.fragment.is_empty() {
            self.context.fragment.clone_from(&parsed.fragment);
            self.context.fragment_of = self.context.parsed;
        }
    }

    fn normalize_string_target(&mut self, request: &Request, target: Vec<u8>) -> Look<Vec<u8>> {
        let Some(matched) = request.matched else {
            self.mark(Point::TargetPlain);
            return Ok(target);
        };
        if request.key.contains(&b'*') || target.contains(&b'*') {
            self.mark(Point::TargetReplaced);
            return Ok(target.split(|&b| b == b'*').collect::<Vec<_>>().join(matched));
        }
        if target.ends_with(b"/") {
            self.mark(Point::TargetAppended);
            return Ok([&target[..], matched].concat());
        }
        self.mark(Point::TargetDirectory);
        Err(End::new(6, &[&manifest_of(request.directory)]))
    }

    // ------------------------------------------------------------ imports

    fn require_hash(&mut self, start: &[u8], specifier: &[u8]) -> Look<Never> {
        self.load_package_imports(start, specifier)?;
        Err(End::new(1, &[specifier]))
    }

    fn load_package_imports(&mut self, start: &[u8], specifier: &[u8]) -> Look<()> {
        let Some(scope) = self.find_package_json(start)? else {
            self.mark(Point::ImportsNoScope);
            return Ok(());
        };
        let Some(path) = self.package_imports_resolve(specifier, &scope)? else { return Ok(()) };
        match self.resolve_esm_match(specifier, &path)? {}
    }

    /// None where the manifest has no imports map.
    fn package_imports_resolve(&mut self, specifier: &[u8], scope: &Scope) -> Look<Option<Vec<u8>>> {
        let imports = field(&scope.manifest, &self.settings[IMPORTS_FIELDS][0]);
        let Some(Json::Object(members)) = imports else {
            self.mark(if imports.is_some() { Point::ImportsNoMap } else { Point::ImportsNone });
            self.mark_if(specifier == b"#", Point::ImportsHashNone);
            return Ok(None);
        };
        let manifest = manifest_of(&scope.directory);
        if specifier == b"#" {
            self.mark(Point::ImportsHash);
            return Err(End::new(50, &[specifier, &manifest]));
        }
        self.mark_repeats(members, Point::RepeatedKey);
        let found = self.package_imports_exports_resolve(&scope.directory, specifier, members, true)?;
        if found.is_none() {
            self.mark(Point::ImportsNotDefined);
            return Err(End::new(51, &[specifier, &manifest]));
        }
        Ok(found)
    }

    /// An imports target that does not begin with "./".
    fn bare_target(&mut self, request: &Request, path: Vec<u8>) -> Look<Option<Vec<u8>>> {
        if path.starts_with(b"../") || path.starts_with(b"/") {
            self.mark(Point::ImportsTargetClimbs);
            return Err(End::new(3, &[&path, request.key, &manifest_of(request.directory)]));
        }
        let target = self.normalize_string_target(request, path)?;
        if target.len() > 2_048 {
            self.mark(Point::ImportsTargetTooLong);
            return Err(End::new(42, &[]));
        }
        self.package_resolve(request.directory, &target).map(Some)
    }

    fn package_resolve(&mut self, directory: &[u8], specifier: &[u8]) -> Look<Vec<u8>> {
        let name = package_name(specifier);
        let subpath = dot_subpath(&specifier[name.len()..]);
        self.mark(Point::PackageResolve);
        self.mark_if(matches!(name, b"." | b".."), Point::PackageDots);
        self.mark_if(name.starts_with(b"#"), Point::PackageHash);
        for (i, directory) in directories(directory).into_iter().enumerate() {
            self.mark_if(i > 0, Point::PackageSecond);
            self.mark_if(i > 0 && directory == b"/", Point::PackageRoot);
            let modules = self.normalize_with(directory, b"node_modules")?;
            if !self.is_dir(&modules)? {
                continue;
            }
            let package = self.normalize_with(&modules, name)?;
            self.mark_if(name.is_empty(), Point::PackageNameEmpty);
            if self.is_dir(&package)? {
                return self.in_package_resolve(&package, &subpath);
            }
        }
        self.mark(Point::PackageNotFound);
        Err(End::new(1, &[specifier]))
    }

    fn in_package_resolve(&mut self, package: &[u8], subpath: &[u8]) -> Look<Vec<u8>> {
        if let Some(manifest) = self.get_package_json(package)? {
            if let Some(exports) = self.exports_field(&manifest) {
                self.mark(Point::PackageResolveExports);
                return self.package_exports_resolve(package, subpath, exports);
            }
            self.mark(Point::PackageResolveNoExports);
        } else {
            self.mark(Point::PackageResolveNoManifest);
        }
        let required = self.require(package, subpath);
        match &required {
            Ok(_) => self.mark(Point::RequireFound),
            Err(end) if end.number == 1 => self.mark(if subpath == b"." { Point::RequireNotFoundDot } else { Point::RequireNotFound }),
            Err(_) => {}
        }
        required
    }

    /// The path of the file that the relative step finds.
    fn require(&mut self, directory: &[u8], specifier: &[u8]) -> Look<Vec<u8>> {
        let (depth, passed) = self.context.depth.overflowing_add(1);
        self.context.depth = depth;
        self.mark_if(passed, Point::RequireWraps);
        if depth > 64 {
            self.mark(Point::RequireRecursion);
            return Err(End::new(56, &[]));
        }
        let parsed = parse_specifier(specifier).ok_or_else(|| End::new(2, &[specifier]))?;
        self.mark_if(parsed.escaped, Point::RequireEscapedAgain);
        self.mark_if(!parsed.fragment.is_empty() || !parsed.query.is_empty(), Point::RequireParsedAgain);
        self.with_query_fragment(&parsed);
        let Context { query, fragment, .. } = &self.context;
        match (query.is_empty(), fragment.is_empty()) {
            (true, false) => {
                if let Some(path) = self.require_joined(directory, &parsed.path)? {
                    return Ok(path);
                }
            }
            (false, false) => self.mark(Point::RequireQuery),
            _ => {}
        }
        self.require_without_parse(directory, &parsed.path)
    }

    /// `load_parse`: the fragment as a part of the path.
    fn require_joined(&mut self, directory: &[u8], path: &[u8]) -> Look<Option<Vec<u8>>> {
        let fragment = std::mem::take(&mut self.context.fragment);
        let joined = [path, &fragment].concat();
        let bare = path == b".";
        self.mark(if bare { Point::JoinedBare } else { Point::JoinedRelative });
        self.mark_if(self.context.fragment_of < self.context.parsed, Point::JoinedEarlier);
        match self.require_without_parse(directory, &joined) {
            Ok(path) => {
                self.mark(if bare { Point::JoinedBareFound } else { Point::JoinedFound });
                self.mark_if(!self.context.query.is_empty() || !self.context.fragment.is_empty(), Point::JoinedFoundWith);
                Ok(Some(path))
            }
            Err(end) if end.is_refusal() => {
                self.mark_if(end.number != 53, Point::JoinedRefused);
                Err(end)
            }
            Err(end) => {
                self.mark(Point::JoinedDrops);
                self.mark_if(end.number == 7, Point::JoinedDropsFault);
                self.mark_if(!matches!(end.number, 1 | 7), Point::JoinedDropsExports);
                self.mark_if(!self.context.query.is_empty(), Point::JoinedLeavesQuery);
                self.context.fragment = fragment;
                Ok(None)
            }
        }
    }

    /// A text that begins with ".": a path, or a bare name such as ".#f".
    fn require_without_parse(&mut self, directory: &[u8], specifier: &[u8]) -> Look<Vec<u8>> {
        let first = split_at(specifier, b'/').0;
        let tried = if matches!(first, b"." | b"..") {
            self.require_relative(directory, specifier)
        } else {
            self.load_package_self_or_node_modules(directory, specifier)
        };
        match tried {
            Err(end) if end.number == 0 => Ok(end.texts[0].clone()),
            Err(end) => Err(end),
            Ok(never) => match never {},
        }
    }

    fn require_relative(&mut self, directory: &[u8], specifier: &[u8]) -> Look<Never> {
        let path = self.normalize_with(directory, specifier)?;
        if specifier != b"." && !specifier.ends_with(b"/") {
            self.load_as_file(&path)?;
        }
        self.mark_if(specifier.ends_with(b"/"), Point::RelativeFolder);
        if self.is_dir(&path)? {
            self.load_as_directory(&path)?;
        }
        Err(End::new(1, &[specifier]))
    }
}
