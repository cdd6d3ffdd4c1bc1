//! What tests of a frontend need: what it makes is solved in the test, and the tree that comes out is compared.
//!
//! ```no_run
//! use llbm::testing::{dir, fails, files, image, solve};
//! # let definition = &[][..];
//! let result = solve(definition, &[dir("src", "testdata/src"), files("ctx", &[("a", "text")]), image("alpine:3.19", "testdata/image")]);
//! result.file("/x").equals("text").mode(0o644).owner(7, 5);
//! result.missing("/y").golden("testdata/r.tree").same_as_buildkit();
//! fails(definition, "there is no file /src/b.txt", &[files("src", &[])]);
//! ```
//!
//! A definition is the bytes that a client marshals. It is solved in this process if the library is linked, or else by the program that the
//! variable LLBM names; if neither is there, the test fails, with these names. Images, reasons and BuildKit's rules are those of llbm-tools,
//! which LLBM_TOOLS names, or else it is on the path; filters of a source are those of llbm-rules, which LLBM_RULES names. With the variable
//! LLBM_UPDATE golden trees are written anew. Each check panics if it is not so.

use crate::trees::{Entry, Tree};
use crate::Fault;
use std::collections::{BTreeMap, HashSet};
use std::ffi::OsString;
use std::io::Write;
use std::os::unix::fs::PermissionsExt;
use std::path::{Path, PathBuf};
use std::process::{Command, Output, Stdio};
use std::sync::atomic::{AtomicU32, Ordering};
use std::{env, fs, process};

const UPDATE: &str = "LLBM_UPDATE";
const PROGRAM: &str = "LLBM";
const TOOLS: &str = "LLBM_TOOLS";
const RULES: &str = "LLBM_RULES";
const FILTERS: [&str; 3] = ["local.includepattern", "local.excludepatterns", "local.followpaths"];
const LOCAL: &str = "local://";
const IMAGE: &str = "docker-image://";

/// A tree for a local source, or in the place of an image.
#[derive(Clone, Debug)]
pub struct Source {
    name: String,
    is_image: bool,
    content: Content,
}

#[derive(Clone, Debug)]
enum Content {
    Folder(PathBuf),
    Files(Vec<(String, Vec<u8>)>),
}

/// A directory as the local source of a name. As from a client of BuildKit, its filters select what is in it, and all is owned by 0:0.
pub fn dir(name: &str, folder: impl AsRef<Path>) -> Source {
    Source { name: name.to_string(), is_image: false, content: Content::Folder(folder.as_ref().to_path_buf()) }
}

/// A local source with these files, by their paths, each of mode 0644; its filters select among them.
pub fn files(name: &str, files: &[(&str, &str)]) -> Source {
    let files = files.iter().map(|(path, content)| (path.to_string(), content.as_bytes().to_vec()));
    Source { name: name.to_string(), is_image: false, content: Content::Files(files.collect()) }
}

/// A directory in the place of an image, such as `alpine:3.19`. All in it is owned by 0:0.
pub fn image(name: &str, folder: impl AsRef<Path>) -> Source {
    Source { is_image: true, ..dir(name, folder) }
}

/// The tree of a definition that was solved in a test.
pub struct Outcome {
    tree: Tree,
    definition: Vec<u8>,
    trees: BTreeMap<String, String>,
}

/// Returns what a definition makes; panics with the reason if it is refused or fails.
#[track_caller]
pub fn solve(definition: &[u8], sources: &[Source]) -> Outcome {
    match solved(definition, sources) {
        Ok(outcome) => outcome,
        Err(reason) => panic!("llbm: {reason}"),
    }
}

/// Checks that a definition is refused or fails, with a reason that has these words.
#[track_caller]
pub fn fails(definition: &[u8], words: &str, sources: &[Source]) {
    match solved(definition, sources) {
        Ok(outcome) => panic!("it does not fail with {words:?}, but makes\n{}", outcome.tree),
        Err(reason) => assert!(reason.contains(words), "it does not fail with {words:?}, but with\n{reason}"),
    }
}

impl Outcome {
    /// The tree itself.
    pub fn tree(&self) -> &Tree {
        &self.tree
    }

    /// Returns what is at a path; panics if nothing is there.
    #[track_caller]
    pub fn file(&self, path: &str) -> File<'_> {
        File(self.tree.get(path).unwrap_or_else(|| panic!("there is nothing at {path} in\n{}", self.tree)))
    }

    /// Checks that nothing is at a path.
    #[track_caller]
    pub fn missing(&self, path: &str) -> &Outcome {
        if let Some(entry) = self.tree.get(path) {
            panic!("there is something at {path}: {entry}");
        }
        self
    }

    /// Checks that the tree is that of a file; with the variable LLBM_UPDATE it writes the file.
    #[track_caller]
    pub fn golden(&self, file: impl AsRef<Path>) -> &Outcome {
        let file = file.as_ref();
        if env::var_os(UPDATE).is_some_and(|value| !value.is_empty()) {
            write_whole(file, self.tree.text().as_bytes());
            return self;
        }
        let text = fs::read_to_string(file).unwrap_or_else(|_| panic!("there is no golden tree {}; {UPDATE}=1 writes it", file.display()));
        let golden = Tree::parse(&text).unwrap_or_else(|fault| panic!("{}: {fault}", file.display()));
        let difference = golden.diff(&self.tree);
        assert!(difference.is_empty(), "the tree is not that of {} (-), which {UPDATE}=1 writes anew:\n{difference}", file.display());
        self
    }

    /// Checks that BuildKit makes the same tree, by the rules that llbm-rules has; the failure has the notes.
    #[track_caller]
    pub fn same_as_buildkit(&self) -> &Outcome {
        let folder = Folder::new();
        let mut command = Command::new(tools_for("has BuildKit's rules"));
        command.args(["explain", "buildkit"]).args(with_program()).arg("-").args(folder.given(&self.trees));
        let done = called(&mut command, &self.definition);
        assert!(done.status.success(), "BuildKit makes another tree:\n{}{}", lossy(&done.stdout), lossy(&done.stderr));
        self
    }
}

/// What is at a path of an outcome.
#[derive(Clone, Copy)]
pub struct File<'a>(&'a Entry);

impl<'a> File<'a> {
    /// The entry itself.
    pub fn entry(&self) -> &'a Entry {
        self.0
    }

    /// Checks that it is a file with this content.
    #[track_caller]
    pub fn equals(self, content: &str) -> File<'a> {
        assert!(!self.0.is_directory, "{} is a directory, not a file with {content:?}", self.0.path);
        assert!(self.0.content == content.as_bytes(), "{} has not the content {content:?}: {}", self.0.path, self.0);
        self
    }

    /// Checks the mode, as 0o644.
    #[track_caller]
    pub fn mode(self, mode: u32) -> File<'a> {
        assert!(self.0.mode == mode, "{} has not the mode {mode:04o}, but {:04o}", self.0.path, self.0.mode);
        self
    }

    /// Checks the user and the group.
    #[track_caller]
    pub fn owner(self, user: u32, group: u32) -> File<'a> {
        let (uid, gid) = (self.0.uid, self.0.gid);
        assert!((uid, gid) == (user, group), "{} has not the owner {user}:{group}, but {uid}:{gid}", self.0.path);
        self
    }
}

// Returns the outcome of a definition, or why there is none.
#[track_caller]
fn solved(definition: &[u8], sources: &[Source]) -> Result<Outcome, String> {
    let folder = Folder::new();
    let (definition, images) = if sources.iter().any(|one| one.is_image) { adopted(definition, &folder) } else { (definition.to_vec(), BTreeMap::new()) };
    let mut trees = BTreeMap::new();
    for (number, source) in sources.iter().enumerate() {
        let is_there = source.is_image || has_source(&definition, &source.name);
        assert!(is_there, "the definition has no local source {}", source.name);
        let place = source.place(&folder, number);
        let name = if source.is_image { images.get(&image_name(&source.name)) } else { Some(&source.name) };
        let name = name.unwrap_or_else(|| panic!("the definition has no image {}", source.name));
        let selected = if source.is_image { None } else { selected(&definition, name, &place) };
        trees.insert(name.clone(), source.tree(&place, selected.as_ref()).text());
    }
    match run(&definition, &trees, &folder) {
        Ok(text) => Ok(Outcome { tree: Tree::parse(&text).unwrap(), definition, trees }),
        Err(fault) => Err(reason(&fault, &definition, &trees, &folder)),
    }
}

#[cfg(llbm_library)]
fn run(definition: &[u8], trees: &BTreeMap<String, String>, _: &Folder) -> Result<String, Fault> {
    let mut machine = crate::Machine::new();
    for (name, text) in trees {
        machine.add_local(name, text)?;
    }
    machine.run(definition)
}

#[cfg(not(llbm_library))]
fn run(definition: &[u8], trees: &BTreeMap<String, String>, folder: &Folder) -> Result<String, Fault> {
    let Some(program) = env::var_os(PROGRAM) else {
        panic!("there is nothing to solve it with: the library was not linked, and {PROGRAM} names no program llbm");
    };
    let done = called(Command::new(program).arg("run").args(folder.given(trees)), definition);
    match done.status.code() {
        Some(0) => Ok(lossy(&done.stdout)),
        status => Err(Fault::of(status.unwrap_or(3) as u8, lossy(&done.stderr))),
    }
}

// Returns the fault, and what llbm-tools says of it, if it is there.
fn reason(fault: &Fault, definition: &[u8], trees: &BTreeMap<String, String>, folder: &Folder) -> String {
    let Some(tools) = tools() else {
        return format!("{}(llbm-tools, which says why, is neither in {TOOLS} nor on the path)", fault.messages);
    };
    let done = called(Command::new(tools).arg("run").args(with_program()).arg("run").args(folder.given(trees)), definition);
    if done.stderr.is_empty() { fault.messages.clone() } else { lossy(&done.stderr) }
}

// Puts local sources in the place of images, and returns the definition, and their names by those of the images.
#[track_caller]
fn adopted(definition: &[u8], folder: &Folder) -> (Vec<u8>, BTreeMap<String, String>) {
    let (made, sources) = (folder.0.join("adopted"), folder.0.join("sources"));
    let mut command = Command::new(tools_for("replaces images"));
    command.args(["adopt", "--leave"]).arg("-o").arg(&made).arg("--sources").arg(&sources).arg("-");
    let done = called(&mut command, definition);
    assert!(done.status.success(), "{}", lossy(&done.stderr));
    let list = fs::read_to_string(sources).unwrap();
    let pairs = list.lines().filter_map(|line| line.split_once('\t'));
    let images = pairs.filter_map(|(name, old)| Some((image_name(old.strip_prefix(IMAGE)?), name.to_string())));
    (fs::read(made).unwrap(), images.collect())
}

// Returns the paths that the filters of a local source select, or `None` if there are none.
#[track_caller]
fn selected(definition: &[u8], name: &str, place: &Path) -> Option<HashSet<String>> {
    if !FILTERS.iter().any(|key| definition.windows(key.len()).any(|part| part == key.as_bytes())) {
        return None;
    }
    let rules = env::var_os(RULES).unwrap_or_else(|| "llbm-rules".into());
    let done = called(Command::new(rules).arg("select").arg(name).arg(place), definition);
    assert!(done.status.success(), "{}", lossy(&done.stderr));
    let paths: HashSet<String> = lossy(&done.stdout).split_terminator('\0').map(str::to_string).collect();
    if paths.len() == 1 && paths.contains(".") { None } else { Some(paths) }
}

// Returns whether a definition has a local source, an identifier after its length in one byte or two.
fn has_source(definition: &[u8], name: &str) -> bool {
    let text = [LOCAL, name].concat();
    let length = text.len();
    let mut bytes = if length < 128 { vec![length as u8] } else { vec![(length % 128 + 128) as u8, (length / 128) as u8] };
    bytes.extend_from_slice(text.as_bytes());
    definition.windows(bytes.len()).any(|part| part == bytes)
}

// Returns the name and the tag of an image, without what is added to them by default, and without a digest.
fn image_name(name: &str) -> String {
    let name = name.strip_prefix("docker.io/").unwrap_or(name);
    let name = name.strip_prefix("library/").unwrap_or(name);
    let (named, digest) = name.split_once('@').unwrap_or((name, ""));
    let has_tag = named.rsplit('/').next().unwrap_or(named).contains(':');
    if has_tag {
        named.to_string()
    } else if digest.is_empty() {
        format!("{named}:latest")
    } else {
        name.to_string()
    }
}

impl Source {
    fn place(&self, folder: &Folder, number: usize) -> PathBuf {
        let files = match &self.content {
            Content::Folder(place) => return place.clone(),
            Content::Files(files) => files,
        };
        let place = folder.0.join(format!("files-{number}"));
        fs::create_dir(&place).unwrap();
        for (path, content) in files {
            let file = place.join(path.trim_start_matches('/'));
            fs::create_dir_all(file.parent().unwrap()).unwrap();
            fs::write(file, content).unwrap();
        }
        place
    }

    #[track_caller]
    fn tree(&self, place: &Path, selected: Option<&HashSet<String>>) -> Tree {
        assert!(place.is_dir(), "there is no such directory: {}", place.display());
        let mut entries = Vec::new();
        self.walk(place, "", selected, &mut entries);
        Tree::of(entries).unwrap()
    }

    #[track_caller]
    fn walk(&self, place: &Path, path: &str, selected: Option<&HashSet<String>>, entries: &mut Vec<Entry>) {
        for found in fs::read_dir(place).unwrap() {
            let found = found.unwrap();
            let path = format!("{path}/{}", found.file_name().to_str().expect("a name is UTF-8"));
            if selected.is_some_and(|paths| !paths.contains(&path[1..])) {
                continue;
            }
            let (kind, mode) = (found.file_type().unwrap(), found.metadata().unwrap().permissions().mode() & 0o7777);
            let is_made = matches!(self.content, Content::Files(_));
            let mode = if !is_made { mode } else if kind.is_dir() { 0o755 } else { 0o644 };
            if kind.is_dir() {
                self.walk(&found.path(), &path, selected, entries);
                entries.push(Entry { mode, ..Entry::directory(&path) });
            } else {
                assert!(kind.is_file(), "a tree has only directories and files, not a link or the like: {}", found.path().display());
                entries.push(Entry { mode, ..Entry::file(&path, &fs::read(found.path()).unwrap()) });
            }
        }
    }
}

// A temporary folder, which is removed in the end.
struct Folder(PathBuf);

impl Folder {
    fn new() -> Folder {
        static NEXT: AtomicU32 = AtomicU32::new(0);
        let folder = env::temp_dir().join(format!("llbm-testing-{}-{}", process::id(), NEXT.fetch_add(1, Ordering::Relaxed)));
        fs::create_dir(&folder).unwrap();
        Folder(folder)
    }

    // Writes trees into files, and returns NAME=FILE of each.
    fn given(&self, trees: &BTreeMap<String, String>) -> Vec<OsString> {
        let mut words = Vec::new();
        for (number, (name, text)) in trees.iter().enumerate() {
            let file = self.0.join(format!("{number}.tree"));
            fs::write(&file, text).unwrap();
            let mut word = OsString::from(format!("{name}="));
            word.push(file);
            words.push(word);
        }
        words
    }
}

impl Drop for Folder {
    fn drop(&mut self) {
        let _ = fs::remove_dir_all(&self.0);
    }
}

// Writes a file, which appears complete.
fn write_whole(file: &Path, content: &[u8]) {
    fs::create_dir_all(file.parent().unwrap_or(Path::new("."))).unwrap();
    let new = file.with_extension("new");
    fs::write(&new, content).unwrap();
    fs::rename(new, file).unwrap();
}

fn lossy(bytes: &[u8]) -> String {
    String::from_utf8_lossy(bytes).into_owned()
}

// Returns the path of llbm-tools, if it is there.
fn tools() -> Option<PathBuf> {
    if let Some(place) = env::var_os(TOOLS) {
        return Some(PathBuf::from(place)).filter(|place| place.is_file());
    }
    let places = env::var_os("PATH").unwrap_or_default();
    let found = env::split_paths(&places).map(|folder| folder.join("llbm-tools")).find(|place| place.is_file());
    found
}

#[track_caller]
fn tools_for(what: &str) -> PathBuf {
    tools().unwrap_or_else(|| panic!("llbm-tools, which {what}, is neither in {TOOLS} nor on the path"))
}

fn with_program() -> Vec<OsString> {
    env::var_os(PROGRAM).map_or(Vec::new(), |program| vec!["--llbm".into(), program])
}

#[track_caller]
fn called(command: &mut Command, given: &[u8]) -> Output {
    let child = command.stdin(Stdio::piped()).stdout(Stdio::piped()).stderr(Stdio::piped()).spawn();
    let mut child = child.unwrap_or_else(|fault| panic!("{fault}: {}", command.get_program().to_string_lossy()));
    let mut input = child.stdin.take().unwrap();
    let given = given.to_vec();
    // A program may end without reading all of it.
    let writer = std::thread::spawn(move || drop(input.write_all(&given)));
    let done = child.wait_with_output().unwrap();
    writer.join().unwrap();
    done
}
