//! Trees of directories and files, as runs make them: read from their texts, looked into, printed and compared.

use std::collections::BTreeMap;
use std::fmt;

const MOST_SHOWN: usize = 200;

/// A directory or a file: its path from the root (the root is `/`), mode, owner and content.
#[derive(Clone, Debug, PartialEq, Eq)]
pub struct Entry {
    pub path: String,
    pub is_directory: bool,
    pub mode: u32,
    pub uid: u32,
    pub gid: u32,
    pub content: Vec<u8>,
}

impl Entry {
    /// A directory of 0:0 and mode 0755.
    pub fn directory(path: &str) -> Entry {
        Entry { path: path.to_string(), is_directory: true, mode: 0o755, uid: 0, gid: 0, content: Vec::new() }
    }

    /// A file of 0:0 and mode 0644.
    pub fn file(path: &str, content: &[u8]) -> Entry {
        Entry { path: path.to_string(), is_directory: false, mode: 0o644, uid: 0, gid: 0, content: content.to_vec() }
    }
}

impl fmt::Display for Entry {
    fn fmt(&self, f: &mut fmt::Formatter<'_>) -> fmt::Result {
        write!(f, "{} {:04o} {}:{} ", self.path, self.mode, self.uid, self.gid)?;
        match std::str::from_utf8(&self.content) {
            _ if self.is_directory => write!(f, "directory"),
            Ok(text) if text.len() <= MOST_SHOWN => write!(f, "{text:?}"),
            _ => write!(f, "{} bytes, {}..", self.content.len(), hex(&self.content[..self.content.len().min(20)])),
        }
    }
}

/// A tree: its entries by the names of their paths, the root first.
#[derive(Clone, Debug, PartialEq, Eq)]
pub struct Tree(BTreeMap<Vec<String>, Entry>);

impl Tree {
    /// The tree of entries; the root and directories above an entry are added. Fails if an entry has no valid path, or if a file is above it.
    pub fn of(entries: impl IntoIterator<Item = Entry>) -> Result<Tree, String> {
        let mut found = BTreeMap::from([(Vec::new(), Entry::directory("/"))]);
        for entry in entries {
            let names = names_of(&entry.path);
            if entry.path != path_of(&names) || names.is_empty() && !entry.is_directory {
                return Err(format!("not the path of an entry: {:?}", entry.path));
            }
            found.insert(names, entry);
        }
        for names in found.keys().cloned().collect::<Vec<_>>() {
            for length in 1..names.len() {
                let above = path_of(&names[..length]);
                let entry = found.entry(names[..length].to_vec()).or_insert_with(|| Entry::directory(&above));
                if !entry.is_directory {
                    return Err(format!("a file is above {}: {above}", path_of(&names)));
                }
            }
        }
        Ok(Tree(found))
    }

    /// The tree of a text, as the library and the program print it.
    pub fn parse(text: &str) -> Result<Tree, String> {
        let lines = text.strip_suffix('\n').unwrap_or(text).split('\n').enumerate();
        let entries = lines.map(|(at, line)| entry_of(line).ok_or_else(|| format!("line {}: not an entry of a tree: {line:.80}", at + 1)));
        Tree::of(entries.collect::<Result<Vec<_>, _>>()?)
    }

    /// What is at a path.
    pub fn get(&self, path: &str) -> Option<&Entry> {
        self.0.get(&names_of(path))
    }

    /// All entries in path order.
    pub fn entries(&self) -> impl Iterator<Item = &Entry> {
        self.0.values()
    }

    /// The text of the tree, which `parse` and the library read.
    pub fn text(&self) -> String {
        self.entries().map(line_of).collect()
    }

    /// A line for each path at which the trees differ: `-` before what is here, `+` before what is there.
    pub fn diff(&self, other: &Tree) -> String {
        let mut all: Vec<_> = self.0.keys().chain(other.0.keys()).collect();
        all.sort();
        all.dedup();
        let mut lines = String::new();
        for names in all {
            let (here, there) = (self.0.get(names), other.0.get(names));
            if here != there {
                lines += &here.map_or(String::new(), |one| format!("- {one}\n"));
                lines += &there.map_or(String::new(), |one| format!("+ {one}\n"));
            }
        }
        lines
    }
}

/// For a person: a line for each entry.
impl fmt::Display for Tree {
    fn fmt(&self, f: &mut fmt::Formatter<'_>) -> fmt::Result {
        self.entries().try_for_each(|entry| writeln!(f, "{entry}"))
    }
}

fn names_of(path: &str) -> Vec<String> {
    path.split('/').filter(|name| !name.is_empty()).map(str::to_string).collect()
}

fn path_of(names: &[String]) -> String {
    format!("/{}", names.join("/"))
}

fn hex(bytes: &[u8]) -> String {
    bytes.iter().map(|byte| format!("{byte:02x}")).collect()
}

fn bytes_of(hex: &str) -> Option<Vec<u8>> {
    let digits = hex.as_bytes();
    if digits.len() % 2 == 1 || !digits.iter().all(u8::is_ascii_hexdigit) {
        return None;
    }
    (0..digits.len()).step_by(2).map(|at| u8::from_str_radix(&hex[at..at + 2], 16).ok()).collect()
}

fn line_of(entry: &Entry) -> String {
    let head = format!("{:04o} {} {}", entry.mode, entry.uid, entry.gid);
    if entry.is_directory {
        return format!("d {head} {}\n", entry.path);
    }
    let content = if entry.content.is_empty() { "-".to_string() } else { hex(&entry.content) };
    format!("f {head} {content} {}\n", entry.path)
}

fn entry_of(line: &str) -> Option<Entry> {
    let is_directory = line.starts_with("d ");
    if !is_directory && !line.starts_with("f ") {
        return None;
    }
    let words: Vec<&str> = line[2..].splitn(if is_directory { 4 } else { 5 }, ' ').collect();
    let (path, content) = match words[..] {
        [_, _, _, path] if is_directory => (path, Vec::new()),
        [_, _, _, "-", path] => (path, Vec::new()),
        [_, _, _, content, path] => (path, bytes_of(content)?),
        _ => return None,
    };
    let mode = u32::from_str_radix(words[0], 8).ok()?;
    Some(Entry { path: path.to_string(), is_directory, mode, uid: words[1].parse().ok()?, gid: words[2].parse().ok()?, content })
}
