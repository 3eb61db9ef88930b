//! What is asked of the Rust: runs of lowering calls, and what its trees hold.

use crate::database::Database;
use crate::imports::Expansion;
use crate::item_tree::{ImportAlias, ItemTree};
use crate::name::Name;

#[derive(Debug, Clone, Copy, PartialEq, Eq)]
pub enum Call {
    Root,
    Node(u32),
}

#[derive(Debug, Clone, Copy, PartialEq, Eq)]
pub enum Answer {
    /// of root lowering: how many items stand at the top level
    Count(u32),
    /// of a single item: its id, unless it was passed over
    Id(Option<u32>),
    Refused(u32),
}

/// A finalized tree, with the answers of the calls that made it.
pub struct Run {
    pub answers: Vec<Answer>,
    pub tree: ItemTree,
    /// the fullest that a refused call would have made the tables
    pub refused: Vec<Counts>,
}

/// How many entries a tree has in each table that has a limit.
#[derive(Debug, Clone, Copy, Default, PartialEq, Eq)]
pub struct Counts {
    pub small: usize,
    pub big: usize,
    pub attrs: usize,
    pub visibilities: usize,
    pub ctors: usize,
    pub uses: usize,
    pub paths: usize,
    pub segments: usize,
}

pub const LIMITS: Counts = Counts {
    small: 512,
    big: 256,
    attrs: 512,
    visibilities: 128,
    ctors: 256,
    uses: 1024,
    paths: 512,
    segments: 2048,
};

pub const TABLES: [&str; 8] =
    ["small records", "big records", "attributes", "module visibilities", "constructor entries", "use nodes", "paths", "segments"];

impl Counts {
    pub fn all(&self) -> [usize; 8] {
        [self.small, self.big, self.attrs, self.visibilities, self.ctors, self.uses, self.paths, self.segments]
    }

    pub fn fit(&self) -> bool {
        self.all().iter().zip(LIMITS.all()).all(|(count, limit)| *count <= limit)
    }
}

/// One import, as the Rust's `expand` hands it over.
#[derive(Debug, Clone, PartialEq, Eq)]
pub struct Import {
    pub place: u32,
    pub path: String,
    /// how many names the path has
    pub names: usize,
    pub kind: &'static str,
    pub alias: Option<String>,
}

/// What is reached through a module that stands inside the Rust's own.
pub trait Lowering {
    /// A run over a new tree; refusals 4, 5 and 6 come by the rules.
    fn run(db: &Database, calls: &[Call]) -> Run;
    /// Root lowering with `finalize`, and nothing besides.
    fn lower_root(db: &Database) -> ItemTree;
    fn counts(tree: &ItemTree) -> Counts;
    /// All that a tree holds, by meaning.
    fn dump(tree: &ItemTree) -> Vec<u8>;
    /// The Rust's printed text, every byte as the character of its number.
    fn print(db: &Database, tree: &ItemTree) -> String;
    /// The imports of the use item with this id: the Rust's, its departures included, and those by the rules.
    fn expand(tree: &ItemTree, id: u32) -> Option<(Vec<Import>, Expansion)>;
    /// The use tree of each Use node, lowered by itself, with the node of each place.
    fn dump_uses(db: &Database) -> Vec<u8>;
    /// The attributes of the root and of its first items, each list merged with the next.
    fn dump_merges(db: &Database) -> Vec<u8>;
}

/// The Rust.
pub struct Original;

/// A text in quotes; bytes that do not print stand as a backslash and two digits.
pub fn quoted(text: &str) -> String {
    let mut out = "\"".to_owned();
    for byte in crate::name::bytes(text) {
        match byte {
            b'"' | b'\\' | 0..32 | 127.. => out.push_str(&format!("\\{byte:02x}")),
            _ => out.push(char::from(byte)),
        }
    }
    out + "\""
}

pub fn shown_name(name: &Name) -> String {
    if name.is_missing() { "[missing name]".to_owned() } else { quoted(name.as_str()) }
}

pub fn shown_alias(alias: &ImportAlias) -> String {
    match alias {
        ImportAlias::Underscore => "_".to_owned(),
        ImportAlias::Alias(name) => shown_name(name),
    }
}
