//! The imports of a use item by the rules of IMPORTS.md and PATHS.md, leaf by leaf.

use crate::call::Import;
use crate::item_tree::{ImportAlias, UseTree, UseTreeKind};
use crate::mod_path::{ModPath, PathKind};
use crate::name::Name;

/// A joined path; a count of `super` has no limit here.
#[derive(Debug, Clone, PartialEq, Eq)]
struct Joined {
    kind: PathKind,
    supers: u32,
    names: Vec<Name>,
}

impl Joined {
    fn of(path: &ModPath) -> Joined {
        let supers = match path.kind {
            PathKind::Super(count) => count.into(),
            _ => 0,
        };
        Joined { kind: path.kind, supers, names: path.segments().to_vec() }
    }

    fn is_super(&self) -> bool {
        matches!(self.kind, PathKind::Super(_))
    }

    fn shown(&self) -> String {
        let mut text = match self.kind {
            PathKind::Plain => "(plain".to_owned(),
            PathKind::Super(_) => format!("(super {}", self.supers),
            PathKind::Crate => "(crate".to_owned(),
            PathKind::Abs => "(abs".to_owned(),
            PathKind::DollarCrate => "($crate".to_owned(),
        };
        for name in &self.names {
            text.push(' ');
            text.push_str(&crate::call::shown_name(name));
        }
        text + ")"
    }
}

/// How the imports of an item can differ from the Rust's, by the differences that are listed.
#[derive(Debug, Clone, Copy, Default, PartialEq, Eq)]
pub struct Departs {
    /// a group that does not join has members, which are counted
    pub places: bool,
    /// a glob of `self`, `self` behind a bare `::`, or more than 255 `super`
    pub imports: bool,
}

pub struct Expansion {
    pub imports: Vec<Import>,
    pub departs: Departs,
    place: u32,
}

pub fn by_rules(tree: &UseTree) -> Expansion {
    let mut expansion = Expansion { imports: Vec::new(), departs: Departs::default(), place: 0 };
    expansion.expand(tree, None, false);
    expansion
}

impl Expansion {
    /// `dropped`: some group around does not join.
    fn expand(&mut self, tree: &UseTree, prefix: Option<&Joined>, dropped: bool) {
        let place = self.place;
        self.place += 1;
        match tree.kind() {
            UseTreeKind::Single { path, alias } => {
                let joined = self.join(prefix, &Joined::of(path), true);
                self.import(joined.filter(|_| !dropped), place, alias.as_ref(), false);
            }
            UseTreeKind::Glob { path } => {
                let joined = match path {
                    Some(path) => self.join(prefix, &Joined::of(path), false),
                    None => prefix.map(|prefix| (prefix.clone(), false)),
                };
                self.import(joined.filter(|_| !dropped), place, None, true);
            }
            UseTreeKind::Prefixed { prefix: more, list } => {
                let joined = match more {
                    Some(path) => self.join(prefix, &Joined::of(path), false).map(|it| Some(it.0)),
                    None => Some(prefix.cloned()),
                };
                let fails = joined.is_none();
                self.departs.places |= fails && !dropped && !list.is_empty();
                let inner = joined.flatten();
                for tree in list {
                    self.expand(tree, inner.as_ref(), dropped || fails);
                }
            }
        }
    }

    fn import(&mut self, joined: Option<(Joined, bool)>, place: u32, alias: Option<&ImportAlias>, glob: bool) {
        let Some((path, type_only)) = joined else { return };
        let kind = match (glob, type_only) {
            (true, _) => "glob",
            (false, true) => "type-only",
            (false, false) => "single",
        };
        let alias = alias.map(crate::call::shown_alias);
        self.imports.push(Import { place, path: path.shown(), names: path.names.len(), kind, alias });
    }

    /// The joined path, and whether its import is type-only.
    fn join(&mut self, prefix: Option<&Joined>, path: &Joined, single: bool) -> Option<(Joined, bool)> {
        let Some(prefix) = prefix else { return Some((path.clone(), false)) };
        if path.kind == PathKind::Plain {
            let mut joined = prefix.clone();
            joined.names.extend(path.names.iter().cloned());
            return Some((joined, false));
        }
        if path.is_super() && path.supers >= 1 && prefix.is_super() && prefix.names.is_empty() {
            let supers = prefix.supers + path.supers;
            self.departs.imports |= supers > 255;
            return Some((Joined { kind: prefix.kind, supers, names: path.names.clone() }, false));
        }
        let bare = prefix.kind == PathKind::Abs && prefix.names.is_empty();
        if path.kind == PathKind::SELF && path.names.is_empty() {
            self.departs.imports |= bare || !single;
            return (single && !bare).then(|| (prefix.clone(), true));
        }
        None
    }
}
