//! Paths, read from a Path node by the rules of PATHS.md.

use std::fmt;

use crate::ast;
use crate::ast::AstNode;
use crate::database::SourceDatabase;
use crate::name::Name;
use crate::source::TextRange;
use crate::span_map::{Edition, SyntaxContext};

#[derive(Debug, Clone, Copy, PartialEq, Eq, Hash)]
pub enum PathKind {
    Plain,
    Super(u8),
    Crate,
    Abs,
    DollarCrate,
}

impl PathKind {
    pub const SELF: PathKind = PathKind::Super(0);
}

#[derive(Debug, Clone, PartialEq, Eq, Hash)]
pub struct ModPath {
    pub kind: PathKind,
    segments: Vec<Name>,
}

impl ModPath {
    pub fn from_kind(kind: PathKind) -> ModPath {
        ModPath { kind, segments: Vec::new() }
    }

    pub fn segments(&self) -> &[Name] {
        &self.segments
    }

    pub fn extend(&mut self, names: impl IntoIterator<Item = Name>) {
        self.segments.extend(names);
    }

    pub fn as_ident(&self) -> Option<&Name> {
        match (self.kind, &*self.segments) {
            (PathKind::Plain, [name]) => Some(name),
            _ => None,
        }
    }

    pub fn display<D: ?Sized>(&self, _: &D, _: Edition) -> impl fmt::Display + '_ {
        Shown(self)
    }

    /// `None` for an unreadable path.
    pub fn from_src(
        _: &dyn SourceDatabase,
        path: ast::Path,
        _: &mut dyn FnMut(TextRange) -> SyntaxContext,
    ) -> Option<ModPath> {
        if path.is_bare() {
            return Some(ModPath::from_kind(PathKind::Abs));
        }
        let syntax = path.syntax();
        let mut marks = Vec::new();
        let mut names = Vec::new();
        for segment in syntax.children() {
            let node = segment.node();
            marks.push(node.mark);
            names.push(segment.text_name());
        }
        let (kind, skipped) = kind_of(syntax.node().mark, &marks)?;
        let mut segments = Vec::new();
        for (mark, name) in marks.into_iter().zip(names).skip(skipped) {
            if mark != 0 {
                return None;
            }
            segments.push(name?);
        }
        Some(ModPath { kind, segments })
    }
}

/// The kind, and how many segments it stands for.
fn kind_of(path_mark: u32, marks: &[u32]) -> Option<(PathKind, usize)> {
    if path_mark == 1 {
        return Some((PathKind::Abs, 0));
    }
    match *marks.first()? {
        0 => Some((PathKind::Plain, 0)),
        3 => Some((PathKind::Crate, 1)),
        4 => Some((PathKind::DollarCrate, 1)),
        first => {
            let selves = usize::from(first == 1);
            let supers = marks[selves..].iter().take_while(|mark| **mark == 2).count();
            Some((PathKind::Super(u8::try_from(supers).ok()?), selves + supers))
        }
    }
}

impl From<Name> for ModPath {
    fn from(name: Name) -> ModPath {
        ModPath { kind: PathKind::Plain, segments: vec![name] }
    }
}

struct Shown<'a>(&'a ModPath);

impl fmt::Display for Shown<'_> {
    fn fmt(&self, f: &mut fmt::Formatter<'_>) -> fmt::Result {
        let begun = match self.0.kind {
            PathKind::Plain => false,
            PathKind::Abs => true,
            PathKind::Super(0) => {
                f.write_str("self")?;
                true
            }
            PathKind::Super(count) => {
                for i in 0..count {
                    f.write_str(if i == 0 { "super" } else { "::super" })?;
                }
                true
            }
            PathKind::Crate => {
                f.write_str("crate")?;
                true
            }
            PathKind::DollarCrate => {
                f.write_str("$crate")?;
                true
            }
        };
        for (i, name) in self.0.segments.iter().enumerate() {
            if begun || i > 0 {
                f.write_str("::")?;
            }
            f.write_str(name.as_str())?;
        }
        Ok(())
    }
}
