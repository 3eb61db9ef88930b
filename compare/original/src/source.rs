//! An opened source, and its nodes.

use std::cell::RefCell;
use std::fmt;
use std::rc::Rc;

use crate::name::Name;

#[derive(Debug, Clone, Copy, PartialEq, Eq, Default)]
pub struct Node {
    pub kind: u32,
    pub end: u32,
    pub text: u32,
    pub mark: u32,
    pub from: u32,
    pub to: u32,
}

/// Nodes from 0 and texts from 1.
pub struct Source {
    pub nodes: Vec<Node>,
    pub bytes: Vec<u8>,
    /// place and length of each text
    pub texts: Vec<(usize, usize)>,
    /// the names that were asked for
    names: RefCell<Vec<Option<Name>>>,
}

impl Source {
    pub fn new(nodes: Vec<Node>, bytes: Vec<u8>, texts: Vec<(usize, usize)>) -> Source {
        let names = RefCell::new(vec![None; texts.len()]);
        Source { nodes, bytes, texts, names }
    }

    /// The name that a text number stands for; 0 stands for none.
    fn name(&self, text: u32) -> Option<Name> {
        let index = (text as usize).checked_sub(1)?;
        let mut names = self.names.borrow_mut();
        if let Some(name) = &names[index] {
            return Some(name.clone());
        }
        let (place, len) = self.texts[index];
        let name = Name::of_bytes(&self.bytes[place..place + len]);
        names[index] = Some(name.clone());
        Some(name)
    }
}

#[derive(Debug, Clone, Copy, PartialEq, Eq)]
pub struct SyntaxKind(pub u32);

impl SyntaxKind {
    pub const ERROR: SyntaxKind = SyntaxKind(u32::MAX);
}

#[derive(Debug, Clone, Copy, PartialEq, Eq, Hash)]
pub struct TextRange {
    pub from: u32,
    pub to: u32,
}

#[derive(Clone)]
pub struct SyntaxNode {
    source: Rc<Source>,
    number: u32,
}

impl SyntaxNode {
    pub fn new(source: Rc<Source>, number: u32) -> SyntaxNode {
        SyntaxNode { source, number }
    }

    pub fn number(&self) -> u32 {
        self.number
    }

    pub fn node(&self) -> Node {
        self.source.nodes[self.number as usize]
    }

    pub fn kind(&self) -> SyntaxKind {
        SyntaxKind(self.node().kind)
    }

    pub fn text_range(&self) -> TextRange {
        let node = self.node();
        TextRange { from: node.from, to: node.to }
    }

    /// The node's text, if it has one.
    pub fn text_name(&self) -> Option<Name> {
        self.source.name(self.node().text)
    }

    pub fn children(&self) -> Children {
        Children { source: self.source.clone(), at: self.number + 1, end: self.node().end }
    }
}

impl fmt::Debug for SyntaxNode {
    fn fmt(&self, f: &mut fmt::Formatter<'_>) -> fmt::Result {
        write!(f, "node {}", self.number)
    }
}

impl fmt::Display for SyntaxNode {
    fn fmt(&self, f: &mut fmt::Formatter<'_>) -> fmt::Result {
        write!(f, "node {}", self.number)
    }
}

pub struct Children {
    source: Rc<Source>,
    at: u32,
    end: u32,
}

impl Children {
    /// The next child that has a kind that is wanted.
    pub fn next_of(&mut self, wanted: fn(u32) -> bool) -> Option<SyntaxNode> {
        while self.at < self.end {
            let number = self.at;
            let node = self.source.nodes[number as usize];
            self.at = node.end;
            if wanted(node.kind) {
                return Some(SyntaxNode { source: self.source.clone(), number });
            }
        }
        None
    }
}

impl Iterator for Children {
    type Item = SyntaxNode;
    fn next(&mut self) -> Option<SyntaxNode> {
        self.next_of(|_| true)
    }
}
