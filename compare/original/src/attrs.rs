//! Attributes: every Attr node is collected, and a `cfg` is judged by its mark.

use std::borrow::Cow;
use std::fmt;
use std::ops::ControlFlow;

use crate::ast;
use crate::ast::{AstNode, HasAttrs};
use crate::database::{Crate, SourceDatabase};
use crate::mod_path::ModPath;
use crate::sets::{Either, Interned};
use crate::source::SyntaxNode;
use crate::span_map::{Span, SpanMapper, SyntaxContext};

#[derive(Debug, Default)]
pub struct CfgOptions;

/// A condition, which prints as its text.
#[derive(Debug, Clone, PartialEq, Eq)]
pub struct CfgExpr(pub String);

impl fmt::Display for CfgExpr {
    fn fmt(&self, f: &mut fmt::Formatter<'_>) -> fmt::Result {
        f.write_str(&self.0)
    }
}

#[derive(Debug, Clone, PartialEq, Eq)]
pub struct Literal(pub String);

/// A token tree, which prints as its text.
#[derive(Debug, Clone, PartialEq, Eq)]
pub struct TopSubtree(pub String);

pub enum DocCommentDesugarMode {
    ProcMacro,
}

pub fn token_to_literal(text: &str, _: Span) -> Literal {
    Literal(text.to_owned())
}

pub fn syntax_node_to_token_tree<S: SpanMapper>(
    node: &SyntaxNode,
    _: S,
    _: Span,
    _: DocCommentDesugarMode,
) -> TopSubtree {
    TopSubtree(node.text_name().map_or(String::new(), |it| it.as_str().to_owned()))
}

#[derive(Debug, Clone, PartialEq, Eq)]
pub enum AttrInput {
    Literal(Literal),
    TokenTree(TopSubtree),
}

impl fmt::Display for AttrInput {
    fn fmt(&self, f: &mut fmt::Formatter<'_>) -> fmt::Result {
        match self {
            AttrInput::Literal(it) => f.write_str(&it.0),
            AttrInput::TokenTree(it) => f.write_str(&it.0),
        }
    }
}

#[derive(Debug, Clone, PartialEq, Eq)]
pub struct Attr {
    pub path: Interned<ModPath>,
    pub input: Option<Box<AttrInput>>,
    pub ctxt: SyntaxContext,
}

impl Attr {
    pub fn token_tree_value(&self) -> Option<&TopSubtree> {
        match self.input.as_deref() {
            Some(AttrInput::TokenTree(it)) => Some(it),
            _ => None,
        }
    }

    pub fn string_value_with_span(&self) -> Option<(&str, Span)> {
        None
    }

    pub fn string_value_unescape(&self) -> Option<Cow<'_, str>> {
        None
    }
}

#[derive(Debug, Clone, Copy, PartialEq, Eq)]
pub struct AttrId(u32);

impl AttrId {
    pub fn from_item_tree_index(index: u32) -> AttrId {
        AttrId(index)
    }

    pub fn item_tree_index(self) -> u32 {
        self.0
    }
}

/// Hands over each attribute in turn; a false condition ends it.
pub fn collect_item_tree_attrs<'a, BreakValue>(
    owner: &dyn HasAttrs,
    _: &dyn Fn() -> &'a CfgOptions,
    mut on_attr: impl FnMut(ast::Meta, ast::Attr) -> ControlFlow<BreakValue>,
) -> Option<Either<BreakValue, CfgExpr>> {
    for attr in owner.attrs() {
        let syntax = attr.syntax().clone();
        let node = syntax.node();
        let meta = match node.mark {
            3 => continue,
            4 => {
                let condition = syntax.text_name().map_or(String::new(), |it| it.as_str().to_owned());
                return Some(Either::Right(CfgExpr(condition)));
            }
            1 => ast::Meta::KeyValueMeta(ast::KeyValueMeta(syntax)),
            2 if node.text != 0 => ast::Meta::TokenTreeMeta(ast::TokenTreeMeta(syntax)),
            // without a text there is no input
            _ => ast::Meta::PathMeta(ast::PathMeta(syntax)),
        };
        if let ControlFlow::Break(value) = on_attr(meta, attr) {
            return Some(Either::Left(value));
        }
    }
    None
}

/// A source has no attributes besides its own.
pub fn parse_extra_crate_attrs(_: &dyn SourceDatabase, _: Crate) -> Option<ast::SourceFile> {
    None
}
