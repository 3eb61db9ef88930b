//! The four Rust files, compiled unchanged over stand-ins for all that they lean on.
//!
//! The files name many crates. Each of those names is this crate, and what they take from it means
//! what the documents of this repository say.

// Much of what the files define belongs to callers that are not here.
#![allow(dead_code, unused_imports, mismatched_lifetime_syntaxes)]

extern crate self as base_db;
extern crate self as cfg;
extern crate self as cov_mark;
extern crate self as either;
extern crate self as hir_expand;
extern crate self as intern;
extern crate self as la_arena;
extern crate self as rustc_hash;
extern crate self as span;
extern crate self as stdx;
extern crate self as syntax;
extern crate self as syntax_bridge;
extern crate self as thin_vec;
extern crate self as tracing;
extern crate self as tt;

pub mod ast;
pub mod attrs;
pub mod call;
pub mod database;
pub mod imports;
pub mod law;
pub mod mod_path;
pub mod name;
pub mod numbers;
pub mod sets;
pub mod source;
pub mod span_map;

include!(concat!(env!("OUT_DIR"), "/original/module.rs"));

pub mod visibility {
    pub use crate::item_tree::RawVisibility;
}

pub mod sym {
    use crate::name::Symbol;
    #[allow(non_upper_case_globals)]
    pub const proc_macro: Symbol = Symbol("proc_macro");
    #[allow(non_upper_case_globals)]
    pub const proc_macro_attribute: Symbol = Symbol("proc_macro_attribute");
}

pub use ast::{AstNode, SourceFile};
pub use attrs::{CfgExpr, CfgOptions, DocCommentDesugarMode, TopSubtree, syntax_node_to_token_tree, token_to_literal};
pub use database::{BlockId, Crate, HirFileId, SourceDatabase};
pub use name::Symbol;
pub use numbers::{AstIdMap, AstIdNode, ErasedFileAstId, FileAstId, NO_DOWNMAP_ERASED_FILE_AST_ID_MARKER};
pub use sets::{Arena, Either, FxHashSet, FxIndexSet, Idx, Interned, RawIdx, ThinVec};
pub use source::{SyntaxKind, SyntaxNode, TextRange};
pub use span_map::{Edition, EditionedFileId, Span, SpanAnchor, SpanMapper, SyntaxContext};

/// What a macro call stands for, by the mark of its node.
#[derive(Debug, Copy, Clone, PartialEq, Eq, Hash)]
pub enum ExpandTo {
    Statements,
    Items,
    Pattern,
    Type,
    Expr,
}

impl ExpandTo {
    pub fn from_call_site(call: &ast::MacroCall) -> ExpandTo {
        match call.syntax().node().mark {
            0 => ExpandTo::Statements,
            1 => ExpandTo::Items,
            2 => ExpandTo::Pattern,
            3 => ExpandTo::Type,
            _ => ExpandTo::Expr,
        }
    }
}

/// A span that is entered and does nothing.
pub struct NoSpan;

impl NoSpan {
    pub fn entered(self) -> NoSpan {
        self
    }
}

#[macro_export]
macro_rules! info_span {
    ($($any:tt)*) => {
        $crate::NoSpan
    };
}

#[macro_export]
macro_rules! hit {
    ($any:ident) => {};
}

#[macro_export]
macro_rules! never {
    ($condition:expr, $($any:tt)*) => {
        $condition
    };
}

#[macro_export]
macro_rules! match_ast {
    (match $node:ident { $( $( $path:ident )::+ ($it:pat) => $res:expr, )* _ => $catch_all:expr $(,)? }) => {{
        $( if let Some($it) = $($path::)+cast($node.clone()) { $res } else )*
        { $catch_all }
    }};
}
