//! Spans: every one has the context 0.

use std::fmt;
use std::marker::PhantomData;

use crate::numbers::ErasedFileAstId;
use crate::source::TextRange;

#[derive(Debug, Clone, Copy, PartialEq, Eq, Hash)]
pub enum Edition {
    Edition2024,
}

#[derive(Debug, Clone, Copy, PartialEq, Eq, Hash)]
pub struct EditionedFileId;

impl EditionedFileId {
    pub fn edition(self) -> Edition {
        Edition::Edition2024
    }
}

#[derive(Debug, Clone, Copy, PartialEq, Eq, Hash)]
pub struct SyntaxContext(pub u32);

impl SyntaxContext {
    pub fn root(_: Edition) -> SyntaxContext {
        SyntaxContext(0)
    }
}

impl fmt::Display for SyntaxContext {
    fn fmt(&self, f: &mut fmt::Formatter<'_>) -> fmt::Result {
        self.0.fmt(f)
    }
}

#[derive(Debug, Clone, Copy, PartialEq, Eq, Hash)]
pub struct SpanAnchor {
    pub file_id: EditionedFileId,
    pub ast_id: ErasedFileAstId,
}

#[derive(Debug, Clone, Copy, PartialEq, Eq, Hash)]
pub struct Span {
    pub range: TextRange,
    pub anchor: SpanAnchor,
    pub ctx: SyntaxContext,
}

pub trait SpanMapper {
    fn span_for(&self, range: TextRange) -> Span;
}

#[derive(Debug, Clone, Copy, Default)]
pub struct SpanMap<'db>(PhantomData<&'db ()>);

impl SpanMap<'_> {
    pub fn span_for_range(&self, range: TextRange) -> Span {
        let anchor = SpanAnchor { file_id: EditionedFileId, ast_id: crate::NO_DOWNMAP_ERASED_FILE_AST_ID_MARKER };
        Span { range, anchor, ctx: SyntaxContext(0) }
    }
}

impl SpanMapper for SpanMap<'_> {
    fn span_for(&self, range: TextRange) -> Span {
        self.span_for_range(range)
    }
}
