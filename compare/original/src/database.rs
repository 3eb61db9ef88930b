//! What stands for the database: one source.

use std::rc::Rc;

use crate::ast;
use crate::attrs::CfgOptions;
use crate::numbers::AstIdMap;
use crate::source::{Source, SyntaxNode};
use crate::span_map::{EditionedFileId, SpanMap};

pub trait SourceDatabase {
    fn source(&self) -> &Rc<Source>;
}

pub struct Database {
    source: Rc<Source>,
}

impl Database {
    pub fn new(source: Source) -> Database {
        Database { source: Rc::new(source) }
    }
}

impl SourceDatabase for Database {
    fn source(&self) -> &Rc<Source> {
        &self.source
    }
}

static CFG_OPTIONS: CfgOptions = CfgOptions;
static AST_IDS: AstIdMap = AstIdMap;

/// There is one file.
#[derive(Debug, Clone, Copy, PartialEq, Eq, Hash)]
pub struct HirFileId;

impl HirFileId {
    pub fn ast_id_map(self, _: &dyn SourceDatabase) -> &AstIdMap {
        &AST_IDS
    }

    pub fn span_map(self, _: &dyn SourceDatabase) -> SpanMap<'_> {
        SpanMap::default()
    }

    pub fn parse_or_expand(self, db: &dyn SourceDatabase) -> SyntaxNode {
        SyntaxNode::new(db.source().clone(), 0)
    }

    pub fn span_file_id(self, _: &dyn SourceDatabase) -> EditionedFileId {
        EditionedFileId
    }
}

/// There is one crate, and its options are never asked for.
#[derive(Debug, Clone, Copy, PartialEq, Eq, Hash)]
pub struct Crate;

impl Crate {
    pub fn cfg_options(self, _: &dyn SourceDatabase) -> &CfgOptions {
        &CFG_OPTIONS
    }

    pub fn root_file_id(self, _: &dyn SourceDatabase) -> HirFileId {
        HirFileId
    }
}

/// Sources have no blocks.
#[derive(Debug, Clone, Copy, PartialEq, Eq, Hash)]
pub enum BlockId {}

pub struct BlockAstId {
    pub file_id: HirFileId,
    block: BlockId,
}

impl BlockId {
    pub fn ast_id(self, _: &dyn SourceDatabase) -> BlockAstId {
        BlockAstId { file_id: HirFileId, block: self }
    }
}

impl BlockAstId {
    pub fn to_node(&self, _: &dyn SourceDatabase) -> ast::BlockExpr {
        match self.block {}
    }
}
