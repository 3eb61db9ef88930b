//! AST ids: the number of a node, printed in decimal.

use std::fmt;
use std::marker::PhantomData;

use crate::ast::AstNode;

pub trait AstIdNode {}

impl<N: AstNode> AstIdNode for N {}

pub struct FileAstId<N: ?Sized> {
    number: u32,
    of: PhantomData<fn() -> N>,
}

impl<N> FileAstId<N> {
    pub fn upcast<M>(self) -> FileAstId<M> {
        FileAstId { number: self.number, of: PhantomData }
    }

    pub fn downcast_unchecked<M>(self) -> FileAstId<M> {
        FileAstId { number: self.number, of: PhantomData }
    }

    pub fn erase(self) -> ErasedFileAstId {
        ErasedFileAstId(self.number)
    }
}

impl<N> Clone for FileAstId<N> {
    fn clone(&self) -> Self {
        *self
    }
}

impl<N> Copy for FileAstId<N> {}

impl<N> PartialEq for FileAstId<N> {
    fn eq(&self, other: &Self) -> bool {
        self.number == other.number
    }
}

impl<N> Eq for FileAstId<N> {}

impl<N> fmt::Debug for FileAstId<N> {
    fn fmt(&self, f: &mut fmt::Formatter<'_>) -> fmt::Result {
        self.number.fmt(f)
    }
}

#[derive(Clone, Copy, PartialEq, Eq, Hash)]
pub struct ErasedFileAstId(pub u32);

impl fmt::Debug for ErasedFileAstId {
    fn fmt(&self, f: &mut fmt::Formatter<'_>) -> fmt::Result {
        write!(f, "{}", self.0)
    }
}

pub const NO_DOWNMAP_ERASED_FILE_AST_ID_MARKER: ErasedFileAstId = ErasedFileAstId(u32::MAX);

#[derive(Debug, Default)]
pub struct AstIdMap;

impl AstIdMap {
    pub fn ast_id<N: AstNode>(&self, node: &N) -> FileAstId<N> {
        FileAstId { number: node.syntax().number(), of: PhantomData }
    }
}
