//! The typed nodes that the Rust asks for, over the numbered nodes of a source.

use std::marker::PhantomData;

use crate::source::{Children, SyntaxNode};

pub trait AstNode: Sized {
    fn can_cast(kind: u32) -> bool;
    fn cast(syntax: SyntaxNode) -> Option<Self>;
    fn syntax(&self) -> &SyntaxNode;
}

pub struct AstChildren<N> {
    children: Children,
    of: PhantomData<N>,
}

impl<N: AstNode> AstChildren<N> {
    fn of(parent: &SyntaxNode) -> AstChildren<N> {
        AstChildren { children: parent.children(), of: PhantomData }
    }
}

impl<N: AstNode> Iterator for AstChildren<N> {
    type Item = N;
    fn next(&mut self) -> Option<N> {
        self.children.next_of(N::can_cast).and_then(N::cast)
    }
}

fn child<N: AstNode>(parent: &SyntaxNode) -> Option<N> {
    AstChildren::of(parent).next()
}


macro_rules! nodes {
    ($( $name:ident $number:literal ),+ $(,)?) => {
        $(
            #[derive(Clone, Debug)]
            pub struct $name(pub SyntaxNode);

            impl AstNode for $name {
                fn can_cast(kind: u32) -> bool {
                    kind == $number
                }
                fn cast(syntax: SyntaxNode) -> Option<Self> {
                    Self::can_cast(syntax.kind().0).then(|| $name(syntax))
                }
                fn syntax(&self) -> &SyntaxNode {
                    &self.0
                }
            }
        )+
    };
}

nodes! {
    SourceFile 0, Struct 10, Union 11, Enum 12, Fn 13, TypeAlias 14, Static 15, Const 16, Module 17, Trait 18,
    Impl 19, Use 20, ExternCrate 21, MacroCall 22, MacroRules 23, MacroDef 24, ExternBlock 25, AsmExpr 26,
    Visibility 30, Segment 32, UseTree 33, Rename 34, TupleField 35, Attr 36,
}

// Sources have neither macro expansions nor blocks.
nodes! { MacroItems 1000, MacroStmts 1001, BlockExpr 1002, ExprStmt 1003, LetStmt 1004, MacroExpr 1005 }

/// A Path node, or the bare `::` of the use node that is kept in its place.
#[derive(Clone, Debug)]
pub struct Path {
    syntax: SyntaxNode,
    bare: bool,
}

impl Path {
    pub fn is_bare(&self) -> bool {
        self.bare
    }
}

impl AstNode for Path {
    fn can_cast(kind: u32) -> bool {
        kind == 31
    }
    fn cast(syntax: SyntaxNode) -> Option<Self> {
        Self::can_cast(syntax.kind().0).then(|| Path { syntax, bare: false })
    }
    fn syntax(&self) -> &SyntaxNode {
        &self.syntax
    }
}

#[derive(Clone, Debug)]
pub enum Item {
    AsmExpr(AsmExpr),
    Const(Const),
    Enum(Enum),
    ExternBlock(ExternBlock),
    ExternCrate(ExternCrate),
    Fn(Fn),
    Impl(Impl),
    MacroCall(MacroCall),
    MacroDef(MacroDef),
    MacroRules(MacroRules),
    Module(Module),
    Static(Static),
    Struct(Struct),
    Trait(Trait),
    TypeAlias(TypeAlias),
    Union(Union),
    Use(Use),
}

impl AstNode for Item {
    fn can_cast(kind: u32) -> bool {
        (10..=26).contains(&kind)
    }
    fn cast(syntax: SyntaxNode) -> Option<Self> {
        Some(match syntax.kind().0 {
            10 => Item::Struct(Struct(syntax)),
            11 => Item::Union(Union(syntax)),
            12 => Item::Enum(Enum(syntax)),
            13 => Item::Fn(Fn(syntax)),
            14 => Item::TypeAlias(TypeAlias(syntax)),
            15 => Item::Static(Static(syntax)),
            16 => Item::Const(Const(syntax)),
            17 => Item::Module(Module(syntax)),
            18 => Item::Trait(Trait(syntax)),
            19 => Item::Impl(Impl(syntax)),
            20 => Item::Use(Use(syntax)),
            21 => Item::ExternCrate(ExternCrate(syntax)),
            22 => Item::MacroCall(MacroCall(syntax)),
            23 => Item::MacroRules(MacroRules(syntax)),
            24 => Item::MacroDef(MacroDef(syntax)),
            25 => Item::ExternBlock(ExternBlock(syntax)),
            26 => Item::AsmExpr(AsmExpr(syntax)),
            _ => return None,
        })
    }
    fn syntax(&self) -> &SyntaxNode {
        match self {
            Item::AsmExpr(it) => &it.0,
            Item::Const(it) => &it.0,
            Item::Enum(it) => &it.0,
            Item::ExternBlock(it) => &it.0,
            Item::ExternCrate(it) => &it.0,
            Item::Fn(it) => &it.0,
            Item::Impl(it) => &it.0,
            Item::MacroCall(it) => &it.0,
            Item::MacroDef(it) => &it.0,
            Item::MacroRules(it) => &it.0,
            Item::Module(it) => &it.0,
            Item::Static(it) => &it.0,
            Item::Struct(it) => &it.0,
            Item::Trait(it) => &it.0,
            Item::TypeAlias(it) => &it.0,
            Item::Union(it) => &it.0,
            Item::Use(it) => &it.0,
        }
    }
}

impl From<MacroCall> for Item {
    fn from(call: MacroCall) -> Item {
        Item::MacroCall(call)
    }
}

#[derive(Clone, Debug)]
pub enum ExternItem {
    Fn(Fn),
    MacroCall(MacroCall),
    Static(Static),
    TypeAlias(TypeAlias),
}

impl AstNode for ExternItem {
    fn can_cast(kind: u32) -> bool {
        matches!(kind, 13 | 14 | 15 | 22)
    }
    fn cast(syntax: SyntaxNode) -> Option<Self> {
        Some(match syntax.kind().0 {
            13 => ExternItem::Fn(Fn(syntax)),
            14 => ExternItem::TypeAlias(TypeAlias(syntax)),
            15 => ExternItem::Static(Static(syntax)),
            22 => ExternItem::MacroCall(MacroCall(syntax)),
            _ => return None,
        })
    }
    fn syntax(&self) -> &SyntaxNode {
        match self {
            ExternItem::Fn(it) => &it.0,
            ExternItem::MacroCall(it) => &it.0,
            ExternItem::Static(it) => &it.0,
            ExternItem::TypeAlias(it) => &it.0,
        }
    }
}

// What nodes have in common. A node's text is its name.

#[derive(Clone, Debug)]
pub struct Name(pub crate::name::Name);

#[derive(Clone, Debug)]
pub struct NameRef(pub crate::name::Name);

pub trait HasName {
    fn name(&self) -> Option<Name>;
}

pub trait HasVisibility {
    fn visibility(&self) -> Option<Visibility>;
}

pub trait HasAttrs {
    fn attrs(&self) -> AstChildren<Attr>;
}

pub trait HasModuleItem {
    /// The items in order: those of a node, or any that are to be lowered one after another.
    fn items(&self) -> Box<dyn Iterator<Item = Item> + '_>;
}

macro_rules! have {
    ($trait:ident $function:ident $answer:ty, $this:ident => $body:expr; $( $name:ident )+) => {
        $(
            impl $trait for $name {
                fn $function(&self) -> $answer {
                    let $this = self.syntax();
                    $body
                }
            }
        )+
    };
}

have! { HasName name Option<Name>, it => it.text_name().map(Name);
    Struct Union Enum Fn TypeAlias Static Const Module Trait MacroRules MacroDef Rename }
have! { HasVisibility visibility Option<Visibility>, it => child(it);
    Struct Union Enum Fn TypeAlias Static Const Module Trait Use ExternCrate MacroDef TupleField }
have! { HasAttrs attrs AstChildren<Attr>, it => AstChildren::of(it); Item ExternItem SourceFile BlockExpr }
have! { HasModuleItem items Box<dyn Iterator<Item = Item> + '_>, it => Box::new(AstChildren::of(it)); SourceFile MacroItems }

/// Any nodes, to be lowered one after another.
pub struct Several(pub Vec<Item>);

impl HasModuleItem for Several {
    fn items(&self) -> Box<dyn Iterator<Item = Item> + '_> {
        Box::new(self.0.iter().cloned())
    }
}

// Structs.

pub enum StructKind {
    Record(()),
    Tuple(TupleFieldList),
    Unit,
}

pub struct TupleFieldList(SyntaxNode);

impl Struct {
    pub fn kind(&self) -> StructKind {
        match self.0.node().mark {
            0 => StructKind::Record(()),
            1 => StructKind::Unit,
            _ => StructKind::Tuple(TupleFieldList(self.0.clone())),
        }
    }
}

impl TupleFieldList {
    pub fn fields(&self) -> AstChildren<TupleField> {
        AstChildren::of(&self.0)
    }
}

pub enum VisibilityKind {
    In(Path),
    PubCrate,
    PubSuper,
    PubSelf,
    Pub,
}

impl Visibility {
    pub fn kind(&self) -> VisibilityKind {
        match self.0.node().mark {
            0 => VisibilityKind::Pub,
            1 => VisibilityKind::PubCrate,
            2 => VisibilityKind::PubSuper,
            3 => VisibilityKind::PubSelf,
            _ => VisibilityKind::In(child(&self.0).expect("the law asks for a path")),
        }
    }
}

// Modules, extern blocks, the rest.

pub struct ItemList(SyntaxNode);

impl ItemList {
    pub fn items(&self) -> AstChildren<Item> {
        AstChildren::of(&self.0)
    }
}

impl Module {
    pub fn semicolon_token(&self) -> Option<()> {
        (self.0.node().mark == 1).then_some(())
    }

    pub fn item_list(&self) -> Option<ItemList> {
        Some(ItemList(self.0.clone()))
    }
}

pub struct ExternItemList(SyntaxNode);

impl ExternItemList {
    pub fn extern_items(&self) -> AstChildren<ExternItem> {
        AstChildren::of(&self.0)
    }
}

impl ExternBlock {
    pub fn extern_item_list(&self) -> Option<ExternItemList> {
        Some(ExternItemList(self.0.clone()))
    }
}

impl Impl {
    pub fn trait_(&self) -> Option<()> {
        (self.0.node().mark == 1).then_some(())
    }
}

impl ExternCrate {
    pub fn name_ref(&self) -> Option<NameRef> {
        self.0.text_name().map(NameRef)
    }

    pub fn rename(&self) -> Option<Rename> {
        child(&self.0)
    }
}

impl MacroCall {
    pub fn path(&self) -> Option<Path> {
        child(&self.0)
    }
}

// Use trees.

pub struct UseTreeList(SyntaxNode);

impl UseTreeList {
    pub fn use_trees(&self) -> AstChildren<UseTree> {
        AstChildren::of(&self.0)
    }
}

impl Use {
    pub fn use_tree(&self) -> Option<UseTree> {
        child(&self.0)
    }
}

impl UseTree {
    pub fn use_tree_list(&self) -> Option<UseTreeList> {
        matches!(self.0.node().mark, 2 | 6).then(|| UseTreeList(self.0.clone()))
    }

    pub fn star_token(&self) -> Option<()> {
        matches!(self.0.node().mark, 1 | 5).then_some(())
    }

    /// A bare `::` is a path too.
    pub fn path(&self) -> Option<Path> {
        if matches!(self.0.node().mark, 5 | 6) {
            return Some(Path { syntax: self.0.clone(), bare: true });
        }
        child(&self.0)
    }

    pub fn rename(&self) -> Option<Rename> {
        child(&self.0)
    }
}

// Attributes: what an Attr node shows of itself.

pub struct KeyValueMeta(pub SyntaxNode);
pub struct TokenTreeMeta(pub SyntaxNode);
pub struct PathMeta(pub SyntaxNode);

/// A `cfg` is judged before it gets here.
pub enum Never {}

pub enum Meta {
    CfgAttrMeta(Never),
    CfgMeta(Never),
    KeyValueMeta(KeyValueMeta),
    PathMeta(PathMeta),
    TokenTreeMeta(TokenTreeMeta),
    UnsafeMeta(Never),
}

impl Meta {
    pub fn syntax(&self) -> &SyntaxNode {
        match self {
            Meta::KeyValueMeta(it) => &it.0,
            Meta::PathMeta(it) => &it.0,
            Meta::TokenTreeMeta(it) => &it.0,
            Meta::CfgAttrMeta(it) | Meta::CfgMeta(it) | Meta::UnsafeMeta(it) => match *it {},
        }
    }

    pub fn path(&self) -> Option<Path> {
        child(self.syntax())
    }
}

impl KeyValueMeta {
    pub fn expr(&self) -> Option<Expr> {
        let text = self.0.text_name()?;
        Some(Expr::Literal(Literal { syntax: self.0.clone(), text }))
    }
}

pub struct TokenTree(SyntaxNode);

impl TokenTreeMeta {
    pub fn token_tree(&self) -> Option<TokenTree> {
        Some(TokenTree(self.0.clone()))
    }

    pub fn syntax(&self) -> &SyntaxNode {
        &self.0
    }
}

impl TokenTree {
    pub fn syntax(&self) -> &SyntaxNode {
        &self.0
    }
}

pub struct Literal {
    syntax: SyntaxNode,
    text: crate::name::Name,
}

pub struct Token(crate::name::Name);

impl Literal {
    pub fn syntax(&self) -> &SyntaxNode {
        &self.syntax
    }

    pub fn token(&self) -> Token {
        Token(self.text.clone())
    }
}

impl Token {
    pub fn text(&self) -> &str {
        self.0.as_str()
    }
}

// Blocks and macro statements, which no source has.

pub enum Expr {
    Literal(Literal),
    MacroExpr(MacroExpr),
}

pub enum Stmt {
    ExprStmt(ExprStmt),
    Item(Item),
    LetStmt(LetStmt),
}

impl MacroExpr {
    pub fn macro_call(&self) -> Option<MacroCall> {
        None
    }
}

impl ExprStmt {
    pub fn expr(&self) -> Option<Expr> {
        None
    }
}

impl MacroStmts {
    pub fn statements(&self) -> std::iter::Empty<Stmt> {
        std::iter::empty()
    }

    pub fn expr(&self) -> Option<Expr> {
        None
    }
}

impl BlockExpr {
    pub fn statements(&self) -> std::iter::Empty<Stmt> {
        std::iter::empty()
    }

    pub fn tail_expr(&self) -> Option<Expr> {
        None
    }
}
