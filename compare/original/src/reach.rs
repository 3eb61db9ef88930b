//! Stands inside the Rust's `lower`, so that it sees what is private there.

use std::collections::HashSet;

use super::*;
use crate::ast::Several;
use crate::attrs::{Attr, AttrInput};
use crate::call::{Answer, Call, Counts, Import, Lowering, Original, Run, quoted, shown_alias, shown_name};
use crate::database::Database;
use crate::imports::{Expansion, by_rules};
use crate::item_tree::{ImportKind, ModItemKind, pretty};
use crate::mod_path::ModPath;
use crate::name::Name;
use crate::source::SyntaxNode;
use crate::span_map::Edition;

impl Lowering for Original {
    fn run(db: &Database, calls: &[Call]) -> Run {
        let file = file_of(db);
        let mut taken = Taken::new(db);
        let mut answers = Vec::new();
        let mut refused = Vec::new();
        for call in calls {
            let answer = taken.take(&file, *call, &mut refused);
            answers.push(answer);
        }
        let tree = finished(db, &file, &taken.calls);
        assert_eq!(tree.top_level_items(), &*taken.ctx.top_level, "the two ways to lower agree");
        Run { answers, tree, refused }
    }

    fn lower_root(db: &Database) -> ItemTree {
        finished(db, &file_of(db), &[Call::Root])
    }

    fn counts(tree: &ItemTree) -> Counts {
        count(tree, tree.vis.arena.iter())
    }

    fn dump(tree: &ItemTree) -> Vec<u8> {
        let mut dump = Dump { tree, out: Vec::new() };
        dump.tree();
        dump.out
    }

    fn print(db: &Database, tree: &ItemTree) -> String {
        pretty::print_item_tree(db, tree, Edition::Edition2024)
    }

    fn expand(tree: &ItemTree, id: u32) -> Option<(Vec<Import>, Expansion)> {
        let row = tree.big_data.get((id >> 1) as usize).filter(|_| id & 1 == 1)?;
        let BigModItem::Use(item) = &row.1 else { return None };
        let mut imports = Vec::new();
        item.expand(|place, path, kind, alias| {
            let kind = match kind {
                ImportKind::Plain => "single",
                ImportKind::Glob => "glob",
                ImportKind::TypeOnly => "type-only",
            };
            let alias = alias.as_ref().map(shown_alias);
            let names = path.segments().len();
            imports.push(Import { place: place.number(), path: shown_path(&path), names, kind, alias });
        });
        Some((imports, by_rules(&item.use_tree)))
    }

    fn dump_uses(db: &Database) -> Vec<u8> {
        let tree = ItemTree::default();
        let mut dump = Dump { tree: &tree, out: Vec::new() };
        let count = db.source().nodes.len() as u32;
        for number in 0..count {
            let item = ast::Use::cast(SyntaxNode::new(db.source().clone(), number));
            if number == 0 || item.is_some() {
                dump.lowered_use(db, number, item);
            }
        }
        dump.lowered_use(db, count, None);
        dump.out
    }

    fn dump_merges(db: &Database) -> Vec<u8> {
        let tree = ItemTree::default();
        let mut dump = Dump { tree: &tree, out: Vec::new() };
        let mut first = 0;
        for item in file_of(db).items().take(MAX_PAIRS) {
            let second = item.syntax().number();
            dump.merge(db, first, second);
            first = second;
        }
        dump.out
    }
}

/// How many pairs of attribute lists are merged at most.
const MAX_PAIRS: usize = 8;

/// Imports with more names together are written as their number only.
const MAX_NAMES: usize = 16_384;

/// The attributes of an item or of the file.
fn list_of(db: &Database, number: u32) -> AttrsOrCfg {
    let ctx = Ctx::new(db, HirFileId, Crate);
    let node = SyntaxNode::new(db.source().clone(), number);
    match ast::Item::cast(node.clone()) {
        Some(item) => ctx.lower_attrs(&item),
        None => ctx.lower_attrs(&ast::SourceFile(node)),
    }
}

fn attrs_in(list: &AttrsOrCfg) -> Vec<&Attr> {
    let attrs = match list {
        AttrsOrCfg::Enabled { attrs } => attrs,
        AttrsOrCfg::CfgDisabled(inner) => &inner.1,
    };
    attrs.as_ref().iter().map(|(_, attr)| attr).collect()
}

/// Whether two lists and what merging them copies have room in a new tree.
fn have_room(first: &AttrsOrCfg, second: &AttrsOrCfg) -> bool {
    let (before, after) = (attrs_in(first), attrs_in(second));
    let both = before.len() + after.len();
    let copies = match first {
        AttrsOrCfg::Enabled { .. } if !before.is_empty() && !after.is_empty() => both,
        _ => 0,
    };
    let paths: HashSet<&ModPath> = before.iter().chain(&after).map(|attr| &*attr.path).collect();
    let segments = paths.iter().map(|path| path.segments().len()).sum();
    Counts { attrs: both + copies, paths: paths.len(), segments, ..Counts::default() }.fit()
}

fn file_of(db: &Database) -> ast::SourceFile {
    ast::SourceFile(SyntaxNode::new(db.source().clone(), 0))
}

/// The finalized tree of calls that were all accepted, made by the Rust's own `lower_module_items`.
fn finished(db: &Database, file: &ast::SourceFile, calls: &[Call]) -> ItemTree {
    let mut ctx = Ctx::new(db, HirFileId, Crate);
    if calls.contains(&Call::Root) {
        let top_attrs = ctx.lower_attrs(file);
        ctx.add_attrs(ModItemId::TOP_OWNER, top_attrs);
    }
    let mut tree = if calls == [Call::Root] {
        ctx.lower_module_items(file)
    } else {
        let items = calls.iter().flat_map(|call| items_of(file, *call)).collect();
        ctx.lower_module_items(&Several(items))
    };
    tree.finalize();
    tree
}

/// The root's items that a call lowers.
fn items_of(file: &ast::SourceFile, call: Call) -> Vec<ast::Item> {
    let items = file.items();
    match call {
        Call::Root => items.collect(),
        Call::Node(number) => items.filter(|item| item.syntax().number() == number).collect(),
    }
}

/// The calls of a run that were accepted, and what they lowered.
struct Taken<'db> {
    db: &'db Database,
    calls: Vec<Call>,
    ctx: Ctx<'db>,
}

impl<'db> Taken<'db> {
    fn new(db: &'db Database) -> Self {
        Taken { db, calls: Vec::new(), ctx: Ctx::new(db, HirFileId, Crate) }
    }

    fn take(&mut self, file: &ast::SourceFile, call: Call, refused: &mut Vec<Counts>) -> Answer {
        let items = items_of(file, call);
        match call {
            Call::Node(_) if items.is_empty() => return Answer::Refused(4),
            Call::Root if !self.calls.is_empty() => return Answer::Refused(5),
            _ => {}
        }
        let id = self.lower(file, call, &items);
        let counts = count(&self.ctx.tree, self.ctx.visibilities.iter());
        if !counts.fit() {
            refused.push(counts);
            self.again(file);
            return Answer::Refused(6);
        }
        self.calls.push(call);
        match call {
            Call::Root => Answer::Count(self.ctx.top_level.len() as u32),
            Call::Node(_) => Answer::Id(id.map(|id| id.index)),
        }
    }

    /// Lowers items one by one; answers the id of the last.
    fn lower(&mut self, file: &ast::SourceFile, call: Call, items: &[ast::Item]) -> Option<ModItemId> {
        if call == Call::Root {
            let top_attrs = self.ctx.lower_attrs(file);
            self.ctx.add_attrs(ModItemId::TOP_OWNER, top_attrs);
        }
        let mut last = None;
        for item in items {
            last = self.ctx.lower_mod_item(item);
            self.ctx.top_level.extend(last);
        }
        last
    }

    /// Lowers what was accepted into a new tree.
    fn again(&mut self, file: &ast::SourceFile) {
        self.ctx = Ctx::new(self.db, HirFileId, Crate);
        for call in self.calls.clone() {
            self.lower(file, call, &items_of(file, call));
        }
    }
}

fn count<'a>(tree: &'a ItemTree, visibilities: impl Iterator<Item = &'a RawVisibility>) -> Counts {
    let mut counts = Counts { small: tree.small_data.len(), big: tree.big_data.len(), ..Counts::default() };
    let mut paths: HashSet<&ModPath> = HashSet::new();
    for visibility in visibilities {
        counts.visibilities += 1;
        if let RawVisibility::Module(path, _) = visibility {
            paths.insert(path);
        }
    }
    for (_, attrs) in &tree.attrs {
        let list = match attrs {
            AttrsOrCfg::Enabled { attrs } => attrs,
            AttrsOrCfg::CfgDisabled(inner) => &inner.1,
        };
        for (_, attr) in list.as_ref().iter() {
            counts.attrs += 1;
            paths.insert(&attr.path);
        }
    }
    for (_, item) in &tree.small_data {
        if let SmallModItem::MacroCall(call) = item {
            paths.insert(&call.path);
        }
    }
    for (_, item) in &tree.big_data {
        match item {
            BigModItem::Use(item) => count_use(&item.use_tree, &mut counts, &mut paths),
            BigModItem::Struct(item) => {
                if let StructValueNsCtor::ValueNsCtorWithMinVis(list) = &item.value_ns_ctor {
                    counts.ctors += list.len();
                }
            }
            _ => {}
        }
    }
    counts.paths = paths.len();
    counts.segments = paths.iter().map(|path| path.segments().len()).sum();
    counts
}

fn count_use<'a>(tree: &'a UseTree, counts: &mut Counts, paths: &mut HashSet<&'a ModPath>) {
    counts.uses += 1;
    match tree.kind() {
        UseTreeKind::Single { path, .. } => {
            paths.insert(path);
        }
        UseTreeKind::Glob { path } => paths.extend(path.iter().map(|path| &**path)),
        UseTreeKind::Prefixed { prefix, list } => {
            paths.extend(prefix.iter().map(|path| &**path));
            list.iter().for_each(|tree| count_use(tree, counts, paths));
        }
    }
}

fn shown_path(path: &ModPath) -> String {
    let mut out = match path.kind {
        PathKind::Plain => "(plain".to_owned(),
        PathKind::Super(count) => format!("(super {count}"),
        PathKind::Crate => "(crate".to_owned(),
        PathKind::Abs => "(abs".to_owned(),
        PathKind::DollarCrate => "($crate".to_owned(),
    };
    for name in path.segments() {
        out.push(' ');
        out.push_str(&shown_name(name));
    }
    out + ")"
}

struct Dump<'a> {
    tree: &'a ItemTree,
    out: Vec<u8>,
}

impl Dump<'_> {
    fn say(&mut self, text: &str) {
        self.out.extend(text.bytes());
    }

    fn number(&mut self, number: u32) {
        self.say(&number.to_string());
    }

    fn tree(&mut self) {
        self.say("top");
        self.ids(&self.tree.top_level);
        self.say("\n");
        self.attrs(self.tree.attrs(ModItemId::TOP_OWNER));
        for index in 0..self.tree.small_data.len() as u32 {
            self.item(ModItemId::new_small(index));
        }
        for index in 0..self.tree.big_data.len() as u32 {
            self.item(ModItemId::new_big(index));
        }
        for (number, visibility) in self.tree.vis.arena.iter().enumerate() {
            self.say("visibility ");
            self.number(number as u32);
            self.visibility(visibility);
            self.say("\n");
        }
    }

    fn ids(&mut self, ids: &[ModItemId]) {
        for id in ids {
            self.say(" ");
            self.number(id.index);
        }
    }

    fn name(&mut self, name: &Name) {
        self.say(" ");
        self.say(&shown_name(name));
    }

    fn path(&mut self, path: &ModPath) {
        self.say(" ");
        self.say(&shown_path(path));
    }

    fn maybe_path(&mut self, path: Option<&Interned<ModPath>>) {
        match path {
            Some(path) => self.path(path),
            None => self.say(" -"),
        }
    }

    fn alias(&mut self, alias: Option<&ImportAlias>) {
        match alias {
            Some(ImportAlias::Underscore) => self.say(" as _"),
            Some(ImportAlias::Alias(name)) => {
                self.say(" as");
                self.name(name);
            }
            None => self.say(" -"),
        }
    }

    fn visibility(&mut self, visibility: &RawVisibility) {
        match visibility {
            RawVisibility::Public => self.say(" public"),
            RawVisibility::PubCrate => self.say(" crate"),
            RawVisibility::PubSelf(VisibilityExplicitness::Explicit) => self.say(" self"),
            RawVisibility::PubSelf(VisibilityExplicitness::Implicit) => self.say(" private"),
            RawVisibility::Module(path, explicitness) => {
                self.say(if explicitness.is_explicit() { " in" } else { " implicitly in" });
                self.path(path);
            }
        }
    }

    fn visibility_of(&mut self, id: RawVisibilityId) {
        let tree = self.tree;
        self.visibility(&tree[id]);
    }

    fn named(&mut self, word: &str, name: &Name, visibility: RawVisibilityId) {
        self.say(word);
        self.name(name);
        self.visibility_of(visibility);
    }

    fn item(&mut self, id: ModItemId) {
        let tree = self.tree;
        self.say("item ");
        self.number(id.index);
        self.say(" node ");
        self.number(id.ast_id(tree).erase().0);
        self.record(id);
        self.say("\n");
        if let ModItemKind::Use(_, item) = tree.index(id) {
            self.use_tree(&item.use_tree, None, &mut 0);
            self.imports(id);
        }
        self.attrs(tree.attrs(id));
    }

    fn record(&mut self, id: ModItemId) {
        let tree = self.tree;
        match tree.index(id) {
            ModItemKind::Const(_, item) => {
                self.say(" const");
                match &item.name {
                    Some(name) => self.name(name),
                    None => self.say(" -"),
                }
                self.visibility_of(item.visibility);
            }
            ModItemKind::Enum(_, item) => self.named(" enum", &item.name, item.visibility),
            ModItemKind::ExternBlock(_, item) => {
                self.say(" extern");
                self.ids(&item.children);
            }
            ModItemKind::ExternCrate(_, item) => {
                self.named(" extern crate", &item.name, item.visibility);
                self.alias(item.alias.as_ref());
            }
            ModItemKind::Function(_, item) => self.named(" fn", &item.name, item.visibility),
            ModItemKind::Impl(_, item) => self.say(if item.is_trait_impl { " impl of a trait" } else { " impl" }),
            ModItemKind::Macro2(_, item) => self.named(" macro", &item.name, item.visibility),
            ModItemKind::MacroCall(_, item) => {
                self.say(" call");
                self.path(&item.path);
                self.say(&format!(" {:?} context {}", item.expand_to, item.ctxt));
            }
            ModItemKind::MacroRules(_, item) => {
                self.say(" macro_rules");
                self.name(&item.name);
            }
            ModItemKind::Mod(_, item) => {
                self.named(" mod", &item.name, item.visibility);
                match &item.kind {
                    ModKind::Inline { items } => {
                        self.say(" inline");
                        self.ids(items);
                    }
                    ModKind::Outline => self.say(" outline"),
                }
            }
            ModItemKind::Static(_, item) => self.named(" static", &item.name, item.visibility),
            ModItemKind::Struct(_, item) => {
                self.named(" struct", &item.name, item.visibility);
                self.ctor(&item.value_ns_ctor);
            }
            ModItemKind::Trait(_, item) => self.named(" trait", &item.name, item.visibility),
            ModItemKind::TypeAlias(_, item) => self.named(" type", &item.name, item.visibility),
            ModItemKind::Union(_, item) => self.named(" union", &item.name, item.visibility),
            ModItemKind::Use(_, item) => {
                self.say(" use");
                self.visibility_of(item.visibility);
            }
        }
    }

    fn ctor(&mut self, ctor: &StructValueNsCtor) {
        match ctor {
            StructValueNsCtor::NoValueNsCtor => self.say(" no constructor"),
            StructValueNsCtor::ValueNsCtorWithVis(id) => {
                self.say(" constructor");
                self.visibility_of(*id);
            }
            StructValueNsCtor::ValueNsCtorWithMinVis(list) => {
                self.say(" constructor list");
                for id in list {
                    self.visibility_of(*id);
                }
            }
        }
    }

    /// The use nodes below one, by their places; with a mapping, the node of each.
    fn use_tree(&mut self, tree: &UseTree, mapping: Option<&[u32]>, next: &mut u32) {
        let place = *next;
        *next += 1;
        match mapping {
            None => self.say(&format!("use {place}")),
            Some(nodes) => self.say(&format!("place {place} node {}", nodes[place as usize])),
        }
        match tree.kind() {
            UseTreeKind::Single { path, alias } => {
                self.say(" single");
                self.path(path);
                self.alias(alias.as_ref());
                self.say("\n");
            }
            UseTreeKind::Glob { path } => {
                self.say(" glob");
                self.maybe_path(path.as_ref());
                self.say("\n");
            }
            UseTreeKind::Prefixed { prefix, list } => {
                self.say(" group");
                self.maybe_path(prefix.as_ref());
                self.say(&format!(" to {}\n", place + size(tree)));
                list.iter().for_each(|tree| self.use_tree(tree, mapping, next));
            }
        }
    }

    /// The Rust's imports of a use item; those by the rules where they depart from the Rust's on purpose.
    fn imports(&mut self, id: ModItemId) {
        let Some((rust, rules)) = Original::expand(self.tree, id.index) else { return };
        let departs = rules.departs.places || rules.departs.imports;
        let imports = if departs { rules.imports } else { rust };
        let names: usize = imports.iter().map(|import| import.names).sum();
        if names > MAX_NAMES {
            self.say(&format!("imports {} names {names}\n", imports.len()));
            return;
        }
        for import in imports {
            let alias = import.alias.map_or(" -".to_owned(), |alias| format!(" as {alias}"));
            self.say(&format!("import {} {} {}{alias}\n", import.place, import.kind, import.path));
        }
    }

    /// The use tree of a Use node by itself, within the limits of a new tree.
    fn lowered_use(&mut self, db: &Database, number: u32, item: Option<ast::Use>) {
        self.say(&format!("tree of {number} = "));
        let Some(item) = item else { return self.say("refused 8\n") };
        let lowered = item.use_tree().and_then(|tree| lower_use_tree(db, tree, &mut |_| SyntaxContext(0)));
        let Some((tree, mapping)) = lowered else { return self.say("none\n") };
        let mut counts = Counts::default();
        let mut paths = HashSet::new();
        count_use(&tree, &mut counts, &mut paths);
        counts.paths = paths.len();
        counts.segments = paths.iter().map(|path| path.segments().len()).sum();
        if !counts.fit() {
            return self.say("refused 6\n");
        }
        let nodes: Vec<u32> = mapping.values().map(|tree| tree.syntax().number()).collect();
        self.say(&format!("{}\n", nodes.len()));
        self.use_tree(&tree, Some(&nodes), &mut 0);
    }

    /// One attribute list put before another, in a new tree.
    fn merge(&mut self, db: &Database, first: u32, second: u32) {
        self.say(&format!("merged {first} {second}"));
        let (before, after) = (list_of(db, first), list_of(db, second));
        if !have_room(&before, &after) {
            return self.say(" = refused 6\n");
        }
        self.say("\n");
        self.attrs(Some(&before.merge(after)));
    }

    fn attrs(&mut self, attrs: Option<&AttrsOrCfg>) {
        match attrs {
            None => {}
            Some(AttrsOrCfg::Enabled { attrs }) => {
                attrs.as_ref().iter().for_each(|(_, attr)| self.attr(attr));
            }
            Some(AttrsOrCfg::CfgDisabled(inner)) => {
                inner.1.as_ref().iter().for_each(|(_, attr)| self.attr(attr));
                self.say("disabled ");
                self.say(&quoted(&inner.0.0));
                self.say("\n");
            }
        }
    }

    fn attr(&mut self, attr: &Attr) {
        self.say("attribute");
        self.path(&attr.path);
        match attr.input.as_deref() {
            None => self.say(" -"),
            Some(AttrInput::Literal(it)) => {
                self.say(" literal ");
                self.say(&quoted(&it.0));
            }
            Some(AttrInput::TokenTree(it)) => {
                self.say(" tokens ");
                self.say(&quoted(&it.0));
            }
        }
        self.say(&format!(" context {}\n", attr.ctxt));
    }
}

/// How many nodes a use tree has.
fn size(tree: &UseTree) -> u32 {
    match tree.kind() {
        UseTreeKind::Prefixed { list, .. } => 1 + list.iter().map(size).sum::<u32>(),
        _ => 1,
    }
}
