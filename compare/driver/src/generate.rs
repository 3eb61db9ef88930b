//! Lawful sources from a seed, and lists of calls.

use std::collections::HashMap;

use original::call::Call;

use crate::model::{Form, Random, Tree};

/// The deepest level.
const DEEPEST: u32 = 40;

/// Kinds that can be items.
const FIRST_ITEM: u32 = 10;
const ITEM_KINDS: usize = 17;

pub struct Generator {
    pub random: Random,
    texts: Vec<Vec<u8>>,
    numbers: HashMap<Vec<u8>, u32>,
    /// nodes that may still be made
    left: usize,
    /// how much is left unread or left out, in a hundred
    broken: u64,
}

/// A source, and the calls to be made on it.
pub struct Made {
    pub root: Tree,
    pub texts: Vec<Vec<u8>>,
    pub form: Form,
    pub calls: Vec<Call>,
    pub profile: &'static str,
}

/// A lawful source and its calls.
pub fn make(seed: u64) -> Made {
    let mut random = Random::new(seed);
    let broken = *random.pick(&[0, 4, 10, 30]);
    let roll = random.below(1000);
    let mut it = Generator { random, texts: Vec::new(), numbers: HashMap::new(), left: 4095, broken };
    let (profile, root) = it.root(roll);
    let form = Form::new(&root, it.texts.clone());
    assert!(form.nodes.len() <= 4096 && form.texts.len() <= 1024, "a source of the profile {profile} is too large");
    let calls = it.calls(&form);
    Made { root, texts: it.texts, form, calls, profile }
}

impl Generator {
    fn root(&mut self, roll: usize) -> (&'static str, Tree) {
        match roll {
            0..20 => ("empty", Tree::new(0, 0)),
            20..750 => ("few items", self.few(12, 3)),
            750..870 => ("more items", self.few(60, 6)),
            870..880 => ("many items", self.few(400, 10)),
            880..910 => ("deep", self.deep()),
            910..920 => ("deep use", self.deep_use()),
            920..932 => ("small records", self.near_small()),
            932..944 => ("big records", self.near_big()),
            944..954 => ("attributes", self.near_attrs()),
            954..964 => ("visibilities", self.near_visibilities()),
            964..970 => ("constructors", self.near_ctors()),
            970..976 => ("use nodes", self.near_uses()),
            976..982 => ("paths", self.near_paths()),
            982..988 => ("segments", self.near_segments()),
            988..994 => ("nodes", self.near_nodes()),
            _ => ("texts", self.near_texts()),
        }
    }

    // Texts.

    fn text(&mut self, bytes: Vec<u8>) -> u32 {
        if let Some(number) = self.numbers.get(&bytes) {
            return *number;
        }
        if self.texts.len() == 1024 {
            return 1 + self.random.below(1024) as u32;
        }
        self.texts.push(bytes.clone());
        let number = self.texts.len() as u32;
        self.numbers.insert(bytes, number);
        number
    }

    fn some_text(&mut self) -> u32 {
        let bytes = match self.random.below(40) {
            0 => self.wild(),
            1 => b"[missing name]".to_vec(),
            2 => b"a\nb".to_vec(),
            3 => b"\n".to_vec(),
            4 => b"\n\n".to_vec(),
            5 => b"_".to_vec(),
            6 => b"self".to_vec(),
            7 => b"(x = \"y\\z\")".to_vec(),
            8..12 => format!("n{}", self.random.below(60)).into_bytes(),
            _ => vec![b'a' + self.random.below(8) as u8],
        };
        self.text(bytes)
    }

    /// Any bytes.
    fn wild(&mut self) -> Vec<u8> {
        let len = match self.random.below(6) {
            0 => 255,
            1 => 254,
            _ => 1 + self.random.below(8),
        };
        (0..len).map(|_| self.random.next() as u8).collect()
    }

    fn fresh(&mut self, number: usize) -> u32 {
        self.text(format!("x{number}").into_bytes())
    }

    fn maybe_text(&mut self) -> u32 {
        if self.breaks() { 0 } else { self.some_text() }
    }

    fn breaks(&mut self) -> bool {
        let times = self.broken;
        self.random.percent(times)
    }

    // Nodes.

    /// Whether so many nodes may still be made.
    fn room(&self, nodes: usize) -> bool {
        self.left >= nodes
    }

    fn node(&mut self, kind: u32, mark: u32) -> Tree {
        self.left = self.left.saturating_sub(1);
        let mut tree = Tree::new(kind, mark);
        if self.random.percent(20) {
            let a = self.offset();
            let b = self.offset();
            (tree.from, tree.to) = (a.min(b), a.max(b));
        }
        tree
    }

    fn offset(&mut self) -> u32 {
        match self.random.below(10) {
            0 => u32::MAX,
            1 => self.random.next() as u32,
            2 => 127 + self.random.below(3) as u32,
            _ => self.random.below(5000) as u32,
        }
    }

    fn named_node(&mut self, kind: u32, mark: u32) -> Tree {
        let mut tree = self.node(kind, mark);
        tree.text = self.maybe_text();
        tree
    }

    /// A node whose text nobody reads.
    fn plain_node(&mut self, kind: u32, mark: u32) -> Tree {
        let mut tree = self.node(kind, mark);
        if self.random.percent(3) {
            tree.text = self.some_text();
        }
        tree
    }

    fn segment(&mut self, mark: u32) -> Tree {
        let mut tree = self.plain_node(32, mark);
        if mark == 0 {
            tree.text = if self.breaks() && self.random.percent(20) { 0 } else { self.some_text() };
        }
        tree
    }

    fn path(&mut self) -> Tree {
        let leading: &[u32] = match self.random.below(12) {
            0 => &[1],
            1 => &[2],
            2 => &[3],
            3 => &[4],
            4 => &[1, 2],
            5 => &[2, 2],
            _ => &[],
        };
        let mut marks = leading.to_vec();
        let names = match self.random.below(100) {
            0 => 64 - marks.len(),
            1..5 => self.random.below(20),
            _ => self.random.below(3),
        };
        marks.extend(vec![0; names]);
        if self.breaks() {
            let count = 1 + self.random.below(4);
            marks = (0..count).map(|_| self.random.below(5) as u32).collect();
        }
        if marks.is_empty() {
            marks.push(0);
        }
        let abs = u32::from(self.random.percent(if leading.is_empty() { 20 } else { 3 }));
        let path = self.plain_node(31, abs);
        let segments: Vec<Tree> = marks.into_iter().map(|mark| self.segment(mark)).collect();
        path.with(segments)
    }

    /// A path of one name.
    fn path_of(&mut self, text: u32) -> Tree {
        self.left = self.left.saturating_sub(2);
        Tree::new(31, 0).with([Tree::named(32, 0, text)])
    }

    fn vis(&mut self, depth: u32) -> Tree {
        let mark = self.random.below(if depth + 2 <= DEEPEST { 7 } else { 4 }) as u32;
        let vis = self.plain_node(30, mark.min(4));
        if mark < 4 { vis } else { vis.with([self.path()]) }
    }

    fn vis_in(&mut self, text: u32) -> Tree {
        self.left = self.left.saturating_sub(1);
        Tree::new(30, 4).with([self.path_of(text)])
    }

    fn attr(&mut self, depth: u32) -> Tree {
        let mark = *self.random.pick(&[0, 0, 1, 1, 2, 2, 3, 4]);
        let mut attr = self.node(36, mark);
        attr.text = if self.random.percent(25) { 0 } else { self.some_text() };
        if depth + 2 <= DEEPEST && !self.breaks() {
            let path = self.path();
            attr.children.push(path);
        }
        attr
    }

    fn attrs(&mut self, depth: u32) -> Vec<Tree> {
        if depth > DEEPEST || self.random.percent(60) {
            return Vec::new();
        }
        let count = 1 + self.random.below(3);
        (0..count).filter_map(|_| self.room(70).then(|| self.attr(depth))).collect()
    }

    fn rename(&mut self) -> Tree {
        self.named_node(34, 0)
    }

    /// A use node at a level.
    fn use_tree(&mut self, depth: u32) -> Tree {
        let mark = *self.random.pick(&[0, 0, 0, 0, 1, 1, 2, 2, 2, 5, 6]);
        let mut tree = self.plain_node(33, mark);
        let path = match mark {
            0 => !self.breaks(),
            1 | 2 => self.random.percent(70),
            _ => false,
        };
        if path && depth + 2 <= DEEPEST && self.room(70) {
            let path = if self.random.percent(12) { self.self_path() } else { self.path() };
            tree.children.push(path);
        }
        let renamed = match mark {
            0 => self.random.percent(25),
            1 | 5 => self.breaks(),
            _ => false,
        };
        if renamed && depth < DEEPEST {
            let rename = self.rename();
            tree.children.push(rename);
        }
        if matches!(mark, 2 | 6) && depth < DEEPEST {
            for _ in 0..self.random.below(4) {
                if self.room(70) {
                    let member = self.use_tree(depth + 1);
                    tree.children.push(member);
                }
            }
        }
        tree
    }

    fn self_path(&mut self) -> Tree {
        self.left = self.left.saturating_sub(2);
        Tree::new(31, 0).with([Tree::new(32, 1)])
    }

    /// An item at a level, with what is inside it down to `inside` levels of items.
    fn item(&mut self, depth: u32, inside: u32) -> Tree {
        let kind = FIRST_ITEM + self.random.below(ITEM_KINDS) as u32;
        self.item_of(kind, depth, inside)
    }

    fn item_of(&mut self, kind: u32, depth: u32, inside: u32) -> Tree {
        let mark = match kind {
            10 => self.random.below(3),
            17 => usize::from(self.random.percent(30)),
            19 => self.random.below(2),
            22 => self.random.below(5),
            _ => 0,
        } as u32;
        let mut item = match kind {
            16 => self.named_node(kind, mark),
            19 | 20 | 22 | 25 | 26 => self.plain_node(kind, mark),
            _ => self.named_node(kind, mark),
        };
        if depth == DEEPEST {
            return item;
        }
        item.children = self.attrs(depth + 1);
        if matches!(kind, 10..=18 | 20 | 21 | 24) && self.random.percent(60) {
            let vis = self.vis(depth + 1);
            item.children.push(vis);
        }
        let more = self.inside(kind, mark, depth + 1, inside);
        item.with(more)
    }

    /// The further children of an item.
    fn inside(&mut self, kind: u32, mark: u32, depth: u32, inside: u32) -> Vec<Tree> {
        let count = |it: &mut Generator| if inside == 0 { 0 } else { it.random.below(6) };
        match (kind, mark) {
            (10, 2) => (0..self.random.below(6)).map(|_| self.field(depth)).collect(),
            (17, 0) => {
                let count = count(self);
                (0..count).filter_map(|_| self.room(200).then(|| self.item(depth, inside.saturating_sub(1)))).collect()
            }
            (25, _) => (0..self.random.below(5))
                .filter_map(|_| {
                    let kind = *self.random.pick(&[13, 14, 15, 22]);
                    self.room(200).then(|| self.item_of(kind, depth, 0))
                })
                .collect(),
            (20, _) if !self.breaks() => vec![self.use_tree(depth)],
            (21, _) if self.random.percent(50) => vec![self.rename()],
            (22, _) if depth + 1 <= DEEPEST && !self.breaks() => vec![self.path()],
            _ => Vec::new(),
        }
    }

    fn field(&mut self, depth: u32) -> Tree {
        let mut field = self.plain_node(35, 0);
        if depth < DEEPEST && !self.random.percent(10) {
            let vis = if depth + 3 <= DEEPEST && self.random.percent(40) {
                let text = self.some_text();
                self.vis_in(text)
            } else {
                self.vis(depth + 1)
            };
            field.children.push(vis);
        }
        field
    }

    // Whole sources.

    fn file(&mut self, items: Vec<Tree>) -> Tree {
        let attrs = self.attrs(1);
        Tree::new(0, 0).with(attrs).with(items)
    }

    fn few(&mut self, most: usize, inside: u32) -> Tree {
        let count = self.random.below(most + 1);
        let items = (0..count).filter_map(|_| self.room(300).then(|| self.item(1, inside))).collect();
        self.file(items)
    }

    /// Modules in each other, down to the deepest level.
    fn deep(&mut self) -> Tree {
        let deepest = DEEPEST - self.random.below(4) as u32;
        let mut inner: Vec<Tree> = vec![self.item(deepest, 0)];
        for depth in (1..deepest).rev() {
            let text = self.some_text();
            let module = Tree::named(17, 0, if self.random.percent(1) { 0 } else { text }).with(self.attrs(depth + 1));
            let before = if self.random.percent(30) { vec![self.item(depth + 1, 0)] } else { Vec::new() };
            let after = if self.random.percent(30) { vec![self.item(depth + 1, 0)] } else { Vec::new() };
            inner = vec![module.with(before).with(inner).with(after)];
        }
        self.file(inner)
    }

    /// Groups in each other, down to the deepest level.
    fn deep_use(&mut self) -> Tree {
        let deepest = DEEPEST - self.random.below(3) as u32;
        let mut inner = self.use_tree(deepest);
        for depth in (2..deepest).rev() {
            let mark = *self.random.pick(&[2, 2, 2, 6]);
            let mut group = Tree::new(33, mark);
            if mark == 2 && depth + 2 <= DEEPEST && self.random.percent(40) {
                let path = self.path();
                group.children.push(path);
            }
            let more = if self.random.percent(40) && self.room(70) { vec![self.use_tree(depth + 1)] } else { Vec::new() };
            inner = group.with([inner]).with(more);
        }
        let used = Tree::new(20, 0).with([inner]);
        self.file(vec![used])
    }

    /// A count a little below, at, or a little above a limit.
    fn around(&mut self, limit: usize) -> usize {
        limit + *self.random.pick(&[0, 0, 0, 1, 1, 2]) - *self.random.pick(&[0, 0, 1])
    }

    /// Puts items into modules of the root now and then, of which the tree can hold enough.
    fn spread(&mut self, items: Vec<Tree>) -> Tree {
        let parts = *self.random.pick(&[0, 1, 2, 5]);
        if parts == 0 {
            return self.file_of(items);
        }
        let mut modules: Vec<Tree> = (0..parts).map(|i| Tree::named(17, 0, self.fresh(900 + i))).collect();
        for (i, item) in items.into_iter().enumerate() {
            modules[i % parts].children.push(item);
        }
        self.file_of(modules)
    }

    fn file_of(&mut self, items: Vec<Tree>) -> Tree {
        Tree::new(0, 0).with(items)
    }

    fn near_small(&mut self) -> Tree {
        let count = self.around(512);
        let text = self.some_text();
        let kinds = [11, 12, 13, 14, 15, 16, 18, 19, 23, 24];
        let items = (0..count).map(|_| Tree::named(*self.random.pick(&kinds), 0, text)).collect();
        self.spread(items)
    }

    fn near_big(&mut self) -> Tree {
        let count = self.around(256);
        let text = self.some_text();
        let mut items = Vec::new();
        for _ in 0..count {
            items.push(match self.random.below(4) {
                0 => Tree::named(10, self.random.below(3) as u32, text),
                1 => Tree::named(17, self.random.below(2) as u32, text),
                2 => Tree::new(20, 0).with([Tree::new(33, 1)]),
                _ => Tree::named(21, 0, text),
            });
        }
        self.file_of(items)
    }

    fn near_attrs(&mut self) -> Tree {
        let mut count = self.around(512);
        let mut items = Vec::new();
        while count > 0 {
            let here = count.min(1 + self.random.below(90));
            count -= here;
            let mut attrs = Vec::new();
            for _ in 0..here {
                if self.random.percent(5) {
                    attrs.push(Tree::new(36, 3));
                }
                attrs.push(Tree::named(36, self.random.below(3) as u32, self.some_text()));
            }
            if self.random.percent(20) {
                attrs.push(Tree::new(36, 4));
                attrs.push(Tree::new(36, 0));
            }
            items.push(Tree::new(19, 0).with(attrs));
        }
        let mut root = self.file_of(Vec::new());
        if self.random.percent(50) {
            root.children = items.pop().map_or(Vec::new(), |item| item.children);
        }
        root.with(items)
    }

    fn near_visibilities(&mut self) -> Tree {
        let count = self.around(128);
        let mut items = Vec::new();
        for i in 0..count {
            let text = self.fresh(i);
            let vis = self.vis_in(text);
            let kind = *self.random.pick(&[10, 11, 12, 13, 14, 15, 16, 17, 18, 20, 24]);
            let named = matches!(kind, 14 | 15 | 17 | 18 | 24) || self.random.percent(50);
            let mut item = Tree::named(kind, u32::from(kind == 10), if named { text } else { 0 });
            item.children.push(vis);
            items.push(item);
            if self.random.percent(20) {
                let again = self.vis_in(text);
                items.push(Tree::named(11, 0, 0).with([again]));
            }
        }
        self.file_of(items)
    }

    fn near_ctors(&mut self) -> Tree {
        let mut count = self.around(256);
        let text = self.some_text();
        let mut items = Vec::new();
        while count > 0 {
            let here = match count {
                1 => 3,
                2..=122 => count,
                _ => 2 + self.random.below(118),
            };
            count = count.saturating_sub(here);
            let mut fields = Vec::new();
            for i in 0..here {
                let path = self.fresh(i);
                fields.push(Tree::new(35, 0).with([self.vis_in(path)]));
            }
            if self.random.percent(3) {
                fields.push(Tree::new(35, 0));
            }
            items.push(Tree::named(10, 2, text).with([Tree::new(30, 0)]).with(fields));
        }
        self.file_of(items)
    }

    fn near_uses(&mut self) -> Tree {
        let mut count = self.around(1024);
        let mut items = Vec::new();
        while count > 0 {
            let here = count.min(2 + self.random.below(400));
            count -= here;
            let mut members = Vec::new();
            for _ in 1..here {
                members.push(if self.random.percent(10) && self.room(2000) {
                    let text = self.some_text();
                    Tree::new(33, 0).with([self.path_of(text)])
                } else {
                    Tree::new(33, *self.random.pick(&[1, 2, 5, 6]))
                });
                if self.random.percent(3) {
                    members.push(Tree::new(33, 0));
                }
            }
            items.push(Tree::new(20, 0).with([Tree::new(33, 2).with(members)]));
        }
        self.file_of(items)
    }

    fn near_paths(&mut self) -> Tree {
        let count = self.around(512);
        let mut singles = Vec::new();
        let mut items = Vec::new();
        for i in 0..count {
            let text = self.fresh(i);
            let path = self.path_of(text);
            match self.random.below(8) {
                0 => items.push(Tree::new(19, 0).with([Tree::new(36, 0).with([path])])),
                1 => items.push(Tree::new(22, 1).with([path])),
                _ => singles.push(Tree::new(33, 0).with([path])),
            }
            if self.random.percent(10) {
                let again = self.path_of(text);
                singles.push(Tree::new(33, 1).with([again]));
            }
        }
        items.push(Tree::new(20, 0).with([Tree::new(33, 2).with(singles)]));
        self.file_of(items)
    }

    fn near_segments(&mut self) -> Tree {
        let mut count = self.around(2048);
        let mut singles = Vec::new();
        let text = self.some_text();
        let mut i = 0;
        while count > 0 {
            let here = count.min(50 + self.random.below(15));
            count -= here;
            let first = self.fresh(i);
            let rest = (1..here).map(|_| Tree::named(32, 0, text));
            singles.push(Tree::new(33, 0).with([Tree::new(31, 0).with([Tree::named(32, 0, first)]).with(rest)]));
            i += 1;
        }
        let half = singles.split_off(singles.len() / 2);
        let use_of = |members: Vec<Tree>| Tree::new(20, 0).with([Tree::new(33, 2).with(members)]);
        self.file_of(vec![use_of(singles), use_of(half)])
    }

    fn near_nodes(&mut self) -> Tree {
        let count = 4096 - *self.random.pick(&[0, 0, 1]);
        let mut root = self.few(20, 4);
        if root.size() < count {
            for _ in root.size()..count {
                root.children.push(Tree::new(26, 0));
            }
        }
        root
    }

    fn near_texts(&mut self) -> Tree {
        let root = self.few(20, 4);
        let mut i = 0;
        let count = 1024 - *self.random.pick(&[0, 0, 1]);
        while self.texts.len() < count {
            self.fresh(i);
            i += 1;
        }
        let last = self.texts.len() as u32;
        root.with([Tree::named(13, 0, last)])
    }

    // Calls.

    fn calls(&mut self, form: &Form) -> Vec<Call> {
        let children = form.root_children();
        if children.is_empty() || self.random.percent(60) {
            return vec![Call::Root];
        }
        if self.random.percent(5) {
            return children.iter().take(300).map(|number| Call::Node(*number)).collect();
        }
        let count = self.random.below(9);
        let mut calls = Vec::new();
        for _ in 0..count {
            calls.push(match self.random.below(20) {
                0..3 => Call::Root,
                3..5 => Call::Node(self.random.below(form.nodes.len() + 2) as u32),
                5 => Call::Node(*self.random.pick(&[0, 4096, 4095, u32::MAX - 1])),
                _ => Call::Node(*self.random.pick(&children)),
            });
        }
        calls
    }
}
