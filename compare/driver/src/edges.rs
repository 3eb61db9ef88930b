//! Cases that were thought of: the examples of the documents, edges and limits.

use original::call::Call;

use crate::model::{Form, Tree, packed};

/// A form under a name, and the calls to be made.
pub struct Edge {
    pub name: String,
    pub bytes: Vec<u8>,
    pub calls: Vec<Call>,
}

/// The texts of a source, by what they say.
#[derive(Default)]
struct Texts(Vec<Vec<u8>>);

impl Texts {
    fn number(&mut self, text: &str) -> u32 {
        if let Some(at) = self.0.iter().position(|it| it == text.as_bytes()) {
            return at as u32 + 1;
        }
        self.0.push(text.as_bytes().to_vec());
        self.0.len() as u32
    }

    /// A path as it is written; `?` is a name without a text.
    fn path(&mut self, written: &str) -> Tree {
        let (mark, rest) = match written.strip_prefix("::") {
            Some(rest) => (1, rest),
            None => (0, written),
        };
        let segments: Vec<Tree> = rest
            .split("::")
            .map(|word| match word {
                "self" => Tree::new(32, 1),
                "super" => Tree::new(32, 2),
                "crate" => Tree::new(32, 3),
                "$crate" => Tree::new(32, 4),
                "?" => Tree::new(32, 0),
                name => Tree::named(32, 0, self.number(name)),
            })
            .collect();
        Tree::new(31, mark).with(segments)
    }

    fn vis(&mut self, written: &str) -> Option<Tree> {
        Some(match written {
            "" => return None,
            "pub" => Tree::new(30, 0),
            "pub(crate)" => Tree::new(30, 1),
            "pub(super)" => Tree::new(30, 2),
            "pub(self)" => Tree::new(30, 3),
            path => Tree::new(30, 4).with([self.path(path)]),
        })
    }

    fn rename(&mut self, alias: &str) -> Tree {
        if alias == "_" { Tree::new(34, 0) } else { Tree::named(34, 0, self.number(alias)) }
    }

    /// A use tree as it is written, without spaces around names.
    fn use_tree(&mut self, written: &str) -> Tree {
        let (written, rename) = match written.rsplit_once(" as ") {
            Some((front, alias)) if !alias.contains('}') => (front, Some(self.rename(alias))),
            _ => (written, None),
        };
        let tree = if let Some(inner) = written.strip_suffix('}') {
            let (prefix, members) = inner.split_once('{').unwrap();
            let members: Vec<Tree> = parts(members).into_iter().map(|member| self.use_tree(member)).collect();
            self.prefixed(2, prefix).with(members)
        } else if let Some(prefix) = written.strip_suffix('*') {
            self.prefixed(1, prefix)
        } else if written.is_empty() {
            Tree::new(33, 0)
        } else {
            Tree::new(33, 0).with([self.path(written)])
        };
        tree.with(rename)
    }

    /// A glob or group behind `path::`, behind a bare `::` or behind nothing.
    fn prefixed(&mut self, mark: u32, prefix: &str) -> Tree {
        match prefix.strip_suffix("::") {
            None => Tree::new(33, mark),
            Some("") => Tree::new(33, mark + 4),
            Some(path) => Tree::new(33, mark).with([self.path(path)]),
        }
    }

    /// An attribute: its mark, path and text, each of the last two perhaps empty.
    fn attr(&mut self, mark: u32, path: &str, text: &str) -> Tree {
        let number = if text.is_empty() { 0 } else { self.number(text) };
        let path = (!path.is_empty()).then(|| self.path(path));
        Tree::named(36, mark, number).with(path)
    }

    fn item(&mut self, kind: u32, mark: u32, name: &str, vis: &str) -> Tree {
        let number = if name.is_empty() { 0 } else { self.number(name) };
        let vis = self.vis(vis);
        Tree::named(kind, mark, number).with(vis)
    }
}

/// Members of a group, which are parted by commas outside of inner braces.
fn parts(members: &str) -> Vec<&str> {
    let mut parts = Vec::new();
    let (mut depth, mut start) = (0, 0);
    for (at, byte) in members.bytes().enumerate() {
        match byte {
            b'{' => depth += 1,
            b'}' => depth -= 1,
            b',' if depth == 0 => {
                parts.push(members[start..at].trim());
                start = at + 1;
            }
            _ => {}
        }
    }
    if !members.is_empty() {
        parts.push(members[start..].trim());
    }
    parts
}

#[derive(Default)]
pub struct Edges(pub Vec<Edge>);

impl Edges {
    fn bytes(&mut self, name: &str, bytes: Vec<u8>, calls: &[Call]) {
        self.0.push(Edge { name: name.to_owned(), bytes, calls: calls.to_vec() });
    }

    fn calls(&mut self, name: &str, calls: &[Call], make: impl FnOnce(&mut Texts) -> Vec<Tree>) {
        let mut texts = Texts::default();
        let children = make(&mut texts);
        let form = Form::new(&Tree::new(0, 0).with(children), texts.0);
        self.bytes(name, form.pack(), calls);
    }

    fn root(&mut self, name: &str, make: impl FnOnce(&mut Texts) -> Vec<Tree>) {
        self.calls(name, &[Call::Root], make);
    }
}

pub fn all() -> Edges {
    let mut edges = Edges::default();
    uses(&mut edges);
    paths(&mut edges);
    constructors(&mut edges);
    attributes(&mut edges);
    merges(&mut edges);
    items(&mut edges);
    layout(&mut edges);
    runs(&mut edges);
    forms(&mut edges);
    laws(&mut edges);
    limits(&mut edges);
    edges
}

fn uses(edges: &mut Edges) {
    let written = [
        "a", "a as b", "a as _", "*", "a::*", "::*", "::a::*", "{}", "a::{}", "::{}", "{a}", "{{a}}", "a::{b::{c}, d}",
        "a::{self::{b, c}, d}", "a::{self, *}", "::{a, b as c}", "a::{self::*}", "a::{* as b, c}", "a::{b::self, c}", "a::{crate::b, c}",
        "a::{{b}}", "a::{self as b}", "super::{super::x}", "{self}", "::{self}", "* as b", "::* as b", "a::* as b", "b::self", "b::self::{c}",
        "a::{b::self::{c, d}, e}", "a::{, b}", "a::{ as x, b}", "crate::{self, $crate::x, super::y, ::z}", "self::super::super::a",
        "self::{super::{super::{super}}}", "a::b::{c::d, e::{f, g::*}, h as _}", "?", "a::{?, b}", "a::?::{b}", "$crate", "crate", "self", "super",
        "a::{::*, ::{b, ::{c}}}", "a::{{}, {{}}, b}",
    ];
    for written in written {
        edges.root(&format!("use {written}"), |texts| vec![Tree::new(20, 0).with([texts.use_tree(written)])]);
    }
    edges.root("use without a tree", |texts| vec![texts.item(20, 0, "", "p")]);
    edges.root("use without a lowered tree", |texts| {
        let vis = texts.vis("p");
        vec![Tree::new(20, 0).with(vis).with([texts.use_tree("a::self")])]
    });
    for (members, name) in [(7, "fewer"), (8, "more")] {
        // 36 groups of 64 names around 7 or 8 members: 2,304 names for each, with its own one more
        edges.root(&format!("imports with {name} than 16,384 names"), |texts| {
            let names = vec!["a"; 64].join("::");
            let members = vec!["b"; members].join(", ");
            let written = format!("{}{{{members}}}{}", format!("{names}::{{").repeat(35) + &names + "::", "}".repeat(35));
            vec![Tree::new(20, 0).with([texts.use_tree(&written)])]
        });
    }
    edges.root("four groups of 64 super", |texts| {
        let supers = vec!["super"; 64].join("::");
        let written = format!("{supers}::{{{supers}::{{{supers}::{{{supers}}}}}}}");
        vec![Tree::new(20, 0).with([texts.use_tree(&written)])]
    });
}

fn paths(edges: &mut Edges) {
    let written = [
        "a", "a::b", "::a", "::a::b", "self", "self::a", "super", "super::a", "super::super::a", "self::super", "self::super::super::a", "crate",
        "crate::a", "$crate", "$crate::m", "a::self", "a::super", "a::crate", "a::$crate", "self::self", "super::self", "crate::super",
        "crate::self", "crate::crate", "$crate::crate", "super::crate", "self::super::self", "super::a::super", "::self", "::super::a", "::crate",
        "::$crate", "::a::self", "?", "a::?", "::?", "self::?", "super::?", "crate::?",
    ];
    for written in written {
        edges.root(&format!("path {written}"), |texts| {
            let call = Tree::new(22, 1).with([texts.path(written)]);
            let attr = texts.attr(0, written, "");
            let vis = texts.vis(written);
            vec![call, Tree::named(13, 0, texts.number("f")).with([attr]).with(vis)]
        });
    }
    edges.root("a path of 64 segments", |texts| {
        let names: Vec<String> = (0..64).map(|i| format!("n{i}")).collect();
        vec![Tree::new(22, 0).with([texts.path(&names.join("::"))])]
    });
    edges.root("texts on segments that do not read them", |texts| {
        let text = texts.number("x");
        let path = Tree::named(31, 0, text).with([Tree::named(32, 1, text), Tree::named(32, 2, text), Tree::named(32, 0, text)]);
        vec![Tree::named(22, 0, text).with([path])]
    });
}

fn constructors(edges: &mut Edges) {
    let rows: [(&str, &[&str]); 24] = [
        ("pub", &["p", "pub", "q"]),
        ("pub", &["pub(crate)", ""]),
        ("pub", &[]),
        ("", &["pub"]),
        ("pub(self)", &["pub"]),
        ("pub(crate)", &["pub", "a"]),
        ("a", &["b", "a"]),
        ("pub(super)", &["super"]),
        ("pub", &["a", "b", ""]),
        ("pub", &["a", "b", "pub(self)", ""]),
        ("pub", &["a", "", "b"]),
        ("pub", &["pub(crate)", "pub", "pub(crate)"]),
        ("pub", &["pub(crate)", "a", "pub(crate)", "pub"]),
        ("pub(crate)", &["pub(crate)", "pub"]),
        ("pub(crate)", &["a", "b", "c", "b", "a"]),
        ("a", &["a"]),
        ("a", &["pub", "pub(crate)"]),
        ("a", &["b", "pub", "pub(crate)", "c", "b"]),
        ("pub", &["a::self"]),
        ("pub", &["self"]),
        ("pub", &["crate", "crate"]),
        ("pub", &["pub(super)", "self::super", "super::super"]),
        ("a::self", &["pub"]),
        ("pub", &["pub", "pub(self)"]),
    ];
    for (vis, fields) in rows {
        edges.root(&format!("{vis} struct S({})", fields.join(", ")), |texts| {
            let fields: Vec<Tree> = fields.iter().map(|vis| Tree::new(35, 0).with(texts.vis(vis))).collect();
            vec![texts.item(10, 2, "S", vis).with(fields)]
        });
    }
    for (vis, mark) in [("a", 1), ("pub", 0), ("", 1), ("pub(crate)", 1), ("a", 0)] {
        edges.root(&format!("{vis} struct S, mark {mark}"), |texts| vec![texts.item(10, mark, "S", vis)]);
    }
    edges.root("a nameless tuple struct", |texts| {
        let fields = [Tree::new(35, 0).with(texts.vis("q"))];
        vec![texts.item(10, 2, "", "p").with(fields), texts.item(13, 0, "f", "q")]
    });
}

fn attributes(edges: &mut Edges) {
    for mark in 0..5 {
        for (path, text) in [("a", "x"), ("a", ""), ("", "x"), ("", ""), ("a::self", "(y)"), ("?", "y")] {
            edges.root(&format!("attribute mark {mark} path {path} text {text}"), |texts| {
                let attr = texts.attr(mark, path, text);
                vec![attr.clone(), Tree::new(19, 0).with([attr.clone()]), Tree::new(19, 1).with([attr.clone(), attr])]
            });
        }
    }
    edges.root("a false condition ends the list", |texts| {
        let attrs = [texts.attr(0, "a", ""), texts.attr(4, "cfg", "not(x)"), texts.attr(0, "b", "")];
        vec![texts.attr(1, "t", " = 1"), texts.attr(4, "", ""), texts.attr(0, "u", ""), Tree::new(19, 0).with(attrs)]
    });
    edges.root("the missing name is no text", |texts| {
        let attrs = [texts.attr(0, "[missing name]", ""), texts.attr(0, "", ""), texts.attr(0, "a::self", "")];
        vec![Tree::new(19, 0).with(attrs)]
    });
    edges.root("attributes of what is passed over", |texts| {
        let attr = texts.attr(0, "a", "");
        vec![
            Tree::new(13, 0).with([attr.clone()]),
            Tree::new(26, 0).with([attr.clone()]),
            Tree::new(17, 0).with([attr.clone()]).with([texts.item(13, 0, "f", "p")]),
            Tree::new(22, 0).with([attr]),
        ]
    });
    edges.root("attributes inside and outside", |texts| {
        let inner = texts.item(13, 0, "f", "");
        let inner = Tree { children: vec![texts.attr(0, "in", "")], ..inner };
        let module = texts.item(17, 0, "m", "");
        let module = Tree { children: vec![texts.attr(2, "out", "(1)"), inner], ..module };
        let block = Tree::new(25, 0).with([texts.attr(0, "block", "")]).with([texts.item(15, 0, "S", "pub")]);
        vec![module, block]
    });
}

/// Lists of neighbours: those of the file and of its items, each merged with the next.
fn merges(edges: &mut Edges) {
    let lists: [&[(u32, &str, &str)]; 5] = [
        &[],
        &[(0, "a", "")],
        &[(0, "a", ""), (1, "b", "= 1"), (3, "cfg", "x")],
        &[(4, "cfg", "not(x)"), (0, "a", "")],
        &[(2, "c", "(1)"), (4, "cfg", "y"), (0, "a", "")],
    ];
    for (first, before) in lists.iter().enumerate() {
        for (second, after) in lists.iter().enumerate() {
            edges.root(&format!("list {first} merged with list {second}"), |texts| {
                let mut owner = |list: &[(u32, &str, &str)]| -> Vec<Tree> {
                    list.iter().map(|(mark, path, text)| texts.attr(*mark, path, text)).collect()
                };
                let (file, item) = (owner(before), owner(after));
                let items = [Tree::new(19, 0).with(item.clone()), Tree::new(19, 0).with(file.clone()), Tree::new(19, 0).with(item)];
                file.into_iter().chain(items).collect()
            });
        }
    }
    for (first, second) in [(128, 128), (128, 129), (256, 0), (0, 256), (300, 212), (300, 213), (512, 0)] {
        edges.root(&format!("{first} attributes merged with {second}"), |_| {
            let attrs = |count| (0..count).map(|_| Tree::new(36, 0));
            vec![Tree::new(19, 0).with(attrs(first)), Tree::new(19, 0).with(attrs(second))]
        });
    }
    edges.root("200 attributes behind a false condition", |_| {
        let attrs = |count| (0..count).map(|_| Tree::new(36, 0));
        let disabled = Tree::new(19, 0).with(attrs(200)).with([Tree::new(36, 4)]);
        vec![disabled.clone(), Tree::new(19, 0).with(attrs(200)), disabled]
    });
}

fn items(edges: &mut Edges) {
    let vis = ["", "pub", "pub(crate)", "pub(super)", "pub(self)", "p::q", "p::self"];
    for kind in 10..=26 {
        for (at, vis) in vis.iter().enumerate() {
            let has_vis = matches!(kind, 10..=18 | 20 | 21 | 24);
            if at > 0 && !has_vis {
                continue;
            }
            edges.root(&format!("kind {kind} {vis}"), |texts| {
                vec![texts.item(kind, 0, "n", vis), texts.item(kind, 0, "", vis)]
            });
        }
    }
    for mark in 0..5 {
        edges.root(&format!("macro call, mark {mark}"), |texts| vec![Tree::new(22, mark).with([texts.path("a::m")]), Tree::new(22, mark)]);
    }
    edges.root("impls, outline modules", |texts| {
        vec![Tree::new(19, 1), Tree::new(19, 0), texts.item(17, 1, "m", "pub"), texts.item(17, 1, "", "p")]
    });
    for (name, alias) in [("a", "b"), ("a", "_"), ("", "b")] {
        edges.root(&format!("extern crate {name} as {alias}"), |texts| vec![texts.item(21, 0, name, "pub").with([texts.rename(alias)])]);
    }
    edges.root("an extern block", |texts| {
        let call = Tree::new(22, 2).with([texts.path("m")]);
        let inner = [texts.item(13, 0, "f", "pub"), texts.item(15, 0, "S", ""), texts.item(14, 0, "T", "p"), call, texts.item(13, 0, "", "q")];
        vec![Tree::new(25, 0).with(inner), Tree::new(25, 0)]
    });
    edges.root("nested modules", |texts| {
        let deepest = texts.item(17, 0, "c", "").with([texts.item(10, 1, "S", "pub")]);
        let block = Tree::new(25, 0).with([texts.item(13, 0, "g", "")]);
        let middle = texts.item(17, 0, "b", "pub(super)").with([deepest, block, texts.item(13, 0, "f", "")]);
        vec![texts.item(17, 0, "a", "q").with([middle, texts.item(17, 0, "", "r")]), texts.item(16, 0, "", "q")]
    });
}

fn layout(edges: &mut Edges) {
    edges.root("nothing", |_| Vec::new());
    edges.root("the first example", |texts| {
        vec![texts.item(17, 0, "m", "").with([texts.item(13, 0, "f", ""), Tree::new(19, 0)])]
    });
    edges.root("a sibling after an impl", |texts| vec![texts.item(17, 0, "m", "").with([Tree::new(19, 0), texts.item(13, 0, "f", "")])]);
    edges.root("a trait last, twice nested", |texts| {
        let inner = texts.item(17, 0, "n", "").with([texts.item(18, 0, "T", "pub")]);
        vec![texts.item(17, 0, "m", "").with([inner])]
    });
    edges.root("braces around nothing", |texts| vec![texts.item(17, 0, "a", ""), Tree::new(25, 0)]);
    for name in ["a\nb", "\n", "\n\n", "a\n", "\na", "a\n\nb"] {
        edges.root(&format!("the name {name:?}"), |texts| {
            let inner = texts.item(16, 0, name, "");
            let kinds = [13, 18, 23].map(|kind| texts.item(kind, 0, name, ""));
            let attr = texts.attr(1, name, name);
            vec![texts.item(17, 0, name, name).with([inner]).with(kinds), Tree::new(19, 0).with([attr])]
        });
    }
    edges.root("traits and impls in a row", |texts| {
        let attr = texts.attr(0, "a", "");
        vec![texts.item(18, 0, "T", ""), Tree::new(19, 0).with([attr]), Tree::new(19, 1), texts.item(17, 0, "m", "").with([Tree::new(19, 0)])]
    });
    edges.root("only attributes", |texts| vec![texts.attr(0, "a", ""), texts.attr(2, "b", "(\n)")]);
    let mut texts = Texts::default();
    let name = texts.number("n");
    texts.0.push(vec![0, 127, 128, 255, b'"', b'\\', b'\n', b'~', b' ']);
    let root = Tree::new(0, 0).with([Tree::named(13, 0, name), Tree::named(18, 0, 2), Tree::named(16, 0, 2)]);
    edges.bytes("any bytes", Form::new(&root, texts.0).pack(), &[Call::Root]);
}

fn runs(edges: &mut Edges) {
    use Call::{Node, Root};
    let small = |texts: &mut Texts| {
        let attr = texts.attr(0, "top", "");
        vec![attr, texts.item(13, 0, "f", "p"), texts.item(13, 0, "", "q"), texts.item(17, 0, "m", "").with([texts.item(13, 0, "g", "")])]
    };
    // nodes: 1 attribute, 4 fn f, 8 nameless fn, 12 module, 13 fn g
    let lists: [&[Call]; 16] = [
        &[],
        &[Node(4)],
        &[Node(4), Node(4)],
        &[Node(12), Node(4), Node(12)],
        &[Node(8)],
        &[Node(8), Root],
        &[Node(4), Root, Node(12)],
        &[Root, Root],
        &[Root, Node(4), Node(12), Root],
        &[Node(0), Node(1), Node(2), Node(5), Node(13), Node(14), Node(4096), Node(u32::MAX - 1)],
        &[Node(13), Root],
        &[Node(1), Root, Node(8), Node(12)],
        &[Root],
        &[Node(12), Node(8), Node(4)],
        &[Root, Node(0)],
        &[Node(4), Node(0), Node(4)],
    ];
    for list in lists {
        edges.calls(&format!("run {list:?}"), list, small);
    }
    let full = |texts: &mut Texts| {
        let name = texts.number("f");
        let module = |count: usize| Tree::named(17, 0, name).with((0..count).map(|_| Tree::named(13, 0, name)));
        vec![module(300), module(212), module(1), Tree::named(13, 0, name), Tree::new(17, 0)]
    };
    let (a, b, c, f, none) = (Node(1), Node(302), Node(515), Node(517), Node(518));
    edges.calls("full and refused", &[a, a, b, c, f, none, Root], full);
    edges.calls("refused, then root", &[a, b, c], full);
    edges.calls("root refused, then items", &[Root, b, Root, a, f], full);
}

fn forms(edges: &mut Edges) {
    let rows: [(&str, &[u8]); 22] = [
        ("no bytes", &[]),
        ("one count", &[1]),
        ("the smallest source", &[1, 0, 0, 1, 0, 0, 0, 0]),
        ("a byte after the end", &[1, 0, 0, 1, 0, 0, 0, 0, 7]),
        ("5,000 nodes announced", &[136, 39, 0, 0, 1, 0, 0, 0, 0]),
        ("2 before an earlier 3", &[2, 0, 99, 1, 0, 0, 0, 0, 128, 0]),
        ("over 32 bits", &[1, 0, 0, 1, 0, 0, 0, 255, 255, 255, 255, 16]),
        ("the largest number", &[1, 0, 0, 1, 0, 0, 0, 255, 255, 255, 255, 15]),
        ("a fifth byte that goes on", &[1, 0, 0, 1, 0, 0, 0, 128, 128, 128, 128, 128, 0]),
        ("zero in five bytes", &[1, 0, 0, 1, 0, 0, 0, 128, 128, 128, 128, 0]),
        ("zero in two bytes", &[1, 128, 0, 0, 1, 0, 0, 0, 0]),
        ("cut in a number", &[1, 0, 0, 1, 0, 0, 0, 128]),
        ("cut behind a node", &[2, 0, 0, 2, 0, 0, 0, 0]),
        ("cut before a text", &[1, 1, 0, 1, 0, 0, 0, 0]),
        ("cut in a text", &[1, 1, 0, 1, 0, 0, 0, 0, 2, 97]),
        ("an empty text", &[1, 1, 0, 1, 0, 0, 0, 0, 0]),
        ("a text that nobody reads", &[1, 1, 0, 1, 1, 0, 0, 0, 1, 97]),
        ("two equal texts", &[1, 2, 0, 1, 0, 0, 0, 0, 1, 97, 1, 97]),
        ("no nodes", &[0, 0]),
        ("no nodes and a text", &[0, 1, 1, 97]),
        ("a text longer than all bytes", &[1, 1, 0, 1, 0, 0, 0, 0, 255, 255, 255, 255, 15, 97]),
        ("a count of texts over 32 bits", &[1, 255, 255, 255, 255, 31]),
    ];
    for (name, bytes) in rows {
        edges.bytes(&format!("form: {name}"), bytes.to_vec(), &[Call::Root]);
    }
    for len in [255, 256] {
        let form = Form { nodes: vec![[0, 1, 0, 0, 0, 0]], texts: vec![vec![b'a'; len]] };
        edges.bytes(&format!("form: a text of {len} bytes"), form.pack(), &[Call::Root]);
    }
    for len in [1024, 1025] {
        let texts = (0..len).map(|i| format!("{i}").into_bytes()).collect();
        let form = Form { nodes: vec![[0, 2, 0, 0, 0, 0], [13, 2, 1024, 0, 0, 0]], texts };
        edges.bytes(&format!("form: {len} texts"), form.pack(), &[Call::Root]);
    }
    for len in [4096u32, 4097] {
        let mut nodes = vec![[0, len, 0, 0, 0, 0]];
        nodes.extend((1..len).map(|i| [26, i + 1, 0, 0, 0, 0]));
        edges.bytes(&format!("form: {len} nodes"), Form { nodes, texts: Vec::new() }.pack(), &[Call::Root]);
    }
    assert_eq!(packed(300), [172, 2]);
}

fn laws(edges: &mut Edges) {
    let segment = || Tree::new(32, 1);
    let path = || Tree::new(31, 0).with([segment()]);
    let vis = || Tree::new(30, 0);
    let attr = || Tree::new(36, 0);
    let field = || Tree::new(35, 0);
    let rename = || Tree::new(34, 0);
    let single = || Tree::new(33, 0);
    let item = || Tree::new(19, 0);
    let mut rows: Vec<(String, Vec<Tree>)> = vec![
        ("an attribute after an item".into(), vec![item(), attr()]),
        ("vis before attr".into(), vec![Tree::new(13, 0).with([vis(), attr()])]),
        ("two vis".into(), vec![Tree::new(13, 0).with([vis(), vis()])]),
        ("vis on an impl".into(), vec![Tree::new(19, 0).with([vis()])]),
        ("a field of a record".into(), vec![Tree::new(10, 0).with([field()])]),
        ("a field of a unit".into(), vec![Tree::new(10, 1).with([field()])]),
        ("fields of a tuple".into(), vec![Tree::new(10, 2).with([field(), field()])]),
        ("vis after a field".into(), vec![Tree::new(10, 2).with([field(), vis()])]),
        ("two vis in a field".into(), vec![Tree::new(10, 2).with([field().with([vis(), vis()])])]),
        ("an item in an outline module".into(), vec![Tree::new(17, 1).with([item()])]),
        ("a use tree in a module".into(), vec![Tree::new(17, 0).with([single()])]),
        ("two use trees in a use".into(), vec![Tree::new(20, 0).with([single(), single()])]),
        ("two renames".into(), vec![Tree::new(21, 0).with([rename(), rename()])]),
        ("two paths in a call".into(), vec![Tree::new(22, 0).with([path(), path()])]),
        ("an enum in an extern block".into(), vec![Tree::new(25, 0).with([Tree::new(12, 0)])]),
        ("vis in an extern block".into(), vec![Tree::new(25, 0).with([vis()])]),
        ("pub(in) without a path".into(), vec![Tree::new(13, 0).with([Tree::new(30, 4)])]),
        ("pub(in) with two paths".into(), vec![Tree::new(13, 0).with([Tree::new(30, 4).with([path(), path()])])]),
        ("pub with a path".into(), vec![Tree::new(13, 0).with([vis().with([path()])])]),
        ("a path without segments".into(), vec![Tree::new(22, 0).with([Tree::new(31, 0)])]),
        ("a path in a path".into(), vec![Tree::new(22, 0).with([Tree::new(31, 0).with([segment(), path()])])]),
        ("a child of a segment".into(), vec![Tree::new(22, 0).with([Tree::new(31, 0).with([segment().with([segment()])])])]),
        ("a rename before the path".into(), vec![Tree::new(20, 0).with([single().with([rename(), path()])])]),
        ("a rename of a group".into(), vec![Tree::new(20, 0).with([Tree::new(33, 2).with([rename()])])]),
        ("members of a single".into(), vec![Tree::new(20, 0).with([single().with([single()])])]),
        ("members of a glob".into(), vec![Tree::new(20, 0).with([Tree::new(33, 1).with([single()])])]),
        ("a path after a bare ::*".into(), vec![Tree::new(20, 0).with([Tree::new(33, 5).with([path()])])]),
        ("a path after a bare ::{}".into(), vec![Tree::new(20, 0).with([Tree::new(33, 6).with([path()])])]),
        ("a path behind a member".into(), vec![Tree::new(20, 0).with([Tree::new(33, 2).with([single(), path()])])]),
        ("a child of a rename".into(), vec![Tree::new(21, 0).with([rename().with([segment()])])]),
        ("two paths in an attribute".into(), vec![attr().with([path(), path()])]),
        ("a field in the file".into(), vec![field()]),
        ("a file in the file".into(), vec![Tree::new(0, 0)]),
    ];
    for kind in [0, 10, 11, 13, 17, 19, 20, 22, 25, 26, 30, 31, 32, 33, 34, 35, 36] {
        let most = match kind {
            10 => 2,
            17 | 19 | 31 => 1,
            22 | 30 | 32 | 36 => 4,
            33 => 6,
            _ => 0,
        };
        let around = |tree: Tree| match kind {
            30 => vec![Tree::new(13, 0).with([tree])],
            31 => vec![Tree::new(22, 0).with([tree.with([Tree::new(32, 1)])])],
            32 => vec![Tree::new(22, 0).with([Tree::new(31, 0).with([tree])])],
            33 => vec![Tree::new(20, 0).with([tree])],
            34 => vec![Tree::new(21, 0).with([tree])],
            35 => vec![Tree::new(10, 2).with([tree])],
            _ => vec![tree],
        };
        rows.push((format!("kind {kind} mark {}", most + 1), around(Tree::new(kind, most + 1))));
    }
    for mark in [3, 4] {
        rows.push((format!("a use tree of mark {mark}"), vec![Tree::new(20, 0).with([Tree::new(33, mark)])]));
    }
    for kind in [1, 9, 27, 29, 37, u32::MAX] {
        rows.push((format!("kind {kind}"), vec![Tree::new(kind, 0)]));
    }
    for (name, children) in rows {
        edges.root(&format!("law: {name}"), |_| children);
    }
    for count in [64, 65] {
        edges.root(&format!("law: {count} segments"), |_| {
            vec![Tree::new(22, 0).with([Tree::new(31, 0).with((0..count).map(|_| segment()))])]
        });
    }
    for level in [40, 41] {
        edges.root(&format!("law: modules to level {level}"), |texts| {
            let name = texts.number("m");
            vec![(1..level).fold(Tree::named(13, 0, name), |inner, _| Tree::named(17, 0, name).with([inner]))]
        });
        edges.root(&format!("law: groups to level {level}"), |_| {
            let group = (2..level).fold(Tree::new(33, 1), |inner, _| Tree::new(33, 2).with([inner]));
            vec![Tree::new(20, 0).with([group])]
        });
    }
    broken_numbers(edges);
}

/// The first example with single numbers changed.
fn broken_numbers(edges: &mut Edges) {
    let form = Form {
        nodes: vec![[0, 4, 0, 0, 0, 0], [17, 4, 1, 0, 0, 0], [13, 3, 2, 0, 0, 0], [19, 4, 0, 0, 0, 0]],
        texts: vec![b"m".to_vec(), b"f".to_vec()],
    };
    let rows: [(&str, usize, usize, u32); 14] = [
        ("the root is no File", 0, 0, 17),
        ("the root ends early", 0, 1, 3),
        ("the root ends late", 0, 1, 5),
        ("the root's text is not there", 0, 2, 3),
        ("the root's mark", 0, 3, 1),
        ("a range that runs backwards", 0, 4, 1),
        ("a module that ends early", 1, 1, 3),
        ("a module that ends at once", 1, 1, 2),
        ("a module that ends late", 1, 1, 5),
        ("an end at its node", 2, 1, 2),
        ("an end before its node", 2, 1, 0),
        ("a child behind its parent", 3, 1, 5),
        ("the last text", 3, 2, 2),
        ("past the last text", 3, 2, 3),
    ];
    for (name, node, field, value) in rows {
        let mut form = form.clone();
        form.nodes[node][field] = value;
        edges.bytes(&format!("law: {name}"), form.pack(), &[Call::Root]);
    }
}

fn limits(edges: &mut Edges) {
    for more in [0, 1] {
        let past = if more == 0 { "at" } else { "past" };
        edges.root(&format!("{past} the limit: small records"), |texts| {
            let name = texts.number("f");
            (0..512 + more).map(|_| Tree::named(13, 0, name)).collect()
        });
        edges.root(&format!("{past} the limit: big records"), |texts| {
            let name = texts.number("m");
            (0..256 + more).map(|_| Tree::named(17, 1, name)).collect()
        });
        edges.root(&format!("{past} the limit: attributes"), |_| {
            vec![Tree::new(36, 0), Tree::new(19, 0).with((0..511 + more).map(|_| Tree::new(36, 0))).with([Tree::new(36, 4), Tree::new(36, 0)])]
        });
        edges.root(&format!("{past} the limit: module visibilities"), |texts| {
            (0..128 + more).map(|i| texts.item(11, 0, "", &format!("p{i}"))).collect()
        });
        edges.root(&format!("{past} the limit: constructor entries"), |texts| {
            let fields: Vec<Tree> = (0..64).map(|i| Tree::new(35, 0).with(texts.vis(&format!("p{i}")))).collect();
            let mut items: Vec<Tree> = (0..3).map(|_| texts.item(10, 2, "S", "pub").with(fields.clone())).collect();
            items.push(texts.item(10, 2, "S", "pub").with(fields[..62].iter().cloned()));
            items.push(texts.item(10, 2, "S", "pub").with(fields[..2 + more].iter().cloned()));
            items
        });
        edges.root(&format!("{past} the limit: use nodes"), |_| {
            let members = (0..1023 + more).map(|_| Tree::new(33, 1));
            vec![Tree::new(20, 0).with([Tree::new(33, 2).with(members)])]
        });
        edges.root(&format!("{past} the limit: paths"), |texts| {
            let members: Vec<Tree> = (0..512 + more).map(|i| Tree::new(33, 0).with([texts.path(&format!("p{i}"))])).collect();
            let again = Tree::new(33, 1).with([texts.path("p0")]);
            vec![Tree::new(20, 0).with([Tree::new(33, 2).with(members).with([again])])]
        });
        edges.root(&format!("{past} the limit: segments"), |texts| {
            let path = |texts: &mut Texts, i: usize, count: usize| {
                let rest = vec!["a"; count - 1].join("::");
                Tree::new(33, 0).with([texts.path(&format!("p{i}::{rest}"))])
            };
            let mut members: Vec<Tree> = (0..31).map(|i| path(texts, i, 64)).collect();
            members.push(path(texts, 31, 62));
            members.push(path(texts, 32, 2 + more));
            members.push(path(texts, 0, 64));
            vec![Tree::new(20, 0).with([Tree::new(33, 2).with(members)])]
        });
    }
}
