//! The packed form and its law, read independently of the port, from the words of SOURCE.md.

use std::collections::HashSet;

use crate::source::{Node, Source};

/// Why a form is not opened.
#[derive(Debug, Clone, Copy, PartialEq, Eq)]
pub enum Refused {
    Form(&'static str),
    Number(&'static str),
    Law(&'static str),
}

impl Refused {
    pub fn number(self) -> u32 {
        match self {
            Refused::Form(_) => 1,
            Refused::Number(_) => 2,
            Refused::Law(_) => 3,
        }
    }

    /// What is wrong, in words.
    pub fn words(self) -> &'static str {
        match self {
            Refused::Form(words) | Refused::Number(words) | Refused::Law(words) => words,
        }
    }
}

/// A part of the law, with the words for its breach.
fn holds(holds: bool, words: &'static str) -> Result<(), Refused> {
    if holds { Ok(()) } else { Err(Refused::Law(words)) }
}

struct Reader<'a> {
    bytes: &'a [u8],
    at: usize,
}

impl Reader<'_> {
    fn byte(&mut self) -> Result<u8, Refused> {
        let byte = *self.bytes.get(self.at).ok_or(Refused::Form("ends early"))?;
        self.at += 1;
        Ok(byte)
    }

    fn number(&mut self) -> Result<u32, Refused> {
        let mut value = 0u64;
        for group in 0..5 {
            let byte = self.byte()?;
            if group == 4 && byte > 15 {
                return Err(Refused::Number("over 32 bits"));
            }
            value |= u64::from(byte & 127) << (7 * group);
            if byte < 128 {
                let shortest = byte != 0 || group == 0;
                return if shortest { Ok(value as u32) } else { Err(Refused::Number("not shortest")) };
            }
        }
        unreachable!("a fifth byte of at most 15 is the last")
    }
}

/// Opens a packed form.
pub fn open(bytes: &[u8]) -> Result<Source, Refused> {
    let mut reader = Reader { bytes, at: 0 };
    let node_count = reader.number()?;
    let text_count = reader.number()?;
    let mut nodes = Vec::new();
    for _ in 0..node_count {
        let mut numbers = [0; 6];
        for number in &mut numbers {
            *number = reader.number()?;
        }
        let [kind, end, text, mark, from, to] = numbers;
        nodes.push(Node { kind, end, text, mark, from, to });
    }
    let mut texts = Vec::new();
    for _ in 0..text_count {
        let len = reader.number()? as usize;
        if len > bytes.len() - reader.at {
            return Err(Refused::Form("a text reaches outside"));
        }
        texts.push((reader.at, len));
        reader.at += len;
    }
    if reader.at != bytes.len() {
        return Err(Refused::Form("goes on"));
    }
    judge(&nodes, bytes, &texts)?;
    Ok(Source::new(nodes, bytes.to_vec(), texts))
}

/// The law of a form that was read.
fn judge(nodes: &[Node], bytes: &[u8], texts: &[(usize, usize)]) -> Result<(), Refused> {
    holds(!nodes.is_empty(), "no node")?;
    holds(nodes.len() <= 4096, "over 4,096 nodes")?;
    holds(texts.len() <= 1024, "over 1,024 texts")?;
    let mut seen = HashSet::new();
    for (place, len) in texts {
        holds(*len >= 1, "an empty text")?;
        holds(*len <= 255, "a text over 255 bytes")?;
        holds(seen.insert(&bytes[*place..*place + *len]), "two equal texts")?;
    }
    for (number, node) in nodes.iter().enumerate() {
        holds(number != 0 || node.kind == 0, "the first node is no File")?;
        holds(number == 0 || node.kind != 0, "a File inside")?;
        holds(node.from <= node.to, "a range that runs backwards")?;
        holds(node.text as usize <= texts.len(), "a text that is not there")?;
    }
    holds(nodes[0].end as usize == nodes.len(), "the root's end")?;
    judge_node(nodes, 0, 0)
}

/// The law of a node at a depth, and of all below it.
fn judge_node(nodes: &[Node], number: usize, depth: u32) -> Result<(), Refused> {
    let node = nodes[number];
    holds(depth <= 40, "over 40 levels")?;
    let mut kinds = Vec::new();
    let mut at = number + 1;
    let end = node.end as usize;
    while at < end {
        let child_end = nodes[at].end as usize;
        holds(child_end > at, "an end that is not above its node")?;
        holds(child_end <= end, "a child that reaches out of its parent")?;
        judge_node(nodes, at, depth + 1)?;
        kinds.push(nodes[at].kind);
        at = child_end;
    }
    holds(is_row(node.kind, node.mark, &kinds), words_for(node.kind))
}

/// What is wrong where a node is no row of the table.
fn words_for(kind: u32) -> &'static str {
    match kind {
        0 => "a File that is no row",
        10 => "a Struct that is no row",
        11 => "a Union that is no row",
        12 => "an Enum that is no row",
        13 => "a Fn that is no row",
        14 => "a TypeAlias that is no row",
        15 => "a Static that is no row",
        16 => "a Const that is no row",
        17 => "a Module that is no row",
        18 => "a Trait that is no row",
        19 => "an Impl that is no row",
        20 => "a Use that is no row",
        21 => "an ExternCrate that is no row",
        22 => "a MacroCall that is no row",
        23 => "a MacroRules that is no row",
        24 => "a MacroDef that is no row",
        25 => "an ExternBlock that is no row",
        26 => "an AsmExpr that is no row",
        30 => "a Vis that is no row",
        31 => "a Path that is no row",
        32 => "a Segment that is no row",
        33 => "a UseTree that is no row",
        34 => "a Rename that is no row",
        35 => "a Field that is no row",
        36 => "an Attr that is no row",
        _ => "no kind",
    }
}

const VIS: u32 = 30;
const PATH: u32 = 31;
const SEGMENT: u32 = 32;
const USE_TREE: u32 = 33;
const RENAME: u32 = 34;
const FIELD: u32 = 35;
const ATTR: u32 = 36;

/// The kinds that are left of some children once a part was taken from their front.
struct Left<'a>(&'a [u32]);

impl Left<'_> {
    fn maybe(&mut self, kind: u32) -> bool {
        let found = self.0.first() == Some(&kind);
        if found {
            self.0 = &self.0[1..];
        }
        found
    }

    fn any(&mut self, kinds: impl Fn(u32) -> bool) -> usize {
        let count = self.0.iter().take_while(|kind| kinds(**kind)).count();
        self.0 = &self.0[count..];
        count
    }

    fn none(&self) -> bool {
        self.0.is_empty()
    }
}

fn is_item(kind: u32) -> bool {
    (10..=26).contains(&kind)
}

/// Whether kind, mark and children are a row of the table.
fn is_row(kind: u32, mark: u32, children: &[u32]) -> bool {
    let mut left = Left(children);
    if kind == 0 || is_item(kind) {
        left.any(|kind| kind == ATTR);
    }
    if matches!(kind, 10..=18 | 20 | 21 | 24) {
        left.maybe(VIS);
    }
    match (kind, mark) {
        (0, 0) => left.any(is_item),
        (10, 0 | 1) => 0,
        (10, 2) => left.any(|kind| kind == FIELD),
        (11..=16 | 18 | 23 | 24 | 26 | 34, 0) => 0,
        (17, 0) => left.any(is_item),
        (17, 1) => 0,
        (19, 0 | 1) => 0,
        (20, 0) => usize::from(left.maybe(USE_TREE)),
        (21, 0) => usize::from(left.maybe(RENAME)),
        (22, 0..=4) => usize::from(left.maybe(PATH)),
        (25, 0) => left.any(|kind| matches!(kind, 13 | 14 | 15 | 22)),
        (30, 0..=3) => 0,
        (30, 4) => match left.maybe(PATH) {
            true => 1,
            false => return false,
        },
        (31, 0 | 1) => match left.any(|kind| kind == SEGMENT) {
            count @ 1..=64 => count,
            _ => return false,
        },
        (32, 0..=4) => 0,
        (33, 0 | 1 | 5) => {
            let path = mark != 5 && left.maybe(PATH);
            usize::from(left.maybe(RENAME)) + usize::from(path)
        }
        (33, 2 | 6) => {
            let path = mark == 2 && left.maybe(PATH);
            left.any(|kind| kind == USE_TREE) + usize::from(path)
        }
        (35, 0) => usize::from(left.maybe(VIS)),
        (36, 0..=4) => usize::from(left.maybe(PATH)),
        _ => return false,
    };
    left.none()
}
