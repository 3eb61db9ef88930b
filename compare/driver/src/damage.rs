//! Sources that are damaged, so that most of them are refused.

use crate::generate::Made;
use crate::model::{Form, Random, Tree, packed};

/// The bytes of a source with one or two things wrong.
pub fn damage(made: &Made, random: &mut Random) -> Vec<u8> {
    let bytes = match random.below(5) {
        0 | 1 => break_tree(made, random),
        2 => break_number(made, random),
        3 => break_writing(made, random),
        _ => made.form.pack(),
    };
    if random.percent(35) { break_bytes(bytes, random) } else { bytes }
}

/// Bytes changed, cut, added.
fn break_bytes(mut bytes: Vec<u8>, random: &mut Random) -> Vec<u8> {
    let at = random.below(bytes.len());
    match random.below(6) {
        0 => bytes[at] = random.next() as u8,
        1 => bytes[at] ^= 1 << random.below(8),
        2 => bytes.truncate(at),
        3 => bytes.insert(at, random.next() as u8),
        4 => {
            bytes.remove(at);
        }
        _ => bytes.extend((0..1 + random.below(3)).map(|_| random.next() as u8)),
    }
    bytes
}

/// One number of a node, a count or a text that is wrong.
fn break_number(made: &Made, random: &mut Random) -> Vec<u8> {
    let mut form = made.form.clone();
    let count = form.nodes.len() as u32;
    match random.below(12) {
        0 => form.texts.push(Vec::new()),
        1 => form.texts.push(vec![b'z'; 256 + random.below(3)]),
        2 => {
            let again = form.texts.first().cloned().unwrap_or(b"a".to_vec());
            form.texts.insert(random.below(form.texts.len() + 1), again);
        }
        3 => {
            while form.texts.len() < 1025 {
                form.texts.push(format!("t{}", form.texts.len()).into_bytes());
            }
        }
        4 => form.nodes.clear(),
        5 => return with_counts(&form, random),
        _ => {
            let at = random.below(form.nodes.len());
            let field = random.below(6);
            let old = form.nodes[at][field];
            let new = [0, 1, 2, 3, 4, 5, 6, 7, old.wrapping_add(1), old.wrapping_sub(1), count, count + 1, 30, 31, 32, 33, 36, 40, u32::MAX];
            form.nodes[at][field] = *random.pick(&new);
        }
    }
    form.pack()
}

/// The counts at the front say more or less than is there.
fn with_counts(form: &Form, random: &mut Random) -> Vec<u8> {
    let which = random.below(2);
    let other = [0, 1, 4096, 4097, 5000, 1024, 1025, u32::MAX];
    let wrong = match random.below(3) {
        0 => *random.pick(&other),
        1 => (if which == 0 { form.nodes.len() } else { form.texts.len() } as u32).wrapping_add(1),
        _ => (if which == 0 { form.nodes.len() } else { form.texts.len() } as u32).wrapping_sub(1),
    };
    form.pack_with(|place, number| packed(if place == which { wrong } else { number }))
}

/// One number that is not written in its shortest form, or is too wide.
fn break_writing(made: &Made, random: &mut Random) -> Vec<u8> {
    let form = &made.form;
    let at = random.below(form.numbers());
    let way = random.below(5);
    form.pack_with(|place, number| {
        let mut bytes = packed(number);
        if place == at {
            let last = bytes.len() - 1;
            match way {
                0 => {
                    bytes[last] |= 128;
                    bytes.push(0);
                }
                1 => bytes = vec![255, 255, 255, 255, 16],
                2 => bytes = vec![128, 128, 128, 128, 128, 1],
                3 => bytes = vec![128, 128, 128, 128, 0],
                _ => bytes = vec![255, 255, 255, 255, 15],
            }
        }
        bytes
    })
}

const KINDS: [u32; 26] =
    [0, 10, 11, 12, 13, 14, 15, 16, 17, 18, 19, 20, 21, 22, 23, 24, 25, 26, 30, 31, 32, 33, 34, 35, 36, 99];

/// A tree that is one in shape, and breaks the table of kinds or another law.
fn break_tree(made: &Made, random: &mut Random) -> Vec<u8> {
    let mut root = made.root.clone();
    let mut texts = made.texts.clone();
    match random.below(10) {
        0 => too_many_segments(&mut root),
        1 => too_deep(&mut root, random),
        2 => {
            while root.size() < 4097 {
                root.children.push(Tree::new(26, 0));
            }
        }
        3 => {
            texts.truncate(random.below(texts.len() + 1));
        }
        _ => {
            let at = telling(&mut root, random);
            change(nth(&mut root, at), random);
        }
    }
    Form::new(&root, texts).pack()
}

/// The number of some node, with paths and segments, the most of all, less often.
fn telling(root: &mut Tree, random: &mut Random) -> usize {
    let size = root.size();
    let mut at = random.below(size);
    for _ in 0..4 {
        if !matches!(nth(root, at).kind, 31 | 32) {
            break;
        }
        at = random.below(size);
    }
    at
}

/// The node of a number.
fn nth(tree: &mut Tree, number: usize) -> &mut Tree {
    if number == 0 {
        return tree;
    }
    let mut left = number - 1;
    for child in &mut tree.children {
        let size = child.size();
        if left < size {
            return nth(child, left);
        }
        left -= size;
    }
    unreachable!("the number is below the size")
}

fn change(node: &mut Tree, random: &mut Random) {
    let count = node.children.len();
    match random.below(8) {
        0 => node.kind = *random.pick(&KINDS),
        1 => node.mark = random.below(8) as u32,
        2 if count > 0 => {
            node.children.remove(random.below(count));
        }
        3 if count > 0 => {
            let again = node.children[random.below(count)].clone();
            node.children.insert(random.below(count + 1), again);
        }
        4 if count > 1 => node.children.swap(random.below(count), random.below(count)),
        5 => (node.from, node.to) = (node.to.max(1), 0),
        _ => {
            let new = match random.below(4) {
                0 => Tree::new(30, 4).with([Tree::new(31, 0).with([Tree::named(32, 0, 0)])]),
                1 => Tree::new(31, 0).with([Tree::new(32, 1)]),
                _ => Tree::new(*random.pick(&KINDS), 0),
            };
            node.children.insert(random.below(count + 1), new);
        }
    }
}

fn too_many_segments(root: &mut Tree) {
    let segments = (0..65).map(|_| Tree::new(32, 2));
    root.children.push(Tree::new(22, 0).with([Tree::new(31, 0).with(segments)]));
}

/// Modules, groups or attributes down to level 41, or a lawful 40.
fn too_deep(root: &mut Tree, random: &mut Random) {
    let deepest = 40 + random.below(2);
    let inner = match random.below(3) {
        0 => (1..deepest).fold(Tree::named(13, 0, 0), |inner, _| Tree::new(17, 0).with([inner])),
        1 => {
            let group = (2..deepest).fold(Tree::new(33, 1), |inner, _| Tree::new(33, 2).with([inner]));
            Tree::new(20, 0).with([group])
        }
        _ => {
            let last = Tree::new(19, 0).with([Tree::new(36, 0).with([Tree::new(31, 0).with([Tree::new(32, 3)])])]);
            (4..deepest).fold(last, |inner, _| Tree::new(17, 0).with([inner]))
        }
    };
    root.children.push(inner);
}
