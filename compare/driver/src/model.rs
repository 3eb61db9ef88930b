//! Sources as trees, before they are packed.

/// Numbers from a seed.
pub struct Random(u64);

impl Random {
    pub fn new(seed: u64) -> Random {
        Random(seed.wrapping_mul(0x9e37_79b9_7f4a_7c15) ^ 0x2545_f491_4f6c_dd1d)
    }

    pub fn next(&mut self) -> u64 {
        self.0 = self.0.wrapping_add(0x9e37_79b9_7f4a_7c15);
        let mut z = self.0;
        z = (z ^ (z >> 30)).wrapping_mul(0xbf58_476d_1ce4_e5b9);
        z = (z ^ (z >> 27)).wrapping_mul(0x94d0_49bb_1331_11eb);
        z ^ (z >> 31)
    }

    /// A number below another, which is not 0.
    pub fn below(&mut self, bound: usize) -> usize {
        (self.next() % bound as u64) as usize
    }

    /// True so many times in a hundred.
    pub fn percent(&mut self, times: u64) -> bool {
        self.next() % 100 < times
    }

    pub fn pick<'a, T>(&mut self, from: &'a [T]) -> &'a T {
        &from[self.below(from.len())]
    }
}

#[derive(Debug, Clone, Default)]
pub struct Tree {
    pub kind: u32,
    pub mark: u32,
    pub text: u32,
    pub from: u32,
    pub to: u32,
    pub children: Vec<Tree>,
}

impl Tree {
    pub fn new(kind: u32, mark: u32) -> Tree {
        Tree { kind, mark, ..Tree::default() }
    }

    pub fn named(kind: u32, mark: u32, text: u32) -> Tree {
        Tree { kind, mark, text, ..Tree::default() }
    }

    pub fn with(mut self, children: impl IntoIterator<Item = Tree>) -> Tree {
        self.children.extend(children);
        self
    }

    /// How many nodes there are.
    pub fn size(&self) -> usize {
        1 + self.children.iter().map(Tree::size).sum::<usize>()
    }

    fn flatten(&self, nodes: &mut Vec<[u32; 6]>) {
        let at = nodes.len();
        nodes.push([self.kind, 0, self.text, self.mark, self.from, self.to]);
        for child in &self.children {
            child.flatten(nodes);
        }
        nodes[at][1] = nodes.len() as u32;
    }
}

/// A source as numbers and texts.
#[derive(Debug, Clone)]
pub struct Form {
    pub nodes: Vec<[u32; 6]>,
    pub texts: Vec<Vec<u8>>,
}

impl Form {
    pub fn new(root: &Tree, texts: Vec<Vec<u8>>) -> Form {
        let mut nodes = Vec::new();
        root.flatten(&mut nodes);
        Form { nodes, texts }
    }

    pub fn pack(&self) -> Vec<u8> {
        self.pack_with(|_, number| packed(number))
    }

    /// Packs with a way to write each number, which is given its place among all numbers.
    pub fn pack_with(&self, mut write: impl FnMut(usize, u32) -> Vec<u8>) -> Vec<u8> {
        let mut place = 0;
        let mut bytes = Vec::new();
        let mut add = |bytes: &mut Vec<u8>, number: u32| {
            bytes.extend(write(place, number));
            place += 1;
        };
        add(&mut bytes, self.nodes.len() as u32);
        add(&mut bytes, self.texts.len() as u32);
        for node in &self.nodes {
            for number in node {
                add(&mut bytes, *number);
            }
        }
        for text in &self.texts {
            add(&mut bytes, text.len() as u32);
            bytes.extend(text);
        }
        bytes
    }

    /// How many numbers the form has.
    pub fn numbers(&self) -> usize {
        2 + 6 * self.nodes.len() + self.texts.len()
    }

    /// The numbers of the root's children.
    pub fn root_children(&self) -> Vec<u32> {
        let mut children = Vec::new();
        let mut at = 1;
        while at < self.nodes.len() {
            children.push(at as u32);
            at = self.nodes[at][1] as usize;
        }
        children
    }
}

pub fn packed(number: u32) -> Vec<u8> {
    let mut bytes = Vec::new();
    let mut left = number;
    while left >= 128 {
        bytes.push((left & 127) as u8 | 128);
        left >>= 7;
    }
    bytes.push(left as u8);
    bytes
}
