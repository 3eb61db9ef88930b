//! Containers: each keeps what it is given, in the order in which it came.

use std::collections::HashMap;
use std::hash::{BuildHasherDefault, Hash, Hasher};
use std::marker::PhantomData;
use std::ops::{Deref, DerefMut};
use std::sync::Arc;

#[derive(Debug, Clone, Copy, PartialEq, Eq)]
pub enum Either<L, R> {
    Left(L),
    Right(R),
}

/// A value that is shared.
#[derive(Debug, PartialEq, Eq, Hash)]
pub struct Interned<T>(Arc<T>);

impl<T> Interned<T> {
    pub fn new(value: T) -> Interned<T> {
        Interned(Arc::new(value))
    }
}

impl<T> Clone for Interned<T> {
    fn clone(&self) -> Self {
        Interned(self.0.clone())
    }
}

impl<T> Deref for Interned<T> {
    type Target = T;
    fn deref(&self) -> &T {
        &self.0
    }
}

/// A list that is one pointer wide.
#[derive(Debug, Clone, PartialEq, Eq)]
pub struct ThinVec<T>(Box<Vec<T>>);

impl<T> ThinVec<T> {
    pub fn new() -> ThinVec<T> {
        ThinVec(Box::default())
    }
}

impl<T> Default for ThinVec<T> {
    fn default() -> Self {
        ThinVec::new()
    }
}

impl<T> Deref for ThinVec<T> {
    type Target = Vec<T>;
    fn deref(&self) -> &Vec<T> {
        &self.0
    }
}

impl<T> DerefMut for ThinVec<T> {
    fn deref_mut(&mut self) -> &mut Vec<T> {
        &mut self.0
    }
}

impl<T> FromIterator<T> for ThinVec<T> {
    fn from_iter<I: IntoIterator<Item = T>>(items: I) -> Self {
        ThinVec(Box::new(items.into_iter().collect()))
    }
}

impl<'a, T> IntoIterator for &'a ThinVec<T> {
    type Item = &'a T;
    type IntoIter = std::slice::Iter<'a, T>;
    fn into_iter(self) -> Self::IntoIter {
        self.0.iter()
    }
}

/// A fast hash for small keys.
#[derive(Default)]
pub struct FastHasher(u64);

impl FastHasher {
    fn add(&mut self, word: u64) {
        self.0 = (self.0.rotate_left(5) ^ word).wrapping_mul(0x517c_c1b7_2722_0a95);
    }
}

impl Hasher for FastHasher {
    fn finish(&self) -> u64 {
        self.0
    }
    fn write(&mut self, bytes: &[u8]) {
        for chunk in bytes.chunks(8) {
            let mut word = [0; 8];
            word[..chunk.len()].copy_from_slice(chunk);
            self.add(u64::from_le_bytes(word));
        }
    }
    fn write_u8(&mut self, n: u8) {
        self.add(n.into());
    }
    fn write_u32(&mut self, n: u32) {
        self.add(n.into());
    }
    fn write_u64(&mut self, n: u64) {
        self.add(n);
    }
    fn write_usize(&mut self, n: usize) {
        self.add(n as u64);
    }
}

/// A set whose members have numbers, in the order in which they came.
#[derive(Debug, Clone)]
pub struct FxIndexSet<T> {
    members: Vec<T>,
    numbers: HashMap<T, usize, BuildHasherDefault<FastHasher>>,
}

impl<T> Default for FxIndexSet<T> {
    fn default() -> Self {
        FxIndexSet { members: Vec::new(), numbers: HashMap::default() }
    }
}

impl<T: Hash + Eq + Clone> FxIndexSet<T> {
    /// The member's number, and whether it is new.
    pub fn insert_full(&mut self, member: T) -> (usize, bool) {
        if let Some(number) = self.numbers.get(&member) {
            return (*number, false);
        }
        let number = self.members.len();
        self.members.push(member.clone());
        self.numbers.insert(member, number);
        (number, true)
    }

    pub fn insert(&mut self, member: T) -> bool {
        self.insert_full(member).1
    }

    pub fn len(&self) -> usize {
        self.members.len()
    }

    pub fn iter(&self) -> std::slice::Iter<'_, T> {
        self.members.iter()
    }
}

impl<T> IntoIterator for FxIndexSet<T> {
    type Item = T;
    type IntoIter = std::vec::IntoIter<T>;
    fn into_iter(self) -> Self::IntoIter {
        self.members.into_iter()
    }
}

/// The order of the Rust's hash set is left open; this one hands its members out as they came.
pub type FxHashSet<T> = FxIndexSet<T>;

/// A number in an arena.
#[derive(Debug)]
pub struct Idx<T>(u32, PhantomData<fn() -> T>);

pub struct RawIdx(u32);

impl RawIdx {
    pub fn from_u32(number: u32) -> RawIdx {
        RawIdx(number)
    }
}

impl<T> Idx<T> {
    pub fn from_raw(raw: RawIdx) -> Idx<T> {
        Idx(raw.0, PhantomData)
    }

    pub fn number(&self) -> u32 {
        self.0
    }
}

/// Values with numbers.
pub struct Arena<T>(Vec<T>);

impl<T> Arena<T> {
    pub fn new() -> Arena<T> {
        Arena(Vec::new())
    }

    pub fn alloc(&mut self, value: T) -> Idx<T> {
        let number = self.0.len() as u32;
        self.0.push(value);
        Idx(number, PhantomData)
    }

    pub fn values(&self) -> std::slice::Iter<'_, T> {
        self.0.iter()
    }
}
