//! Names: the bytes of a text, or the name that is missing.

use std::{fmt, sync::Arc};

use crate::ast;
use crate::span_map::Edition;

/// A name that the Rust itself looks for.
#[derive(Debug, Clone, Copy, PartialEq, Eq)]
pub struct Symbol(pub &'static str);

#[derive(Debug, PartialEq, Eq, Hash)]
struct Text {
    /// Every byte as the character of its number, so that any bytes make a string.
    bytes: String,
    missing: bool,
}

/// No text is equal to the missing name, not even one with the same bytes.
#[derive(Debug, Clone, PartialEq, Eq, Hash)]
pub struct Name(Arc<Text>);

impl Name {
    pub fn of_bytes(bytes: &[u8]) -> Name {
        Name(Arc::new(Text { bytes: characters(bytes), missing: false }))
    }

    pub fn missing() -> Name {
        Name(Arc::new(Text { bytes: "[missing name]".to_owned(), missing: true }))
    }

    pub fn is_missing(&self) -> bool {
        self.0.missing
    }

    pub fn as_str(&self) -> &str {
        &self.0.bytes
    }

    pub fn display<D: ?Sized>(&self, _: &D, _: Edition) -> impl fmt::Display + '_ {
        self.as_str()
    }

    pub fn display_no_db(&self, _: Edition) -> impl fmt::Display + '_ {
        self.as_str()
    }
}

impl PartialEq<Symbol> for Name {
    fn eq(&self, other: &Symbol) -> bool {
        self.as_str() == other.0
    }
}

pub trait AsName {
    fn as_name(&self) -> Name;
}

impl AsName for ast::Name {
    fn as_name(&self) -> Name {
        self.0.clone()
    }
}

impl AsName for ast::NameRef {
    fn as_name(&self) -> Name {
        self.0.clone()
    }
}

/// Every byte as the character of its number.
pub fn characters(bytes: &[u8]) -> String {
    match std::str::from_utf8(bytes) {
        Ok(text) if text.is_ascii() => text.to_owned(),
        _ => bytes.iter().map(|byte| char::from(*byte)).collect(),
    }
}

/// The bytes of such a string.
pub fn bytes(characters: &str) -> Vec<u8> {
    if characters.is_ascii() {
        return characters.as_bytes().to_vec();
    }
    characters.chars().map(|it| u8::try_from(u32::from(it)).expect("a character stands for a byte")).collect()
}
