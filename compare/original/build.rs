//! Puts the four Rust files where the compiler finds them, unchanged but for one line behind the last.

use std::{env, fs, path::Path, path::PathBuf};

/// Behind the last byte of `lower.rs`: our module reaches what is private there.
const REACH: &str = "\nmod reach;\n";

fn main() {
    let here = PathBuf::from(env::var("CARGO_MANIFEST_DIR").unwrap());
    let from = match env::var("GILTNEWT_RUST") {
        Ok(folder) => PathBuf::from(folder),
        Err(_) => here.join("../../../shared/docs/src"),
    };
    let to = PathBuf::from(env::var("OUT_DIR").unwrap()).join("original");
    fs::create_dir_all(to.join("lower")).unwrap();
    println!("cargo:rerun-if-env-changed=GILTNEWT_RUST");
    copy(&from.join("item_tree.rs"), &to.join("item_tree.rs"), "");
    copy(&from.join("item_tree/attrs.rs"), &to.join("attrs.rs"), "");
    copy(&from.join("item_tree/lower.rs"), &to.join("lower.rs"), REACH);
    copy(&from.join("item_tree/pretty.rs"), &to.join("pretty.rs"), "");
    copy(&here.join("src/reach.rs"), &to.join("lower/reach.rs"), "");
    let module = format!("#[path = {:?}]\npub mod item_tree;\n", to.join("item_tree.rs"));
    fs::write(to.join("module.rs"), module).unwrap();
}

fn copy(from: &Path, to: &Path, more: &str) {
    println!("cargo:rerun-if-changed={}", from.display());
    let mut bytes = fs::read(from).unwrap_or_else(|error| panic!("{}: {error}", from.display()));
    bytes.extend_from_slice(more.as_bytes());
    fs::write(to, bytes).unwrap();
}
