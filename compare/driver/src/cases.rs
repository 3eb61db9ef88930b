//! Packed inputs with the text that is expected of them.

use std::fs;
use std::path::Path;

use original::call::{Call, Lowering, Original};
use original::database::Database;
use original::law;
use original::name;

/// The longest input, and the longest text.
const MOST: usize = 65_536;

/// What `treeprint` has to write, by the Rust and the independent reader.
pub fn treeprint(input: &[u8]) -> Vec<u8> {
    match printed(input) {
        Ok(text) => text,
        Err(number) => format!("refused {number}\n").into_bytes(),
    }
}

fn printed(input: &[u8]) -> Result<Vec<u8>, u32> {
    if input.len() > MOST {
        return Err(1);
    }
    let db = Database::new(law::open(input).map_err(law::Refused::number)?);
    let run = Original::run(&db, &[Call::Root]);
    if let original::call::Answer::Refused(number) = run.answers[0] {
        return Err(number);
    }
    let text = name::bytes(&Original::print(&db, &run.tree));
    if text.len() > MOST { Err(9) } else { Ok(text) }
}

/// Compares each NAME.packed of a folder with NAME.expected.
pub fn folder(folder: &Path) -> std::io::Result<(usize, usize)> {
    let (mut passed, mut failed) = (0, 0);
    let mut inputs: Vec<_> = fs::read_dir(folder)?.map(|entry| entry.map(|it| it.path())).collect::<Result<_, _>>()?;
    inputs.retain(|path| path.extension().is_some_and(|it| it == "packed"));
    inputs.sort();
    for input in inputs {
        let expected = fs::read(input.with_extension("expected"))?;
        if treeprint(&fs::read(&input)?) == expected {
            passed += 1;
        } else {
            failed += 1;
            println!("differs: {}", input.display());
        }
    }
    Ok((passed, failed))
}
