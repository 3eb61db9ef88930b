//! The times of both sides on the same inputs: opening, lowering with finalize, printing.

use std::fs;
use std::hint::black_box;
use std::path::Path;
use std::time::Instant;

use original::call::{Call, Lowering, Original};
use original::database::Database;
use original::law;

use crate::edges;
use crate::generate;
use crate::port;

/// Each figure is the best of so many tries, each of about so many seconds.
const TRIES: usize = 7;
const SECONDS: f64 = 0.02;

struct Input {
    name: String,
    forms: Vec<Vec<u8>>,
    /// The port's other figures have a part of one opening in them, which here would hide them.
    only_opening: bool,
}

pub fn time(folders: &[&str]) -> bool {
    println!("| input | bytes | nodes | opening: Rust | port | ratio | lowering: Rust | port | ratio | printing: Rust | port | ratio |");
    println!("|---|---|---|---|---|---|---|---|---|---|---|---|");
    for input in inputs(folders) {
        row(&input);
    }
    true
}

fn inputs(folders: &[&str]) -> Vec<Input> {
    let mut inputs = Vec::new();
    for edge in edges::all().0 {
        let wanted = ["the first example", "use a::b::{c::d, e::{f, g::*}, h as _}", "law: modules to level 40", "form: 4096 nodes", "form: 1024 texts"];
        if wanted.contains(&&*edge.name) || edge.name.starts_with("at the limit") {
            inputs.push(Input { name: edge.name, forms: vec![edge.bytes], only_opening: false });
        }
    }
    inputs.push(Input { name: "1024 texts of 255 bytes that differ in the last two".to_owned(), forms: vec![long_texts()], only_opening: true });
    for profile in ["few items", "more items", "many items"] {
        inputs.push(Input { name: format!("20 generated sources, {profile}"), forms: generated(profile, 20), only_opening: false });
    }
    for folder in folders {
        let mut forms = Vec::new();
        for entry in fs::read_dir(folder).unwrap() {
            let path = entry.unwrap().path();
            if path.extension().is_some_and(|it| it == "packed") {
                forms.push(fs::read(path).unwrap());
            }
        }
        forms.retain(|form| is_accepted(form));
        let name = Path::new(folder).file_name().unwrap().to_string_lossy();
        inputs.push(Input { name: format!("{} files of `{name}`", forms.len()), forms, only_opening: false });
    }
    inputs
}

/// A file, and 1,024 texts of 255 bytes that differ in their last two.
fn long_texts() -> Vec<u8> {
    let mut form = vec![1, 0x80, 0x08, 0, 1, 0, 0, 0, 0];
    for i in 0..1024_u32 {
        form.extend([0xff, 0x01]);
        form.extend([b'a'; 253]);
        form.extend([b'a' + (i / 32) as u8, b'a' + (i % 32) as u8]);
    }
    form
}

fn generated(profile: &str, count: usize) -> Vec<Vec<u8>> {
    let forms = (0..).map(generate::make).filter(|made| made.profile == profile).map(|made| made.form.pack());
    forms.filter(|form| is_accepted(form)).take(count).collect()
}

/// Whether a form opens, and its root is lowered.
fn is_accepted(form: &[u8]) -> bool {
    let Ok(source) = law::open(form) else { return false };
    Original::run(&Database::new(source), &[Call::Root]).answers[0] != original::call::Answer::Refused(6)
}

fn row(input: &Input) {
    let forms = &input.forms;
    let bytes: usize = forms.iter().map(Vec::len).sum();
    let nodes: usize = forms.iter().map(|form| law::open(form).unwrap_or_else(|_| panic!()).nodes.len()).sum();
    let dbs: Vec<Database> = forms.iter().map(|form| Database::new(law::open(form).unwrap_or_else(|_| panic!()))).collect();
    let trees: Vec<_> = dbs.iter().map(Original::lower_root).collect();
    let mut text = vec![0; 8 << 20];

    let rust_open = best(|rounds| each(rounds, || forms.iter().for_each(|form| drop(black_box(law::open(form))))));
    let port_open = best(|rounds| forms.iter().for_each(|form| assert_eq!(port::open_often(form, rounds), rounds)));
    let mut line = format!("| {} | {bytes} | {nodes} |", input.name);
    compared(&mut line, rust_open, port_open);
    if input.only_opening {
        println!("{line} | | | | | |");
        return;
    }
    let rust_lower = best(|rounds| each(rounds, || dbs.iter().for_each(|db| drop(black_box(Original::lower_root(db))))));
    let port_lower = best(|rounds| forms.iter().for_each(|form| assert_eq!(port::lower_often(form, rounds), rounds)));
    let rust_print = best(|rounds| {
        each(rounds, || dbs.iter().zip(&trees).for_each(|(db, tree)| drop(black_box(Original::print(db, tree)))))
    });
    let port_print = best(|rounds| forms.iter().for_each(|form| assert_eq!(port::print_often(form, rounds, &mut text), rounds)));

    compared(&mut line, rust_lower, port_lower);
    compared(&mut line, rust_print, port_print);
    println!("{line}");
}

fn compared(line: &mut String, rust: f64, port: f64) {
    line.push_str(&format!(" {} | {} | {:.2} |", shown(rust), shown(port), port / rust));
}

fn each(rounds: u32, mut once: impl FnMut()) {
    for _ in 0..rounds {
        once();
    }
}

/// Seconds for one round.
fn best(mut call: impl FnMut(u32)) -> f64 {
    let mut rounds = 1;
    loop {
        let start = Instant::now();
        call(rounds);
        if start.elapsed().as_secs_f64() > SECONDS || rounds > 1 << 24 {
            break;
        }
        rounds *= 2;
    }
    let mut best = f64::INFINITY;
    for _ in 0..TRIES {
        let start = Instant::now();
        call(rounds);
        best = best.min(start.elapsed().as_secs_f64() / f64::from(rounds));
    }
    best
}

fn shown(seconds: f64) -> String {
    format!("{:.2}", seconds * 1e6)
}
