//! Compares the port with the Rust.

mod cases;
mod check;
mod damage;
mod edges;
mod generate;
mod model;
mod port;
mod store;
mod tally;
mod timing;

use std::env;
use std::fs;
use std::path::Path;
use std::process::ExitCode;
use std::time::Instant;

use check::{Difference, Room, check, numbers};
use model::Random;
use original::call::Call;
use tally::Tally;

/// Where the input of a difference is saved.
const DIFFERENCE: &str = concat!(env!("CARGO_MANIFEST_DIR"), "/../target/difference");

const USAGE: &str = "usage: driver run COUNT [FIRST-SEED] | cases FOLDER.. | show SEED | file FORM [root | NODE].. | expect FORM [root | NODE].. | edges | store FILE | time [FOLDER]..";

fn main() -> ExitCode {
    let words: Vec<String> = env::args().skip(1).collect();
    let words: Vec<&str> = words.iter().map(String::as_str).collect();
    let done = match &*words {
        ["run", count] => run(number(count), 0),
        ["run", count, first] => run(number(count), number(first)),
        ["cases", folders @ ..] => run_cases(folders),
        ["show", seed] => show(number(seed)),
        ["file", form, calls @ ..] => run_file(form, calls),
        ["expect", form, calls @ ..] => expect(form, calls),
        ["edges"] => run_edges(),
        ["store", file] => store::store(file, input),
        ["time", folders @ ..] => timing::time(folders),
        _ => {
            println!("{USAGE}");
            false
        }
    };
    if done { ExitCode::SUCCESS } else { ExitCode::FAILURE }
}

fn number(word: &str) -> u64 {
    word.parse().unwrap_or_else(|_| panic!("{word} is no number; {USAGE}"))
}

/// The input of a seed: of each four, three are lawful and one is damaged.
fn input(seed: u64) -> (Vec<u8>, Vec<Call>, &'static str) {
    let made = generate::make(seed);
    if seed % 4 == 3 {
        let mut random = Random::new(seed ^ 0xdead_beef);
        (damage::damage(&made, &mut random), made.calls, "damaged")
    } else {
        (made.form.pack(), made.calls, made.profile)
    }
}

fn run(count: u64, first: u64) -> bool {
    let start = Instant::now();
    let mut tally = Tally::default();
    let mut room = Room::new();
    for seed in first..first + count {
        let (bytes, calls, profile) = input(seed);
        tally.add(&format!("profile: {profile}"));
        if let Err(difference) = check(&bytes, &calls, &mut room, &mut tally, seed % 8 < 4) {
            report(seed, &bytes, &calls, &difference);
            return false;
        }
    }
    tally.print();
    println!("{count} seeds from {first} agree, {:.1} s", start.elapsed().as_secs_f64());
    true
}

/// Says what differs, and saves the input.
fn report(seed: u64, bytes: &[u8], calls: &[Call], difference: &Difference) {
    let folder = Path::new(DIFFERENCE);
    fs::create_dir_all(folder).unwrap();
    fs::write(folder.join("form.packed"), bytes).unwrap();
    fs::write(folder.join("rust"), &difference.rust).unwrap();
    fs::write(folder.join("port"), &difference.port).unwrap();
    let words: Vec<String> = calls.iter().map(word).collect();
    fs::write(folder.join("calls"), words.join("\n")).unwrap();
    println!("seed {seed} differs in {}; calls: {}", difference.what, words.join(" "));
    for (rust, port) in difference.rust.split(|it| *it == b'\n').zip(difference.port.split(|it| *it == b'\n')) {
        if rust != port {
            println!("  Rust: {}\n  port: {}", String::from_utf8_lossy(rust), String::from_utf8_lossy(port));
            break;
        }
    }
    println!("the input and both answers are in {}/", folder.display());
}

fn word(call: &Call) -> String {
    match call {
        Call::Root => "root".to_owned(),
        Call::Node(number) => number.to_string(),
    }
}

fn call(word: &str) -> Call {
    if word == "root" { Call::Root } else { Call::Node(number(word) as u32) }
}

fn run_file(form: &str, calls: &[&str]) -> bool {
    let bytes = fs::read(form).unwrap();
    let calls: Vec<Call> = calls.iter().map(|word| call(word)).collect();
    match check(&bytes, &calls, &mut Room::new(), &mut Tally::default(), true) {
        Ok(()) => {
            println!("agrees");
            true
        }
        Err(difference) => {
            report(0, &bytes, &calls, &difference);
            false
        }
    }
}

/// Writes what the Rust side says of a form.
fn expect(form: &str, calls: &[&str]) -> bool {
    let calls: Vec<Call> = calls.iter().map(|word| call(word)).collect();
    match check::expected(&fs::read(form).unwrap(), &calls) {
        check::Expected::Refused(refused) => println!("refused {}", refused.number()),
        check::Expected::Tree { dump, .. } => print!("{}", String::from_utf8_lossy(&dump)),
    }
    true
}

/// The cases that were thought of.
fn run_edges() -> bool {
    let edges = edges::all().0;
    let mut tally = Tally::default();
    for edge in &edges {
        if let Err(difference) = check(&edge.bytes, &edge.calls, &mut Room::new(), &mut tally, true) {
            println!("{}", edge.name);
            report(0, &edge.bytes, &edge.calls, &difference);
            return false;
        }
    }
    tally.print();
    println!("{} edges agree", edges.len());
    true
}

fn show(seed: u64) -> bool {
    let (bytes, calls, profile) = input(seed);
    println!("{profile}, {} bytes, calls {calls:?} {:?}", bytes.len(), numbers(&calls));
    match check::expected(&bytes, &calls) {
        check::Expected::Refused(refused) => println!("refused {} ({})", refused.number(), refused.words()),
        check::Expected::Tree { dump, print, .. } => {
            println!("{}\n{}", String::from_utf8_lossy(&dump), String::from_utf8_lossy(&print));
        }
    }
    true
}

fn run_cases(folders: &[&str]) -> bool {
    let (mut passed, mut failed) = (0, 0);
    for folder in folders {
        let (more, less) = cases::folder(Path::new(folder)).unwrap();
        passed += more;
        failed += less;
    }
    println!("{passed} passed, {failed} failed");
    failed == 0
}
