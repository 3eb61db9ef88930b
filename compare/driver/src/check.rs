//! One input on both sides.

use original::call::{Answer, Call, LIMITS, Lowering, Original, Run, TABLES};
use original::database::Database;
use original::law;
use original::name;

use crate::port;
use crate::tally::Tally;

/// A buffer for the port's texts, longer than any of them.
pub struct Room(Vec<u8>);

impl Room {
    pub fn new() -> Room {
        Room(vec![FREE; 8 << 20])
    }
}

/// What the port's buffers are filled with.
const FREE: u8 = 0xaa;

/// Where the two sides differ, in words, with both texts.
#[derive(Debug)]
pub struct Difference {
    pub what: String,
    pub rust: Vec<u8>,
    pub port: Vec<u8>,
}

fn differ(what: &str, rust: impl Into<Vec<u8>>, port: impl Into<Vec<u8>>) -> Result<(), Difference> {
    let (rust, port) = (rust.into(), port.into());
    if rust == port { Ok(()) } else { Err(Difference { what: what.to_owned(), rust, port }) }
}

/// What the Rust side says of an input.
pub enum Expected {
    Refused(law::Refused),
    Tree { dump: Vec<u8>, print: Vec<u8>, run: Run },
}

pub fn expected(bytes: &[u8], calls: &[Call]) -> Expected {
    let source = match law::open(bytes) {
        Ok(source) => source,
        Err(refused) => return Expected::Refused(refused),
    };
    let db = Database::new(source);
    let run = Original::run(&db, calls);
    let mut dump = answers(calls, &run.answers);
    dump.extend(Original::dump(&run.tree));
    dump.extend(Original::dump_uses(&db));
    dump.extend(Original::dump_merges(&db));
    let print = name::bytes(&Original::print(&db, &run.tree));
    Expected::Tree { dump, print, run }
}

fn answers(calls: &[Call], answers: &[Answer]) -> Vec<u8> {
    let mut text = String::new();
    for (call, answer) in calls.iter().zip(answers) {
        match call {
            Call::Root => text.push_str("root = "),
            Call::Node(number) => text.push_str(&format!("node {number} = ")),
        }
        match answer {
            Answer::Count(number) | Answer::Id(Some(number)) => text.push_str(&number.to_string()),
            Answer::Id(None) => text.push_str("none"),
            Answer::Refused(number) => text.push_str(&format!("refused {number}")),
        }
        text.push('\n');
    }
    text.into_bytes()
}

pub fn numbers(calls: &[Call]) -> Vec<u32> {
    calls
        .iter()
        .map(|call| match call {
            Call::Root => port::ROOT,
            Call::Node(number) => *number,
        })
        .collect()
}

/// Compares all that both sides say of an input.
pub fn check(bytes: &[u8], calls: &[Call], room: &mut Room, tally: &mut Tally, thorough: bool) -> Result<(), Difference> {
    let words = numbers(calls);
    match expected(bytes, calls) {
        Expected::Refused(refused) => {
            tally.refused(refused);
            let number = refused.number();
            differ("opening", number.to_string(), port::open(bytes).to_string())?;
            if thorough {
                let buf = &mut room.0[..64];
                let dump = port::dump(bytes, &words, buf);
                differ("the refusal of a dump", number.to_string(), dump.refusal.to_string())?;
                let print = port::print_calls(bytes, &words, buf);
                differ("the refusal of a print", number.to_string(), print.refusal.to_string())?;
                differ("the buffer after a refusal", [FREE; 64], &*buf)?;
            }
            Ok(())
        }
        Expected::Tree { dump, print, run } => {
            tally.tree(bytes, calls, &run, &dump, print.len());
            differ("opening", "0", port::open(bytes).to_string())?;
            let answer = port::dump(bytes, &words, &mut room.0);
            text("the dump", &dump, answer, &mut room.0)?;
            let answer = port::print_calls(bytes, &words, &mut room.0);
            text("the printed text", &print, answer, &mut room.0)?;
            if calls == [Call::Root] {
                root(bytes, &run, &print, room)?;
            }
            imports(&run, tally)?;
            if thorough {
                short("a dump", &dump, &mut room.0, |buf| port::dump(bytes, &words, buf))?;
                short("a print", &print, &mut room.0, |buf| port::print_calls(bytes, &words, buf))?;
            }
            Ok(())
        }
    }
}

/// The Rust's imports against those by the rules, after the differences that are listed.
fn imports(run: &Run, tally: &mut Tally) -> Result<(), Difference> {
    for index in 0..Original::counts(&run.tree).big as u32 {
        let Some((mut rust, mut rules)) = Original::expand(&run.tree, 2 * index + 1) else { continue };
        if rules.departs.imports {
            tally.add("imports: other than the Rust's");
            continue;
        }
        tally.add(if rules.departs.places { "imports: other places than the Rust's" } else { "imports: as the Rust's" });
        if rules.departs.places {
            rust.iter_mut().chain(&mut rules.imports).for_each(|import| import.place = 0);
        }
        differ("the imports by the rules", format!("{rust:?}"), format!("{:?}", rules.imports))?;
    }
    Ok(())
}

/// The one call that does all from bytes to text.
fn root(bytes: &[u8], run: &Run, print: &[u8], room: &mut Room) -> Result<(), Difference> {
    let answer = port::print(bytes, &mut room.0);
    match run.answers[0] {
        Answer::Refused(number) => differ("root lowering and printing", number.to_string(), answer.refusal.to_string()),
        _ => text("root lowering and printing", print, answer, &mut room.0),
    }
}

/// Compares a text, and clears the buffer that has it.
fn text(what: &str, rust: &[u8], answer: port::Answer, buf: &mut [u8]) -> Result<(), Difference> {
    if answer.refusal != 0 {
        return differ(what, rust, format!("refused {} {}", answer.refusal, answer.len));
    }
    let same = differ(what, rust, &buf[..answer.len]);
    let after = buf[answer.len];
    buf[..answer.len].fill(FREE);
    same?;
    differ(&format!("the byte after {what}"), [FREE], [after])
}

/// A buffer that is one byte too short is refused with 9 and the length, and is left as it was.
fn short(what: &str, rust: &[u8], buf: &mut [u8], call: impl Fn(&mut [u8]) -> port::Answer) -> Result<(), Difference> {
    let Some(len) = rust.len().checked_sub(1) else { return Ok(()) };
    let answer = call(&mut buf[..len]);
    differ(&format!("{what} into a short buffer"), format!("9 {}", rust.len()), format!("{} {}", answer.refusal, answer.len))?;
    let kept = buf[..len].iter().all(|byte| *byte == FREE);
    differ(&format!("the buffer after {what} into it when short"), "kept", if kept { "kept" } else { "changed" })
}

/// The tables that a refused call would have filled too much.
pub fn overfull(run: &Run) -> Vec<&'static str> {
    let mut tables = Vec::new();
    for counts in &run.refused {
        for ((count, limit), table) in counts.all().iter().zip(LIMITS.all()).zip(TABLES) {
            if *count > limit {
                tables.push(table);
            }
        }
    }
    tables
}
