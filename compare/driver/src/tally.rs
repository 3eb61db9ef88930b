//! How often each branch was reached.

use std::collections::{BTreeMap, BTreeSet};

use original::call::{Answer, Call, LIMITS, Lowering, Original, Run, TABLES};
use original::law::{self, Refused};

use crate::check::overfull;

#[derive(Default)]
pub struct Tally {
    pub counts: BTreeMap<String, u64>,
}

const WORDS: [&str; 36] = [
    " const ", " const - ", " enum ", " extern\n", " extern ", " extern crate ", " fn ", " impl\n", " impl of a trait\n", " macro ",
    " call ", " Statements ", " Items ", " Pattern ", " Type ", " Expr ", " macro_rules ", " mod ", " inline", " outline", " static ",
    " struct ", " no constructor", " constructor ", " constructor list ", " trait ", " type ", " union ", " use ", " single ", " glob ",
    " group ", " as _", " [missing name]", "\ndisabled ", "\nattribute ",
];

const MORE_WORDS: [&str; 14] = [
    "(plain", "(super 0", "(super 1", "(crate", "(abs)", "(abs ", "($crate", " public", " private", " self", " crate", " in (", " literal ",
    " tokens ",
];

impl Tally {
    pub fn add(&mut self, what: &str) {
        *self.counts.entry(what.to_owned()).or_default() += 1;
    }

    pub fn refused(&mut self, refused: Refused) {
        self.add(&format!("opening refused {}", refused.number()));
        self.add(&format!("opening refused {}: {}", refused.number(), refused.words()));
    }

    pub fn tree(&mut self, bytes: &[u8], calls: &[Call], run: &Run, dump: &[u8], printed: usize) {
        self.add("sources that open");
        self.source(bytes);
        for (call, answer) in calls.iter().zip(&run.answers) {
            let call = if *call == Call::Root { "root lowering" } else { "lower_mod_item" };
            self.add(&match answer {
                Answer::Count(_) => format!("{call}: accepted"),
                Answer::Id(Some(_)) => format!("{call}: an id"),
                Answer::Id(None) => format!("{call}: passed over"),
                Answer::Refused(number) => format!("{call}: refused {number}"),
            });
        }
        for table in overfull(run) {
            self.add(&format!("past the limit: {table}"));
        }
        let counts = Original::counts(&run.tree);
        for ((count, limit), table) in counts.all().iter().zip(LIMITS.all()).zip(TABLES) {
            if *count == limit {
                self.add(&format!("at the limit: {table}"));
            }
        }
        if printed > 65_536 {
            self.add("printed text over 65,536 bytes");
        }
        let text = String::from_utf8_lossy(dump);
        for word in WORDS.iter().chain(&MORE_WORDS) {
            if text.contains(word) {
                self.add(&format!("dumped: {}", word.trim().replace('\n', "")));
            }
        }
        let reached: BTreeSet<String> = text.lines().filter_map(call).collect();
        for what in reached {
            self.add(&what);
        }
    }

    fn source(&mut self, bytes: &[u8]) {
        let Ok(source) = law::open(bytes) else { return };
        let mut seen = std::collections::BTreeSet::new();
        let mut open: Vec<u32> = Vec::new();
        let mut deepest = 0;
        for (number, node) in source.nodes.iter().enumerate() {
            while open.last().is_some_and(|end| *end as usize <= number) {
                open.pop();
            }
            deepest = deepest.max(open.len());
            open.push(node.end);
            let text = if node.text == 0 { ", no text" } else { "" };
            seen.insert(format!("kind {:2} mark {}{text}", node.kind, node.mark));
            if node.kind == 31 && node.end as usize == number + 65 {
                seen.insert("a path of 64 segments".to_owned());
            }
        }
        if deepest == 40 {
            seen.insert("level 40".to_owned());
        }
        if source.nodes.len() == 4096 {
            seen.insert("4,096 nodes".to_owned());
        }
        if source.texts.len() == 1024 {
            seen.insert("1,024 texts".to_owned());
        }
        if source.texts.iter().any(|(_, len)| *len == 255) {
            seen.insert("a text of 255 bytes".to_owned());
        }
        for what in seen {
            self.add(&what);
        }
    }

    pub fn print(&self) {
        for (what, count) in &self.counts {
            println!("{count:9}  {what}");
        }
    }
}

/// What a line of a dump says of an expansion, a use tree by itself or a merge.
fn call(line: &str) -> Option<String> {
    let mut words = line.split(' ');
    let what = match words.next()? {
        "import" => format!("an import, {}", words.nth(1)?),
        "imports" => "imports with more than 16,384 names".to_owned(),
        "tree" => match line.split(" = ").nth(1)? {
            answer @ ("none" | "refused 6" | "refused 8") => format!("a use tree by itself: {answer}"),
            _ => "a use tree by itself: its nodes".to_owned(),
        },
        "merged" => if line.ends_with("refused 6") { "a merge: refused 6" } else { "a merge" }.to_owned(),
        _ => return None,
    };
    Some(what)
}
