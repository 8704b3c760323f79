//! Runs scripts through the oracle and through a program, and says where they differ.

mod child;
mod shrink;

use std::fmt::Write;
use std::path::PathBuf;
use std::sync::Mutex;
use std::sync::atomic::{AtomicBool, AtomicUsize, Ordering};

use crate::generate::{self, alphabet};
use crate::record::Kinds;
use crate::run::run;
use crate::text;
use child::Answer;

/// Processes that run at a time.
const WORKERS: usize = 2;
/// Lines of an output that a report shows.
const SHOWN_LINES: usize = 40;

/// The program, and the scripts that it is asked.
pub struct Plan {
    pub program: PathBuf,
    pub args: Vec<String>,
    pub kinds: Kinds,
    pub seed: u64,
    /// Generated scripts.
    pub scripts: usize,
    /// Every word of up to so many records is asked too, before the generated scripts.
    pub words: usize,
    /// Generated scripts with merges of much work, after the others.
    pub heavy: usize,
}

/// What a comparison found.
pub struct Outcome {
    pub scripts: usize,
    /// The report on the smallest script that differs, if any.
    pub difference: Option<String>,
}

struct Found {
    origin: String,
    script: Vec<u8>,
}

/// Stops at the first difference, and makes its script smaller while it still differs.
pub fn compare(plan: &Plan) -> Outcome {
    let words = match plan.words {
        0 => Vec::new(),
        records => alphabet::words(records, plan.kinds),
    };
    let total = words.len() + plan.scripts + plan.heavy;
    let found = Mutex::new(Vec::new());
    let (next, stop) = (AtomicUsize::new(0), AtomicBool::new(false));
    let work = || {
        while !stop.load(Ordering::Relaxed) {
            let index = next.fetch_add(1, Ordering::Relaxed);
            if index >= total {
                break;
            }
            let item = script_at(plan, &words, index);
            if differs(plan, &item.script) {
                stop.store(true, Ordering::Relaxed);
                found.lock().expect("no worker panics").push(item);
            }
        }
    };
    std::thread::scope(|scope| {
        for _ in 0..WORKERS {
            scope.spawn(work);
        }
    });
    let found = found.into_inner().expect("no worker panics");
    let smallest = found.into_iter().min_by_key(|item| item.script.len());
    Outcome { scripts: total, difference: smallest.map(|item| report(plan, &item)) }
}

fn script_at(plan: &Plan, words: &[Vec<u8>], index: usize) -> Found {
    if let Some(word) = words.get(index) {
        let origin = format!("word {index} of up to {} records", plan.words);
        return Found { origin, script: word.clone() };
    }
    let index = index - words.len();
    let (index, made) = match index.checked_sub(plan.scripts) {
        None => (index, generate::script(plan.seed, index as u64, plan.kinds)),
        Some(heavy) => (heavy, generate::heavy_script(plan.seed, heavy as u64, plan.kinds)),
    };
    let origin = format!("script {index} of seed {}, family '{}'", plan.seed, made.family);
    Found { origin, script: made.script }
}

fn ask(plan: &Plan, script: &[u8], expected: &[u8]) -> Answer {
    child::ask(&plan.program, &plan.args, script, expected.len())
}

fn differs(plan: &Plan, script: &[u8]) -> bool {
    let expected = run(script, plan.kinds).lines;
    !ask(plan, script, &expected).is(&expected)
}

fn report(plan: &Plan, found: &Found) -> String {
    let script = shrink::shrink(&found.script, |script| differs(plan, script));
    let expected = run(&script, plan.kinds).lines;
    let answer = ask(plan, &script, &expected);
    let mut report = format!(
        "difference: {}, made smaller from {} bytes to {}\n",
        found.origin,
        found.script.len(),
        script.len()
    );
    if answer.is(&expected) {
        report.push_str("note: asked once more, the program gave the right answer\n");
    }
    write!(report, "--- script\n{}", text::disassemble(&script)).expect("writing to memory");
    write!(report, "--- oracle\n{}", shown(&expected)).expect("writing to memory");
    write!(report, "--- program, which {}\n{}", answer.ending, shown(&answer.lines))
        .expect("writing to memory");
    report
}

/// The first lines of an output, printable.
fn shown(output: &[u8]) -> String {
    let text = String::from_utf8_lossy(output);
    let mut shown = String::new();
    for line in text.lines().take(SHOWN_LINES) {
        writeln!(shown, "{}", line.escape_debug()).expect("writing to memory");
    }
    match text.lines().count() {
        more if more > SHOWN_LINES => writeln!(shown, ".. {} more lines", more - SHOWN_LINES),
        _ => Ok(()),
    }
    .expect("writing to memory");
    shown
}
