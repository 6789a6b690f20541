//! A list of questions that take every branch of the rules, with the Rust's answers.

use crate::inputs::questions;
use crate::judge::{Party, Verdict, KINDS};
use crate::question::{Frame, Question, Verb, LONGEST};
use crate::statement::branch;
use std::collections::BTreeMap;

/// The most questions that are kept for one branch.
const MOST: usize = 64;

/// Questions in the order of their size, each by its line.
type Sorted = BTreeMap<(usize, String), Question>;

/// The smallest questions of each branch among the first ones of the series. A
/// branch is named by its command and form and by what the rules say.
fn by_branch(seed: u64, count: u64) -> BTreeMap<(String, String), Sorted> {
    let mut kept: BTreeMap<_, Sorted> = BTreeMap::new();
    for q in questions(seed).take(count as usize).filter(|q| q.asked(Frame::Rust)) {
        if q.texts().iter().any(|t| t.len() > LONGEST + 1) {
            continue;
        }
        let (verb, form, _) = q.verb.fields();
        let command = format!("{verb} {}", form.map_or("", |f| f.name()));
        let same = kept.entry((command, branch(&q))).or_default();
        same.insert((q.size(), line(&q)), q);
        if same.len() > MOST {
            same.pop_last();
        }
    }
    kept
}

/// The smallest of each branch, then the second of each, until there are `n`;
/// told branch by branch.
fn chosen(seed: u64, count: u64, n: usize) -> Vec<(String, Question)> {
    let mut all = Vec::new();
    for (at, ((_, branch), same)) in by_branch(seed, count).into_iter().enumerate() {
        let ranked = same.into_values().enumerate();
        all.extend(ranked.map(|(rank, q)| (rank, at, branch.clone(), q)));
    }
    all.sort_by_key(|(rank, at, ..)| (*rank, *at));
    all.truncate(n);
    all.sort_by_key(|(rank, at, ..)| (*at, *rank));
    all.into_iter().map(|(_, _, branch, q)| (branch, q)).collect()
}

fn line(q: &Question) -> String {
    let mut line = Vec::new();
    q.line(Frame::Probe, &mut line);
    String::from_utf8_lossy(&line).trim_end_matches('\n').to_string()
}

/// The Rust's answer in the words of `probe`; it has none for a refusal.
fn in_words(verb: Verb, answer: &str) -> String {
    let words = match verb {
        _ if answer == "none" => "",
        Verb::Parse(_) => "read ",
        Verb::Nth(_) | Verb::Nthf(..) => "nth ",
        Verb::Cmp | Verb::Cmpf(_) => "order ",
        Verb::Eq => "equal ",
        Verb::Req => "rule ",
        Verb::Reqfits => "fits ",
        Verb::Reqparse => {
            let (n, rule) = answer.split_once(' ').unwrap_or_default();
            return format!("read {n} rule {rule}");
        }
        Verb::New(_) | Verb::Tomess(_) | Verb::Raw(_) => "",
    };
    format!("{words}{answer}")
}

/// Prints `n` lines: question, the Rust's answer, branch; and for a listed
/// difference its name and our answer. Tabs part them.
pub fn record(rust: &Party, seed: u64, count: u64, n: usize) -> Result<(), String> {
    let (branches, questions): (Vec<_>, Vec<_>) = chosen(seed, count, n).into_iter().unzip();
    let running = rust.put(&questions).map_err(|e| format!("{}: {e}", rust.path))?;
    let answers = running.finish().text;
    let answers = String::from_utf8(answers).map_err(|e| e.to_string())?;
    for ((branch, q), answer) in branches.iter().zip(&questions).zip(answers.lines()) {
        let differs = match rust.kind.verdict(q, answer.as_bytes()) {
            Verdict::Agrees => String::new(),
            Verdict::Listed(i) => {
                format!("\t{}\t{}", rust.kind.listed[i].0, KINDS[0].expected(q))
            }
            Verdict::Unlisted => return Err(format!("unlisted difference: {}", line(q))),
        };
        println!("{}\t{}\t{branch}{differs}", line(q), in_words(q.verb, answer));
    }
    Ok(())
}
