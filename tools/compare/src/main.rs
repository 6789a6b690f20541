//! Puts the same questions to `probe`, to the Rust and to two other readers of
//! Semantic Versioning, and judges every answer. See README.md.

mod children;
mod draft;
mod fixed;
mod inputs;
mod judge;
mod parts;
mod question;
mod random;
mod record;
mod samples;
mod shapes;
mod shrink;
mod statement;

use children::{Answers, Running};
use judge::{judge, Party, KINDS};
use question::{Question, COMMANDS, FORMS};
use std::process::ExitCode;
use std::time::{Duration, Instant};

const BATCH: u64 = 1 << 18;
const USAGE: &str = "compare [--probe PATH] [--oracle PATH] [--peer-semver PATH] [--peer-node PATH]
        [--ask COMMAND,COMMAND:FORM,..] [--seed N] [--seconds N] [--count N] [--record N]";

struct Options {
    parties: Vec<Party>,
    seed: u64,
    seconds: Option<u64>,
    count: Option<u64>,
    /// How many lines to record.
    record: Option<u64>,
}

/// The commands of a list, each perhaps with a form behind a colon.
fn commands(list: &str) -> Result<Vec<String>, String> {
    let known = |command: &str| {
        let (verb, form) = command.split_once(':').unwrap_or((command, "semver"));
        COMMANDS.contains(&verb) && FORMS.iter().any(|f| f.name() == form)
    };
    match list.split(',').find(|c| !known(c)) {
        Some(c) => Err(format!("--ask {c}: no command")),
        None => Ok(list.split(',').map(str::to_string).collect()),
    }
}

fn options() -> Result<Options, String> {
    let mut o = Options { parties: Vec::new(), seed: 1, seconds: None, count: None, record: None };
    let mut known = Vec::new();
    let mut words = std::env::args().skip(1);
    while let Some(word) = words.next() {
        let value = words.next().ok_or(format!("{word}: a value is missing"))?;
        let number = || value.parse().map_err(|_| format!("{word} {value}: no number"));
        match word.as_str() {
            "--seed" => o.seed = number()?,
            "--seconds" => o.seconds = Some(number()?),
            "--count" => o.count = Some(number()?),
            "--record" => o.record = Some(number()?),
            "--ask" => known = commands(&value)?,
            _ => match KINDS.iter().find(|k| k.option == word) {
                Some(kind) => o.parties.push(Party::new(*kind, value, Vec::new())),
                None => return Err(format!("{word}: unknown option")),
            },
        }
    }
    if o.seconds.is_none() && o.count.is_none() {
        o.count = Some(1_000_000);
    }
    for kind in KINDS.iter().filter(|k| o.parties.iter().all(|p| p.kind.option != k.option)) {
        eprintln!("left out: {} ({} is not given)", kind.name, kind.option);
    }
    for p in o.parties.iter_mut().filter(|p| p.kind.option == "--probe") {
        p.known.append(&mut known);
    }
    o.parties.sort_by_key(|p| KINDS.iter().position(|k| k.option == p.kind.option));
    Ok(o)
}

/// A batch of questions with the children at work on it.
struct Batch {
    questions: Vec<Question>,
    running: Vec<Running>,
}

/// The first party with wrong answers in a batch, and which they are.
struct Found {
    party: usize,
    wrong: Vec<usize>,
    questions: Vec<Question>,
    ended: Option<String>,
}

impl Batch {
    fn begin(parties: &[Party], questions: Vec<Question>) -> Result<Batch, String> {
        let start = |p: &Party| p.put(&questions).map_err(|e| format!("{}: {e}", p.path));
        let running = parties.iter().map(start).collect::<Result<_, _>>()?;
        Ok(Batch { questions, running })
    }

    fn finish(self) -> (Vec<Question>, Vec<Answers>) {
        (self.questions, self.running.into_iter().map(Running::finish).collect())
    }
}

/// The first party with a wrong answer, if there is one.
fn judged(parties: &mut [Party], questions: Vec<Question>, answers: &[Answers]) -> Option<Found> {
    let mut wrong = judge(parties, &questions, answers);
    let party = wrong.iter().position(|w| !w.is_empty())?;
    let ended = answers[party].ended.clone();
    Some(Found { party, wrong: wrong.swap_remove(party), questions, ended })
}

/// Batch after batch: while the children are at work on one, the one before is
/// judged and the next is made.
fn run(o: &mut Options, begun: Instant) -> Result<Option<Found>, String> {
    let mut source = inputs::questions(o.seed);
    let mut left = o.count.unwrap_or(u64::MAX);
    let seconds = o.seconds.map_or(Duration::MAX, Duration::from_secs);
    let mut next = || -> Vec<Question> {
        let size = if begun.elapsed() < seconds { left.min(BATCH) } else { 0 };
        left -= size;
        source.by_ref().take(size as usize).collect()
    };
    let mut batch = Some(Batch::begin(&o.parties, next())?);
    let mut said = begun;
    while let Some(at_work) = batch {
        let upcoming = next();
        let (questions, answers) = at_work.finish();
        batch = match upcoming.is_empty() {
            true => None,
            false => Some(Batch::begin(&o.parties, upcoming)?),
        };
        if let Some(found) = judged(&mut o.parties, questions, &answers) {
            batch.map(Batch::finish);
            return Ok(Some(found));
        }
        if said.elapsed() > Duration::from_secs(5) {
            said = Instant::now();
            eprintln!("{}", speed(o, begun));
        }
    }
    Ok(None)
}

fn speed(o: &Options, begun: Instant) -> String {
    let asked = o.parties.iter().map(|p| p.tally.asked).max().unwrap_or(0);
    format!("{asked} questions, {:.0} a second", asked as f64 / begun.elapsed().as_secs_f64())
}

fn summary(o: &Options, begun: Instant) {
    println!("{}, seed {}", speed(o, begun), o.seed);
    for p in &o.parties {
        println!("{}: asked {}, agrees {}", p.kind.name, p.tally.asked, p.tally.agreed);
        for ((name, _), met) in p.kind.listed.iter().zip(&p.tally.listed) {
            println!("    listed difference, {name}: {}", met.count);
            if let Some(q) = &met.smallest {
                let [ours, theirs] = [KINDS[0], p.kind].map(|k| shrink::short(&k.expected(q)));
                println!("        {}: ours {ours}, theirs {theirs}", shrink::brief(q));
            }
        }
    }
}

/// The smallest question found, with what every party answers to it.
fn report(o: &Options, found: Found) {
    let at = &o.parties[found.party];
    let mut party = Party::new(at.kind, at.path.clone(), at.known.clone());
    let Found { wrong, questions, ended, .. } = found;
    println!("UNLISTED DIFFERENCE: {}, {} questions of one batch", party.kind.name, wrong.len());
    if let Some(how) = ended {
        println!("  the child {how}");
    }
    let smallest = wrong.iter().map(|i| &questions[*i]).min_by_key(|q| q.size());
    let mut start = smallest.cloned().unwrap_or_else(|| Question::raw(""));
    if !shrink::alone(&mut party, &start) {
        let few = shrink::narrow(&mut party, questions);
        if few.len() > 1 {
            println!("  it takes {} questions together, the last of them:", few.len());
            println!("  question   {}", few.last().map(shrink::shown).unwrap_or_default());
            return;
        }
        start = few.into_iter().next().unwrap_or(start);
    }
    println!("  found at   {}", shrink::shown(&start));
    let q = shrink::shrink(&mut party, start);
    println!("  question   {}", shrink::shown(&q));
    for p in o.parties.iter().filter(|p| p.asked(&q)) {
        let answer = p.put(std::slice::from_ref(&q)).map(|r| r.finish().text);
        let answer = String::from_utf8_lossy(&answer.unwrap_or_default()).trim_end().to_string();
        let expected = p.kind.expected(&q);
        println!("  {:10} {answer:?}, expected \"{expected}\"", p.kind.name);
    }
}

fn recorded(o: &Options, n: u64) -> ExitCode {
    let Some(rust) = o.parties.iter().find(|p| p.kind.option == "--oracle") else {
        eprintln!("compare: --record needs --oracle");
        return ExitCode::from(2);
    };
    match record::record(rust, o.seed, o.count.unwrap_or(1_000_000), n as usize) {
        Ok(()) => ExitCode::SUCCESS,
        Err(e) => {
            eprintln!("compare: {e}");
            ExitCode::from(1)
        }
    }
}

fn main() -> ExitCode {
    let mut o = match options() {
        Ok(o) => o,
        Err(e) => {
            eprintln!("compare: {e}\n{USAGE}");
            return ExitCode::from(2);
        }
    };
    if let Some(n) = o.record {
        return recorded(&o, n);
    }
    let begun = Instant::now();
    match run(&mut o, begun) {
        Err(e) => {
            eprintln!("compare: {e}");
            ExitCode::from(2)
        }
        Ok(None) if o.parties.iter().all(|p| p.tally.asked == 0) => {
            eprintln!("compare: nothing was asked");
            ExitCode::from(2)
        }
        Ok(None) => {
            summary(&o, begun);
            println!("no unlisted difference");
            ExitCode::SUCCESS
        }
        Ok(Some(found)) => {
            summary(&o, begun);
            report(&o, found);
            ExitCode::from(1)
        }
    }
}
