//! The parties, and the judgement of their answers.

use crate::children::{start, Answers, Running};
use crate::question::{Frame, Question, Verb};
use crate::statement::{outcome, say, Outcome, Rules, OURS};

/// A listed difference: its name, and our rules with it and nothing else in force.
pub type Listed = (&'static str, Rules);

/// Where the Rust differs; the last has all of them in force.
#[rustfmt::skip]
const RUST: [Listed; 9] = [
    ("empty metadata stretches", Rules { loose_metadata: true, ..OURS }),
    ("texts over 128 bytes", Rules { any_length: true, ..OURS }),
    ("the lenient number ends behind a leading 0", Rules { zero_ends: true, ..OURS }),
    ("tilde and caret of Generals without the Last", Rules { without_last: true, ..OURS }),
    ("caret passes over leading zeros of the rule", Rules { zeros_passed: true, ..OURS }),
    ("an Rc or Post ties with an Ideal without a Release", Rules { marked_ties: true, ..OURS }),
    ("the lenient patch is looked for before a colon", Rules { early_patch: true, ..OURS }),
    ("a General's epoch against a Complex", Rules { late_epoch: true, ..OURS }),
    ("several of these at once", Rules {
        loose_metadata: true, any_length: true, zero_ends: true, without_last: true,
        zeros_passed: true, marked_ties: true, early_patch: true, late_epoch: true, ..OURS
    }),
];
const SEMVER: [Listed; 1] =
    [("numbers over 4294967295", Rules { core: "18446744073709551615", release: None, ..OURS })];
const NPM: [Listed; 1] = [(
    "numbers over 4294967295",
    Rules { core: "9007199254740991", release: None, floating: true, ..OURS },
)];

/// A child with the rules that it is held to: ours, and its listed differences.
/// The last of these has all of them in force.
#[derive(Clone, Copy)]
pub struct Kind {
    pub name: &'static str,
    pub option: &'static str,
    pub frame: Frame,
    pub listed: &'static [Listed],
}

pub const KINDS: [Kind; 4] = [
    Kind { name: "probe", option: "--probe", frame: Frame::Probe, listed: &[] },
    Kind { name: "the Rust", option: "--oracle", frame: Frame::Rust, listed: &RUST },
    Kind { name: "semver", option: "--peer-semver", frame: Frame::Peer, listed: &SEMVER },
    Kind { name: "npm", option: "--peer-node", frame: Frame::Peer, listed: &NPM },
];

pub struct Party {
    pub kind: Kind,
    pub path: String,
    /// The commands that it is asked; empty means all. `VERB:FORM` is a command by one form.
    pub known: Vec<String>,
    pub tally: Tally,
}

#[derive(Default)]
pub struct Tally {
    pub asked: u64,
    pub agreed: u64,
    pub listed: [Differences; RUST.len()],
}

/// How often a listed difference was met, and the smallest question that shows it.
#[derive(Default)]
pub struct Differences {
    pub count: u64,
    pub smallest: Option<Question>,
}

pub enum Verdict {
    Agrees,
    /// A listed difference, by its place in the child's list.
    Listed(usize),
    Unlisted,
}

impl Kind {
    /// The answer that is right for this child, its listed differences in force.
    pub fn expected(&self, q: &Question) -> String {
        let rules = self.listed.last().map_or(&OURS, |(_, rules)| rules);
        let mut out = Vec::new();
        say(&outcome(q, rules), self.frame, &mut out);
        out.escape_ascii().to_string()
    }

    pub fn verdict(&self, q: &Question, answer: &[u8]) -> Verdict {
        self.judge(q, &outcome(q, &OURS), answer, &mut Vec::new())
    }

    /// An answer must be the very one that the child's rules give. If ours give
    /// it too, the two agree; if not, it is a listed difference, named by the
    /// rule that brings it about when it alone is put in force.
    fn judge(&self, q: &Question, ours: &Outcome, answer: &[u8], room: &mut Vec<u8>) -> Verdict {
        let mut gives = |outcome: &Outcome| {
            room.clear();
            say(outcome, self.frame, room);
            room == answer
        };
        if let Some((_, rules)) = self.listed.last() {
            if !gives(&outcome(q, rules)) {
                return Verdict::Unlisted;
            }
        }
        if gives(ours) {
            return Verdict::Agrees;
        }
        match self.listed.iter().position(|(_, rules)| gives(&outcome(q, rules))) {
            Some(i) => Verdict::Listed(i),
            None => Verdict::Unlisted,
        }
    }
}

impl Party {
    pub fn new(kind: Kind, path: String, known: Vec<String>) -> Party {
        Party { kind, path, known, tally: Tally::default() }
    }

    /// Whether a question is put to this party.
    pub fn asked(&self, q: &Question) -> bool {
        let (verb, form, _) = q.verb.fields();
        let known = |k: &String| match k.split_once(':') {
            Some((v, f)) => v == verb && form.is_some_and(|form| form.name() == f),
            None => k == verb,
        };
        let raw = matches!(q.verb, Verb::Raw(_));
        q.asked(self.kind.frame) && (raw || self.known.is_empty() || self.known.iter().any(known))
    }

    /// Starts the child on these questions.
    pub fn put(&self, questions: &[Question]) -> std::io::Result<Running> {
        let mut input = Vec::new();
        for q in questions.iter().filter(|q| self.asked(q)) {
            q.line(self.kind.frame, &mut input);
        }
        start(&self.path, input)
    }

    fn count(&mut self, q: &Question, verdict: &Verdict) {
        self.tally.asked += 1;
        match verdict {
            Verdict::Agrees => self.tally.agreed += 1,
            Verdict::Listed(i) => {
                let met = &mut self.tally.listed[*i];
                met.count += 1;
                if met.smallest.as_ref().is_none_or(|s| q.size() < s.size()) {
                    met.smallest = Some(q.clone());
                }
            }
            Verdict::Unlisted => (),
        }
    }
}

/// Judges and counts the answers of all parties. For each party it gives the
/// indices of the questions that have an unlisted answer or none.
pub fn judge(
    parties: &mut [Party],
    questions: &[Question],
    answers: &[Answers],
) -> Vec<Vec<usize>> {
    let mut lines: Vec<_> = answers.iter().map(|a| a.text.split(|b| *b == b'\n')).collect();
    let mut wrong = vec![Vec::new(); parties.len()];
    let mut room = Vec::new();
    for (i, q) in questions.iter().enumerate() {
        let ours = outcome(q, &OURS);
        for (k, party) in parties.iter_mut().enumerate().filter(|(_, p)| p.asked(q)) {
            let answer = lines[k].next().unwrap_or_default();
            let verdict = party.kind.judge(q, &ours, answer, &mut room);
            party.count(q, &verdict);
            if matches!(verdict, Verdict::Unlisted) {
                wrong[k].push(i);
            }
        }
    }
    for (k, mut rest) in lines.into_iter().enumerate() {
        // Behind the last line end there is nothing.
        let over = rest.next().is_some_and(|l| !l.is_empty()) || rest.next().is_some();
        if wrong[k].is_empty() && (over || answers[k].ended.is_some()) {
            wrong[k].extend(questions.iter().rposition(|q| parties[k].asked(q)));
        }
    }
    wrong
}
