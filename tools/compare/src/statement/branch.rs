//! The branch of the rules that a question takes, in words.

use super::orders::{last, Last};
use super::reading::{parse, Label, Level, Sort, Text};
use super::{outcome, Outcome, OURS};
use crate::question::{Form, Question, Verb};

fn form(label: &Label) -> &'static str {
    match label {
        Label::Ideal(_) => "Ideal",
        Label::General(_) => "General",
        Label::Complex(_) => "Complex",
    }
}

fn last_sort(chunks: &[Text]) -> &'static str {
    match chunks.last().map(|c| last(c)) {
        Some(Last::Marked(_, _, Some(_))) => "Rc",
        Some(Last::Marked(_, _, None)) => "Post",
        Some(Last::Alphanum(_)) => "Alphanum",
        _ => "Numeric",
    }
}

/// The sorts of MChunks, and whether one has a leading zero.
fn level_sorts(levels: &[Level]) -> String {
    let chunks = || levels.iter().flat_map(|l| &l.chunks);
    let has = |sort| chunks().any(|c| c.sort == sort);
    let named = [(Sort::Digits, " Digits"), (Sort::Rev, " Rev"), (Sort::Plain, " Plain")];
    let sorts: String = named.into_iter().filter(|(s, _)| has(*s)).map(|(_, name)| name).collect();
    let colon = levels.iter().skip(1).any(|l| l.sign == b':');
    let many = if levels.len() > 1 { ", levels" } else { "" };
    format!("Complex of{sorts}{many}{}", if colon { ", a colon" } else { "" })
}

/// A label by the parts that it has.
fn described(label: &Label) -> String {
    let tail = |release: &[Text], meta: Text| {
        let release = if release.is_empty() { "" } else { ", Release" };
        format!("{release}{}", if meta.is_empty() { "" } else { ", metadata" })
    };
    match label {
        Label::Ideal(v) => format!("Ideal{}", tail(&v.release, v.meta)),
        Label::General(v) => {
            let epoch = if v.epoch.is_some() { ", epoch" } else { "" };
            let chunks = if v.chunks.len() > 1 { ", chunks" } else { "" };
            let last = last_sort(&v.chunks);
            format!("General{epoch}{chunks}, Last {last}{}", tail(&v.release, v.meta))
        }
        Label::Complex(levels) => level_sorts(levels),
    }
}

/// The form of a text that is known to have one.
fn form_of(text: Text, by: Form) -> &'static str {
    parse(by, text, &OURS).map_or("none", |(label, _)| form(&label))
}

/// The forms of the two labels that a question compares.
fn forms(q: &Question) -> String {
    let [a, b] = q.texts() else { return String::new() };
    let whole = |t: &Text| super::read(Form::Versioning, t, &OURS).map_or("none", |l| form(&l));
    match q.verb {
        Verb::Cmpf(by) if by != Form::Versioning => {
            format!("{} against {}", form_of(a, by), form_of(b, by))
        }
        Verb::Reqfits => {
            let operator = b.iter().take_while(|b| b"=<>~^*".contains(b)).count();
            let (operator, bound) = b.split_at(operator);
            let operator = String::from_utf8_lossy(operator);
            format!("{} by {operator} {}", whole(&a.as_slice()), form_of(bound, Form::Versioning))
        }
        _ => format!("{} against {}", whole(&a.as_slice()), whole(&b.as_slice())),
    }
}

/// What a question comes to, and by which branch.
pub fn branch(q: &Question) -> String {
    let over = |n: usize| if n < q.texts()[0].len() { ", more behind it" } else { "" };
    match outcome(q, &OURS) {
        Outcome::Whole(label) => described(&label),
        Outcome::Front(label, n) => described(&label) + over(n),
        Outcome::Nth(found) => {
            let text = q.texts()[0].as_slice();
            let by = q.verb.fields().1.unwrap_or(Form::Versioning);
            let label = super::read(by, text, &OURS).map_or(String::new(), |l| described(&l));
            format!("{label}: {}", if found.is_some() { "a number" } else { "absent" })
        }
        Outcome::Order((order, why)) => format!("{}: {why}: {order:?}", forms(q)),
        Outcome::Equal((is, why)) | Outcome::Fits((is, why)) => {
            format!("{}: {why}: {is}", forms(q))
        }
        Outcome::Rule(rule) | Outcome::RuleFront(rule, _) => {
            let bound = rule.bound.as_ref().map_or("nothing", form);
            format!("{} and {bound}", rule.operator)
        }
        Outcome::Refused(r) => format!("refused {}, {}", r.number, r.layer),
        Outcome::Bad => "no command".to_string(),
    }
}
