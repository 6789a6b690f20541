//! Rule lines, equality, and whether a label fits a rule.

use super::mixed::order;
use super::orders::by_lenient;
use super::reading::{by_number, numeric, parse, stretch, General, Ideal, Label, Text};
use super::{check_length, Held, Refusal, Rules};
use crate::question::Form;
use std::cmp::Ordering;

/// The operators, in the order in which they are tried.
const OPERATORS: [&str; 8] = ["=", ">=", ">", "<=", "<", "~", "^", "*"];

pub struct Rule<'a> {
    pub operator: &'static str,
    /// The star has none.
    pub bound: Option<Label<'a>>,
}

fn refused(number: u8, place: usize, holds: Option<Held>) -> Refusal {
    Refusal { number, place, layer: "rule", holds }
}

/// The rule at the front of a line, and its length.
pub fn front<'a>(line: Text<'a>, rules: &Rules) -> Result<(Rule<'a>, usize), Refusal> {
    check_length(line, rules).map_err(|(number, place)| refused(number, place, None))?;
    let operator = OPERATORS.into_iter().find(|o| line.starts_with(o.as_bytes()));
    let operator = operator.ok_or(refused(4, 0, None))?;
    let n = operator.len();
    if operator == "*" {
        return Ok((Rule { operator, bound: None }, n));
    }
    let rest = &line[n..];
    let why = if rest.is_empty() { (1, 0) } else { (3, 0) };
    let bound = parse(Form::Versioning, rest, rules);
    let (bound, read) = bound.ok_or(refused(3, n, Some(why)))?;
    Ok((Rule { operator, bound: Some(bound) }, n + read))
}

pub fn whole<'a>(line: Text<'a>, rules: &Rules) -> Result<Rule<'a>, Refusal> {
    let (rule, n) = front(line, rules)?;
    if n < line.len() {
        return Err(refused(5, n, None));
    }
    Ok(rule)
}

/// Whether it is so, and the branch of the rule that says it.
pub type Fits = (bool, &'static str);

/// A label with its text.
pub struct Named<'a> {
    pub label: Label<'a>,
    pub text: Text<'a>,
}

fn before_plus(text: Text) -> Text {
    &text[..stretch(text, |b| b != b'+')]
}

/// Ideals agree before any plus sign, others in the whole text.
pub fn equal(a: &Named, b: &Named) -> Fits {
    match (&a.label, &b.label) {
        (Label::Ideal(_), Label::Ideal(_)) => {
            (before_plus(a.text) == before_plus(b.text), "before any plus sign")
        }
        (Label::General(_), Label::General(_)) => (a.text == b.text, "in the whole text"),
        (Label::Complex(_), Label::Complex(_)) => (a.text == b.text, "in the whole text"),
        _ => (false, "not the same form"),
    }
}

/// The chunks that tilde and caret go over: with the Last's own.
fn compared<'a, 'b>(v: &'b General<'a>, rules: &Rules) -> &'b [Text<'a>] {
    &v.chunks[..v.chunks.len() - usize::from(rules.without_last)]
}

fn general_tilde(rule: &General, label: &General, rules: &Rules) -> Fits {
    let ([a @ .., x], [b @ .., y]) = (compared(rule, rules), compared(label, rules)) else {
        return (false, "no chunk");
    };
    match (numeric(x), numeric(y)) {
        _ if a.len() != b.len() => (false, "more chunks or fewer"),
        _ if a != b => (false, "a chunk before the final ones"),
        (true, true) => (by_number(y, x).is_ge(), "two Numerics at the end"),
        (false, false) => (true, "two Alphanums at the end"),
        _ => (false, "a Numeric and an Alphanum at the end"),
    }
}

fn general_caret(rule: &General, label: &General, rules: &Rules) -> Fits {
    let (a, b) = (compared(rule, rules), compared(label, rules));
    let zeros = a.iter().take_while(|c| **c == b"0").count();
    for (i, (x, y)) in a.iter().zip(b).enumerate() {
        let (fits, why) = match i {
            _ if i < zeros => (rules.zeros_passed || x == y, "a leading 0"),
            _ if i == zeros => (x == y, "the first chunk that is not 0"),
            _ => (by_lenient(y, x, rules).0.is_ge(), "a chunk behind the first that is not 0"),
        };
        if !fits {
            return (false, why);
        }
    }
    (true, "every chunk that both have")
}

/// How the label's three numbers stand to the rule's.
fn numbers(rule: &Ideal, label: &Ideal) -> [Ordering; 3] {
    [0, 1, 2].map(|i| by_number(label.core[i], rule.core[i]))
}

fn ideal_tilde(rule: &Ideal, label: &Ideal) -> Fits {
    let [major, minor, patch] = numbers(rule, label);
    match (major.is_eq(), minor.is_eq()) {
        (false, _) => (false, "another major"),
        (_, false) => (false, "another minor"),
        _ => (patch.is_ge(), "the patch"),
    }
}

/// The first of the numbers that is not 0 in both agrees, and the rest is not lower.
fn ideal_caret(rule: &Ideal, label: &Ideal) -> Fits {
    let [major, minor, patch] = numbers(rule, label);
    let zero = |i: usize| [rule, label].iter().all(|v| v.core[i] == b"0");
    match (zero(0), zero(1)) {
        (true, true) => (patch.is_eq(), "the patch agrees"),
        (true, false) => (minor.is_eq() && patch.is_ge(), "the minor agrees"),
        (false, _) => (major.is_eq() && minor.then(patch).is_ge(), "the major agrees"),
    }
}

pub fn fits(label: &Named, operator: &str, bound: &Named, rules: &Rules) -> Fits {
    let ordered = |is: fn(Ordering) -> bool| {
        let (order, why) = order(&label.label, &bound.label, rules);
        (is(order), why)
    };
    match (operator, &bound.label, &label.label) {
        ("=", ..) => equal(label, bound),
        (">=", ..) => ordered(Ordering::is_ge),
        (">", ..) => ordered(Ordering::is_gt),
        ("<=", ..) => ordered(Ordering::is_le),
        ("<", ..) => ordered(Ordering::is_lt),
        ("~", Label::Ideal(a), Label::Ideal(b)) => ideal_tilde(a, b),
        ("~", Label::General(a), Label::General(b)) => general_tilde(a, b, rules),
        ("^", Label::Ideal(a), Label::Ideal(b)) => ideal_caret(a, b),
        ("^", Label::General(a), Label::General(b)) => general_caret(a, b, rules),
        _ => (false, "not two Ideals or two Generals"),
    }
}
