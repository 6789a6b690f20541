//! A second statement of the rules: what the right answer to a question is.
//!
//! Written from the rules and independent of the code under test: it goes over
//! slices, and a number stays the digits that write it, so that there is no
//! arithmetic and no limit but the one that is asked for.

mod branch;
mod fits;
mod mixed;
mod orders;
mod reading;
mod say;

use crate::question::{Form, Question, Verb, LONGEST};
pub use branch::branch;
use fits::{equal, fits, Fits, Named, Rule};
use mixed::{converted, nth, order};
use orders::Decided;
use reading::{parse, whole, Label, Text, LIMIT};
pub use say::say;

/// The rules that one reader follows. `OURS` are the right ones.
#[derive(Clone, Copy)]
pub struct Rules {
    /// Metadata is any stretch of letters, digits, hyphens and dots.
    pub loose_metadata: bool,
    /// A text is read whatever its length.
    pub any_length: bool,
    /// The lenient number ends behind a leading 0.
    pub zero_ends: bool,
    /// Tilde and caret of Generals leave the Last out.
    pub without_last: bool,
    /// Caret of Generals asks nothing of the label at a leading 0 of the rule.
    pub zeros_passed: bool,
    /// An Rc or Post that ties with an Ideal without a Release is Equal to it.
    pub marked_ties: bool,
    /// An Ideal's patch meets a chunk of the first level, where a colon follows it too.
    pub early_patch: bool,
    /// A General's epoch meets the first number behind the colon of a Complex,
    /// and is kept on a tie.
    pub late_epoch: bool,
    /// The greatest major, minor and patch, in digits.
    pub core: &'static str,
    /// The greatest number in a Release; `None` is without limit.
    pub release: Option<&'static str>,
    /// Numbers in a Release compare as floating-point numbers.
    pub floating: bool,
}

pub const OURS: Rules = Rules {
    loose_metadata: false,
    any_length: false,
    zero_ends: false,
    without_last: false,
    zeros_passed: false,
    marked_ties: false,
    early_patch: false,
    late_epoch: false,
    core: LIMIT,
    release: Some(LIMIT),
    floating: false,
};

/// Number and place of a label's fault.
type Held = (u8, usize);

pub struct Refusal {
    number: u8,
    place: usize,
    layer: &'static str,
    holds: Option<Held>,
}

pub enum Outcome<'a> {
    Whole(Label<'a>),
    /// A label at the front, and its length.
    Front(Label<'a>, usize),
    Nth(Option<Text<'a>>),
    Order(Decided),
    Equal(Fits),
    Rule(Rule<'a>),
    RuleFront(Rule<'a>, usize),
    Fits(Fits),
    Refused(Refusal),
    Bad,
}

fn check_length(text: Text, rules: &Rules) -> Result<(), Held> {
    match text.len() {
        0 => Err((1, 0)),
        n if n > LONGEST && !rules.any_length => Err((2, LONGEST)),
        _ => Ok(()),
    }
}

fn refused((number, place): Held) -> Refusal {
    Refusal { number, place, layer: "label", holds: None }
}

/// The label of a whole text.
fn read<'a>(form: Form, text: Text<'a>, rules: &Rules) -> Result<Label<'a>, Refusal> {
    check_length(text, rules).map_err(refused)?;
    whole(form, text, rules).map_err(|read| refused((3, read)))
}

fn front<'a>(form: Form, text: Text<'a>, rules: &Rules) -> Result<Outcome<'a>, Refusal> {
    check_length(text, rules).map_err(refused)?;
    let (label, n) = parse(form, text, rules).ok_or(refused((3, 0)))?;
    Ok(Outcome::Front(label, n))
}

fn fitting<'a>(text: Text<'a>, line: Text<'a>, rules: &Rules) -> Result<Outcome<'a>, Refusal> {
    let label = Named { label: read(Form::Versioning, text, rules)?, text };
    let Rule { operator, bound } = fits::whole(line, rules)?;
    let Some(bound) = bound else { return Ok(Outcome::Fits((true, "the star"))) };
    let bound = Named { label: bound, text: &line[operator.len()..] };
    Ok(Outcome::Fits(fits(&label, operator, &bound, rules)))
}

fn answer<'a>(q: &'a Question, rules: &Rules) -> Result<Outcome<'a>, Refusal> {
    let text = |i: usize| q.texts()[i].as_slice();
    let label = |form: Form, i: usize| read(form, text(i), rules);
    Ok(match q.verb {
        Verb::New(form) => Outcome::Whole(label(form, 0)?),
        Verb::Parse(form) => front(form, text(0), rules)?,
        Verb::Nth(n) => Outcome::Nth(nth(&label(Form::Versioning, 0)?, n)),
        Verb::Nthf(form, n) => Outcome::Nth(nth(&label(form, 0)?, n)),
        Verb::Cmp => {
            let form = Form::Versioning;
            Outcome::Order(order(&label(form, 0)?, &label(form, 1)?, rules))
        }
        Verb::Cmpf(form) => Outcome::Order(order(&label(form, 0)?, &label(form, 1)?, rules)),
        Verb::Eq => {
            let a = Named { label: label(Form::Versioning, 0)?, text: text(0) };
            let b = Named { label: label(Form::Versioning, 1)?, text: text(1) };
            Outcome::Equal(equal(&a, &b))
        }
        Verb::Tomess(form) => Outcome::Whole(Label::Complex(converted(label(form, 0)?))),
        Verb::Req => Outcome::Rule(fits::whole(text(0), rules)?),
        Verb::Reqparse => {
            let (rule, n) = fits::front(text(0), rules)?;
            Outcome::RuleFront(rule, n)
        }
        Verb::Reqfits => fitting(text(0), text(1), rules)?,
        Verb::Raw(_) => Outcome::Bad,
    })
}

/// What a reader by these rules answers.
pub fn outcome<'a>(q: &'a Question, rules: &Rules) -> Outcome<'a> {
    answer(q, rules).unwrap_or_else(Outcome::Refused)
}
