//! Questions by chance, and the whole series.

use crate::draft::{damage, fit, noise, twin, Draft};
use crate::fixed::fixed;
use crate::parts::Text;
use crate::question::{Form, Question, Verb, FORMS};
use crate::random::Random;

/// The longest text of `probe`'s protocol.
const LONGEST: usize = 70_000;

/// Operators, and what is none.
#[rustfmt::skip]
const OPERATORS: [&str; 24] = [
    "=", ">=", ">", "<=", "<", "~", "~", "^", "^", "^", "~", "=", ">", "<", "*", "", "==", "=>",
    "=<", "~>", "!=", " =", ">==", "v",
];

fn length(r: &mut Random) -> usize {
    match r.below(1500) {
        0 => r.pick(&[1000, 65_535, 65_536, LONGEST]),
        1..=200 => r.below(140),
        201..=250 => 129 + r.below(200),
        _ => 126 + r.below(5),
    }
}

fn text(r: &mut Random) -> Text {
    let mut t = match r.below(16) {
        0 => noise(r),
        1 => Draft::crowded(r).text(),
        2..=4 => Draft::any(r, true).text(),
        _ => Draft::any(r, false).text(),
    };
    if r.once_in(8) {
        fit(&mut t, length(r), r);
    }
    if r.once_in(4) {
        for _ in 0..r.pick(&[1, 1, 1, 2, 3]) {
            damage(&mut t, r);
        }
    }
    t.truncate(LONGEST);
    t
}

/// Two texts, mostly relatives of each other; Ideals only if it is said.
fn pair(r: &mut Random, ideals: bool) -> (Text, Text) {
    let wild = r.once_in(10);
    let a = match r.below(16) {
        0 => Draft::crowded(r),
        _ if ideals => Draft::ideal(r, wild),
        _ => Draft::any(r, wild),
    };
    let mut b = a.clone();
    for _ in 0..r.pick(&[0, 1, 1, 1, 1, 2, 2, 3]) {
        b = b.relative(r);
    }
    let (mut a, mut b) = (a.text(), b.text());
    match r.below(32) {
        0 | 1 => b = text(r),
        2 => {
            fit(&mut a, 120 + r.below(9), r);
            b = twin(&a, r);
        }
        3 => damage(&mut b, r),
        4 => fit(&mut b, length(r), r),
        5 => b = twin(&a, r),
        _ => (),
    }
    if r.below(2) == 0 {
        (b, a)
    } else {
        (a, b)
    }
}

/// A rule line with this bound, mostly.
fn line(bound: &[u8], r: &mut Random) -> Text {
    let mut t = [r.pick(&OPERATORS).as_bytes(), bound].concat();
    match r.below(40) {
        0 => t = b"*".to_vec(),
        1 => damage(&mut t, r),
        2 => fit(&mut t, length(r), r),
        3 if !t.is_empty() => drop(t.remove(0)),
        _ => (),
    }
    t.truncate(LONGEST);
    t
}

fn position(r: &mut Random) -> u128 {
    match r.below(32) {
        0 => r.pick(&[62, 63, 64, 65, 127, 128]),
        1 => u128::from(u64::MAX >> r.below(40)) + r.below(3) as u128,
        2 => u128::MAX,
        _ => r.below(5) as u128,
    }
}

fn about_one(r: &mut Random, form: Form) -> Question {
    let verb = match r.below(8) {
        0..=2 => Verb::New(form),
        3 | 4 => Verb::Parse(form),
        5 => Verb::Nthf(form, position(r)),
        6 => Verb::Nth(position(r)),
        _ => Verb::Tomess(form),
    };
    Question::one(verb, &text(r))
}

/// A question by chance.
fn chance(r: &mut Random) -> Question {
    let form = r.pick(&FORMS);
    match r.below(20) {
        0..=6 => about_one(r, form),
        7..=15 => {
            let (a, b) = pair(r, form == Form::Semver);
            let verb = r.pick(&[Verb::Cmp, Verb::Cmp, Verb::Cmp, Verb::Cmpf(form), Verb::Eq]);
            Question::two(if form == Form::Semver { Verb::Cmpf(form) } else { verb }, &a, &b)
        }
        16..=18 => {
            let (a, b) = pair(r, form == Form::Semver);
            Question::two(Verb::Reqfits, &a, &line(&b, r))
        }
        _ => {
            let bound = text(r);
            let verb = r.pick(&[Verb::Req, Verb::Reqparse]);
            Question::one(verb, &line(&bound, r))
        }
    }
}

/// The fixed series and chance in turn, then chance alone.
pub fn questions(seed: u64) -> impl Iterator<Item = Question> {
    let mut r = Random::new(seed);
    let mut fixed = fixed();
    let mut turn = false;
    std::iter::from_fn(move || {
        turn = !turn;
        let next = if turn { fixed.next() } else { None };
        Some(next.unwrap_or_else(|| chance(&mut r)))
    })
}
