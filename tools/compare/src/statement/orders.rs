//! The orders of parts, and of labels of one form.

use super::reading::{
    by_number, digit, letter, number, numeric, stretch, within, General, Ideal, Level, MChunk,
    Sort, Text, LIMIT,
};
use super::Rules;
use std::cmp::Ordering::{self, Equal, Greater, Less};

/// An answer, and the branch of the rule that gives it.
pub type Decided = (Ordering, &'static str);

/// The first of these if it is not a tie, else the second.
pub fn or_else(first: Decided, second: impl FnOnce() -> Decided) -> Decided {
    match first {
        (Equal, _) => second(),
        decided => decided,
    }
}

/// The first unequal pair decides, else the longer is Greater.
fn lists<T>(a: &[T], b: &[T], order: impl Fn(&T, &T) -> Decided) -> Decided {
    let unequal = a.iter().zip(b).map(|(x, y)| order(x, y)).find(|(o, _)| o.is_ne());
    unequal.unwrap_or((a.len().cmp(&b.len()), "the longer list"))
}

fn by_semver(a: Text, b: Text, rules: &Rules) -> Decided {
    let float = |t: Text| String::from_utf8_lossy(t).parse().unwrap_or(f64::NAN);
    match (numeric(a), numeric(b)) {
        (true, true) if rules.floating => (float(a).total_cmp(&float(b)), "numbers as npm's"),
        (true, true) => (by_number(a, b), "release chunks: two Numerics"),
        (true, false) => (Less, "release chunks: Numeric below Alphanum"),
        (false, true) => (Greater, "release chunks: Numeric below Alphanum"),
        (false, false) => (a.cmp(b), "release chunks: two Alphanums"),
    }
}

/// Two Releases. npm takes two numbers that come out the same for a tie of all.
fn by_release(a: &[Text], b: &[Text], rules: &Rules) -> Decided {
    match a.iter().zip(b).find(|(x, y)| x != y) {
        Some((x, y)) if rules.floating => by_semver(x, y, rules),
        _ => lists(a, b, |x, y| by_semver(x, y, rules)),
    }
}

/// The lenient number of a text, in digits.
pub fn lenient<'a>(text: Text<'a>, rules: &Rules) -> Option<Text<'a>> {
    let n = match text {
        [b'0', ..] if rules.zero_ends => 1,
        _ => stretch(text, digit),
    };
    (n > 0 && within(&text[..n], LIMIT)).then_some(&text[..n])
}

/// A Numeric against an Alphanum.
fn number_meets(n: Text, text: Text, rules: &Rules) -> Decided {
    match lenient(text, rules) {
        None => (Greater, "chunks: a Numeric above an Alphanum without a lenient number"),
        Some(m) if by_number(n, m).is_eq() => (Greater, "chunks: a Numeric on a lenient tie"),
        Some(m) => (by_number(n, m), "chunks: a Numeric against a lenient number"),
    }
}

pub fn by_lenient(a: Text, b: Text, rules: &Rules) -> Decided {
    match (numeric(a), numeric(b)) {
        (true, true) => (by_number(a, b), "chunks: two Numerics"),
        (true, false) => number_meets(a, b, rules),
        (false, true) => reverse(number_meets(b, a, rules)),
        (false, false) => {
            let same_letter = a[0] == b[0] && letter(a[0]);
            let at = usize::from(same_letter);
            match (lenient(&a[at..], rules), lenient(&b[at..], rules)) {
                (Some(m), Some(n)) if same_letter => {
                    (by_number(m, n), "chunks: lenient numbers behind the same letter")
                }
                (Some(m), Some(n)) => (by_number(m, n), "chunks: two lenient numbers"),
                _ => (a.cmp(b), "chunks: two Alphanums by text"),
            }
        }
    }
}

pub fn reverse((order, why): Decided) -> Decided {
    (order.reverse(), why)
}

/// A chunk made a Last.
#[derive(Clone, Copy)]
pub enum Last<'a> {
    Numeric(Text<'a>),
    /// A number and letters: an Rc with a second number behind them, a Post without.
    Marked(Text<'a>, Text<'a>, Option<Text<'a>>),
    Alphanum(Text<'a>),
}

pub fn last(chunk: Text) -> Last {
    if numeric(chunk) {
        return Last::Numeric(chunk);
    }
    let (first, rest) = chunk.split_at(number(chunk, Some(LIMIT)).unwrap_or(0));
    let (letters, second) = rest.split_at(stretch(rest, letter));
    let is_number = number(second, Some(LIMIT)) == Some(second.len());
    match (first.is_empty() || letters.is_empty(), second.is_empty()) {
        (false, true) => Last::Marked(first, letters, None),
        (false, false) if is_number => Last::Marked(first, letters, Some(second)),
        _ => Last::Alphanum(chunk),
    }
}

fn by_last(a: Last, b: Last) -> Decided {
    match (a, b) {
        (Last::Alphanum(s), Last::Alphanum(t)) => (s.cmp(t), "Lasts: two Alphanums"),
        (Last::Alphanum(_), _) => (Less, "Lasts: an Alphanum below the others"),
        (_, Last::Alphanum(_)) => (Greater, "Lasts: an Alphanum below the others"),
        (Last::Numeric(m), Last::Numeric(n)) => (by_number(m, n), "Lasts: two Numerics"),
        (Last::Numeric(m), Last::Marked(n, ..)) => {
            (by_number(m, n).then(Greater), "Lasts: a Numeric against an Rc or Post")
        }
        (Last::Marked(..), Last::Numeric(_)) => reverse(by_last(b, a)),
        (Last::Marked(m, s, x), Last::Marked(n, t, y)) => {
            let letters = by_number(m, n).then(s.cmp(t));
            match (x, y) {
                (Some(x), Some(y)) => (letters.then(by_number(x, y)), "Lasts: two Rcs"),
                (None, None) => (letters, "Lasts: two Posts"),
                _ => (letters, "Lasts: an Rc against a Post"),
            }
        }
    }
}

pub fn two_ideals(a: &Ideal, b: &Ideal, rules: &Rules) -> Decided {
    let numbers = lists(&a.core, &b.core, |x, y| (by_number(x, y), "major, minor, patch"));
    let release = a.release.is_empty().cmp(&b.release.is_empty());
    or_else(or_else(numbers, || (release, "one without a Release")), || {
        by_release(&a.release, &b.release, rules)
    })
}

/// Two Generals of one epoch, the first with no fewer chunks.
fn longer_first(a: &General, b: &General, rules: &Rules) -> Decided {
    let n = b.chunks.len() - 1;
    let chunks = lists(&a.chunks[..n], &b.chunks[..n], |x, y| by_lenient(x, y, rules));
    let lasts = || by_last(last(a.chunks[n]), last(b.chunks[n]));
    or_else(or_else(chunks, lasts), || match a.chunks.len() - b.chunks.len() {
        0 => by_release(&a.release, &b.release, rules),
        _ => (Greater, "the one with more chunks"),
    })
}

pub fn two_generals(a: &General, b: &General, rules: &Rules) -> Decided {
    let zero: Text = b"0";
    let epochs = by_number(a.epoch.unwrap_or(zero), b.epoch.unwrap_or(zero));
    or_else((epochs, "epochs"), || match a.chunks.len() >= b.chunks.len() {
        true => longer_first(a, b, rules),
        false => reverse(longer_first(b, a, rules)),
    })
}

fn by_mchunk(a: &MChunk, b: &MChunk) -> Decided {
    match (a.sort, b.sort) {
        (Sort::Digits, Sort::Digits) => (by_number(a.text, b.text), "MChunks: two Digits"),
        (Sort::Rev, Sort::Rev) => (by_number(&a.text[1..], &b.text[1..]), "MChunks: two Revs"),
        (Sort::Digits, Sort::Rev) => (Greater, "MChunks: Digits above Rev"),
        (Sort::Rev, Sort::Digits) => (Less, "MChunks: Digits above Rev"),
        _ => (a.text.cmp(b.text), "MChunks: by text"),
    }
}

pub fn two_complexes(a: &[Level], b: &[Level]) -> Decided {
    lists(a, b, |x, y| lists(&x.chunks, &y.chunks, by_mchunk))
}
