//! Labels of two forms: `nth`, conversions and comparisons.

use super::orders::{
    last, lenient, or_else, reverse, two_complexes, two_generals, two_ideals, Decided, Last,
};
use super::reading::{by_number, numeric, General, Ideal, Label, Level, MChunk, Sort, Text};
use super::Rules;
use std::cmp::Ordering::{Equal, Greater, Less};

fn general_nth<'a>(v: &General<'a>, n: usize) -> Option<Text<'a>> {
    let chunk: Text = v.chunks.get(n)?;
    match last(chunk) {
        Last::Numeric(_) => Some(chunk),
        Last::Marked(first, ..) if n + 1 == v.chunks.len() => Some(first),
        _ => None,
    }
}

/// The level that `nth` looks into: the first that no colon follows.
fn looked_into<'a, 'b>(levels: &'b [Level<'a>]) -> &'b Level<'a> {
    let colons = levels.iter().skip(1).take_while(|l| l.sign == b':').count();
    &levels[colons]
}

fn complex_nth<'a>(levels: &[Level<'a>], n: usize) -> Option<Text<'a>> {
    let chunk = looked_into(levels).chunks.get(n)?;
    (chunk.sort == Sort::Digits).then_some(chunk.text)
}

/// The number at a position, in digits.
pub fn nth<'a>(label: &Label<'a>, n: u128) -> Option<Text<'a>> {
    let n = usize::try_from(n).ok()?;
    match label {
        Label::Ideal(v) => v.core.get(n).copied(),
        Label::General(v) => general_nth(v, n),
        Label::Complex(levels) => complex_nth(levels, n),
    }
}

/// Chunks as a level behind a sign; nothing where there is none.
fn level<'a>(sign: u8, chunks: &[Text<'a>]) -> Option<Level<'a>> {
    let mchunk = |text: &Text<'a>| {
        let sort = if numeric(text) { Sort::Digits } else { Sort::Plain };
        MChunk { sort, text }
    };
    let chunks: Vec<_> = chunks.iter().map(mchunk).collect();
    (!chunks.is_empty()).then_some(Level { sign, chunks })
}

fn ideal_converted<'a>(v: &Ideal<'a>) -> Vec<Level<'a>> {
    let meta = MChunk { sort: Sort::Plain, text: v.meta };
    let meta = (!v.meta.is_empty()).then_some(Level { sign: b'+', chunks: vec![meta] });
    let levels = [level(0, &v.core), level(b'-', &v.release), meta];
    levels.into_iter().flatten().collect()
}

/// A General's metadata is left behind.
fn general_converted<'a>(v: &General<'a>, epoch: Option<Text<'a>>) -> Vec<Level<'a>> {
    let epoch = epoch.and_then(|e| level(0, &[e]));
    let levels = [epoch, level(b':', &v.chunks), level(b'-', &v.release)];
    levels.into_iter().flatten().collect()
}

pub fn converted(label: Label) -> Vec<Level> {
    match label {
        Label::Ideal(v) => ideal_converted(&v),
        Label::General(v) => general_converted(&v, v.epoch),
        Label::Complex(levels) => levels,
    }
}

fn above_zero(epoch: &Text) -> bool {
    by_number(epoch, b"0").is_gt()
}

fn ideal_general(a: &Ideal, b: &General, rules: &Rules) -> Decided {
    if b.epoch.is_some_and(|e| above_zero(&e)) {
        return (Less, "an epoch above 0");
    }
    for (i, part) in a.core.iter().enumerate() {
        let Some(n) = general_nth(b, i) else { return (Greater, "an absent number") };
        match by_number(part, n) {
            Equal => (),
            unequal => return (unequal, "a number"),
        }
    }
    // The Last's own chunk is one of these.
    let own = last(b.chunks[b.chunks.len() - 1]);
    match (b.chunks.len(), own) {
        (3, Last::Marked(..)) if a.release.is_empty() && !rules.marked_ties => {
            (Greater, "a tie, two chunks, an Rc or Post, no Release")
        }
        (3, _) => (Equal, "a tie, two chunks"),
        (4, Last::Alphanum(_)) => (Greater, "a tie, three chunks, an Alphanum"),
        (4, _) => (Less, "a tie, three chunks"),
        _ if numeric(b.chunks[3]) => (Less, "a tie, the fourth chunk Numeric"),
        _ => (Greater, "a tie, the fourth chunk Alphanum"),
    }
}

/// The lenient number of the MChunk at the patch's position.
fn lenient_patch<'a>(b: &[Level<'a>], rules: &Rules) -> Option<Text<'a>> {
    if !rules.early_patch {
        return lenient(looked_into(b).chunks.get(2)?.text, rules);
    }
    // A chunk is read there: digits with a leading zero are none.
    let text = b[0].chunks.get(2)?.text;
    let is_chunk = !numeric(text) || text == b"0" || text[0] != b'0';
    lenient(text, rules).filter(|_| is_chunk)
}

fn ideal_complex(a: &Ideal, b: &[Level], rules: &Rules) -> Decided {
    let as_complexes = || two_complexes(&ideal_converted(a), b);
    for (i, part) in a.core.iter().enumerate() {
        let met = complex_nth(b, i).map(|n| by_number(part, n));
        match (met, lenient_patch(b, rules)) {
            (Some(Equal), _) => (),
            (Some(unequal), _) => return (unequal, "a number"),
            (None, Some(n)) if i == 2 => {
                return or_else((by_number(part, n), "a lenient patch"), || {
                    (Greater, "a tie with a lenient patch")
                })
            }
            (None, _) => return as_complexes(),
        }
    }
    as_complexes()
}

/// A General with this epoch against levels, the epochs being settled.
fn settled(a: &General, epoch: Option<Text>, b: &[Level]) -> Decided {
    for n in 0.. {
        let Some((x, y)) = general_nth(a, n).zip(complex_nth(b, n)) else { break };
        match by_number(x, y) {
            Equal => (),
            unequal => return (unequal, "a number"),
        }
    }
    two_complexes(&general_converted(a, epoch), b)
}

fn general_complex(a: &General, b: &[Level], rules: &Rules) -> Decided {
    let Some(epoch) = a.epoch.filter(above_zero) else {
        return settled(a, a.epoch, b);
    };
    let (first, rest) = (&b[0].chunks, &b[1..]);
    let colon = rest.first().is_some_and(|l| l.sign == b':');
    let number = match first.as_slice() {
        [_] if colon && rules.late_epoch => complex_nth(b, 0),
        [only] if colon && only.sort == Sort::Digits => Some(only.text),
        _ => None,
    };
    let Some(number) = number else { return (Greater, "an epoch above 0 meets none") };
    let kept = a.epoch.filter(|_| rules.late_epoch);
    or_else((by_number(epoch, number), "two epochs"), || settled(a, kept, rest))
}

/// A mixed pair in the other order gives the reverse.
pub fn order(a: &Label, b: &Label, rules: &Rules) -> Decided {
    match (a, b) {
        (Label::Ideal(a), Label::Ideal(b)) => two_ideals(a, b, rules),
        (Label::General(a), Label::General(b)) => two_generals(a, b, rules),
        (Label::Complex(a), Label::Complex(b)) => two_complexes(a, b),
        (Label::Ideal(a), Label::General(b)) => ideal_general(a, b, rules),
        (Label::Ideal(a), Label::Complex(b)) => ideal_complex(a, b, rules),
        (Label::General(a), Label::Complex(b)) => general_complex(a, b, rules),
        _ => reverse(order(b, a, rules)),
    }
}
