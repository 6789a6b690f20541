//! The reading of each form: what stands at the front of a text.

use super::Rules;
use crate::question::Form;
use std::cmp::Ordering;

/// The greatest number, in digits.
pub const LIMIT: &str = "4294967295";

/// A text, or a chunk: it is Numeric if it has digits only, else Alphanum.
pub type Text<'a> = &'a [u8];

pub struct Ideal<'a> {
    pub core: [Text<'a>; 3],
    /// Empty where there is no Release.
    pub release: Vec<Text<'a>>,
    /// Empty where there is no metadata.
    pub meta: Text<'a>,
}

pub struct General<'a> {
    pub epoch: Option<Text<'a>>,
    /// The chunks, with the Last's own at the end.
    pub chunks: Vec<Text<'a>>,
    pub release: Vec<Text<'a>>,
    pub meta: Text<'a>,
}

#[derive(Clone, Copy, PartialEq)]
pub enum Sort {
    Digits,
    Rev,
    Plain,
}

#[derive(Clone, Copy)]
pub struct MChunk<'a> {
    pub sort: Sort,
    pub text: Text<'a>,
}

pub struct Level<'a> {
    /// The sign in front; that of the first level means nothing.
    pub sign: u8,
    pub chunks: Vec<MChunk<'a>>,
}

pub enum Label<'a> {
    Ideal(Ideal<'a>),
    General(General<'a>),
    Complex(Vec<Level<'a>>),
}

pub fn digit(b: u8) -> bool {
    b.is_ascii_digit()
}

pub fn letter(b: u8) -> bool {
    b.is_ascii_alphabetic()
}

pub fn numeric(chunk: Text) -> bool {
    chunk.iter().all(|b| digit(*b))
}

/// How long the longest stretch of a class at the front is.
pub fn stretch(text: Text, class: impl Fn(u8) -> bool) -> usize {
    text.iter().take_while(|b| class(**b)).count()
}

/// Numbers by their digits: behind leading zeros, more digits are more.
pub fn by_number(a: Text, b: Text) -> Ordering {
    let plain = |t| &t[stretch(t, |b| b == b'0')..];
    let (a, b): (Text, Text) = (plain(a), plain(b));
    a.len().cmp(&b.len()).then_with(|| a.cmp(b))
}

pub fn within(digits: Text, most: &str) -> bool {
    by_number(digits, most.as_bytes()).is_le()
}

/// How long the number at the front is.
pub fn number(text: Text, most: Option<&str>) -> Option<usize> {
    if text.first() == Some(&b'0') {
        return Some(1);
    }
    let n = stretch(text, digit);
    (n > 0 && most.is_none_or(|m| within(&text[..n], m))).then_some(n)
}

/// How long a chunk is: the longest stretch of its class if it is no digits, else the number.
fn chunk(text: Text, class: fn(u8) -> bool, most: Option<&str>) -> Option<usize> {
    let n = stretch(text, class);
    if numeric(&text[..n]) {
        number(text, most)
    } else {
        Some(n)
    }
}

fn in_run(b: u8) -> bool {
    letter(b) || digit(b)
}

fn in_release(b: u8) -> bool {
    in_run(b) || b == b'-'
}

/// Parts joined by dots, and how long they are in all; a dot without a part
/// behind it is not read.
fn joined<'a>(text: Text<'a>, part: impl Fn(Text) -> Option<usize>) -> (Vec<Text<'a>>, usize) {
    let (mut parts, mut end, mut at) = (Vec::new(), 0, 0);
    while let Some(n) = text.get(at..).and_then(&part) {
        parts.push(&text[at..at + n]);
        end = at + n;
        if text.get(end) != Some(&b'.') {
            break;
        }
        at = end + 1;
    }
    (parts, end)
}

/// The same behind a sign; nothing where there is no part.
fn behind<'a>(
    sign: u8,
    text: Text<'a>,
    part: impl Fn(Text) -> Option<usize>,
) -> (Vec<Text<'a>>, usize) {
    match text.split_first() {
        Some((first, rest)) if *first == sign => {
            let (parts, n) = joined(rest, part);
            let read = if parts.is_empty() { 0 } else { 1 + n };
            (parts, read)
        }
        _ => (Vec::new(), 0),
    }
}

/// Perhaps a Release, then perhaps metadata, from a place on; and where they end.
fn tail<'a>(text: Text<'a>, at: usize, rules: &Rules) -> (Vec<Text<'a>>, Text<'a>, usize) {
    let (release, n) = behind(b'-', &text[at..], |t| chunk(t, in_release, rules.release));
    let at = at + n;
    let (_, n) = behind(b'+', &text[at..], |t| {
        let n = stretch(t, |b| in_release(b) || rules.loose_metadata && b == b'.');
        (n > 0).then_some(n)
    });
    (release, &text[at + n.min(1)..at + n], at + n)
}

fn ideal<'a>(text: Text<'a>, rules: &Rules) -> Option<(Label<'a>, usize)> {
    let mut core = [&text[..0]; 3];
    let mut at = 0;
    for (i, part) in core.iter_mut().enumerate() {
        if i > 0 {
            (text.get(at) == Some(&b'.')).then_some(())?;
            at += 1;
        }
        let n = number(&text[at..], Some(rules.core))?;
        *part = &text[at..at + n];
        at += n;
    }
    let (release, meta, end) = tail(text, at, rules);
    Some((Label::Ideal(Ideal { core, release, meta }), end))
}

fn general<'a>(text: Text<'a>, rules: &Rules) -> Option<(Label<'a>, usize)> {
    let epoch = number(text, Some(LIMIT)).filter(|n| text.get(*n) == Some(&b':'));
    let at = epoch.map_or(0, |n| n + 1);
    let (chunks, n) = joined(&text[at..], |t| chunk(t, in_run, Some(LIMIT)));
    if chunks.is_empty() {
        return None;
    }
    let (release, meta, end) = tail(text, at + n, rules);
    let epoch = epoch.map(|n| &text[..n]);
    Some((Label::General(General { epoch, chunks, release, meta }), end))
}

/// What sort of MChunk a run is, by itself and the byte behind it.
fn sort(run: Text, behind: Option<&u8>) -> Sort {
    let is_number = |t: Text| !t.is_empty() && numeric(t) && within(t, LIMIT);
    match run {
        _ if behind.is_some_and(|b| !b".:-+_~".contains(b)) => Sort::Plain,
        _ if is_number(run) => Sort::Digits,
        [b'r', rest @ ..] if is_number(rest) => Sort::Rev,
        _ => Sort::Plain,
    }
}

/// The MChunks joined by dots at a place, and where they end.
fn level<'a>(text: Text<'a>, at: usize) -> (Vec<MChunk<'a>>, usize) {
    let run = |t: Text| Some(stretch(t, in_run)).filter(|n| *n > 0);
    let (runs, n) = joined(&text[at..], run);
    let mut behind = at;
    let mchunk = |run: Text<'a>| {
        behind += run.len() + 1;
        MChunk { sort: sort(run, text.get(behind - 1)), text: run }
    };
    (runs.into_iter().map(mchunk).collect(), at + n)
}

/// Level by level; a sign without a level behind it is not read.
fn complex<'a>(text: Text<'a>, _: &Rules) -> Option<(Label<'a>, usize)> {
    let (chunks, mut end) = level(text, 0);
    if chunks.is_empty() {
        return None;
    }
    let mut levels = vec![Level { sign: 0, chunks }];
    while let Some(&sign) = text.get(end).filter(|b| b":-+_~".contains(b)) {
        let (chunks, at) = level(text, end + 1);
        if chunks.is_empty() {
            break;
        }
        levels.push(Level { sign, chunks });
        end = at;
    }
    Some((Label::Complex(levels), end))
}

/// A label at the front of a text, and its length.
type Reader = for<'a> fn(Text<'a>, &Rules) -> Option<(Label<'a>, usize)>;

/// What a form tries, in turn.
fn readers(form: Form) -> &'static [Reader] {
    match form {
        Form::Semver => &[ideal],
        Form::Version => &[general],
        Form::Mess => &[complex],
        Form::Versioning => &[ideal, general, complex],
    }
}

/// The first reading of the front that succeeds.
pub fn parse<'a>(form: Form, text: Text<'a>, rules: &Rules) -> Option<(Label<'a>, usize)> {
    readers(form).iter().find_map(|read| read(text, rules))
}

/// The first reading that leaves nothing over; else the most bytes that one read.
pub fn whole<'a>(form: Form, text: Text<'a>, rules: &Rules) -> Result<Label<'a>, usize> {
    let mut most = 0;
    for read in readers(form) {
        match read(text, rules) {
            Some((label, n)) if n == text.len() => return Ok(label),
            Some((_, n)) => most = most.max(n),
            None => (),
        }
    }
    Err(most)
}
