//! An outcome as a child writes it.

use super::fits::Rule;
use super::orders::{last, Last};
use super::reading::{numeric, stretch, Label, Level, Sort, Text};
use super::{Outcome, Refusal};
use crate::question::Frame;
use std::io::Write;

/// A number as it is written, without leading zeros.
fn plain(digits: Text) -> Text {
    let zeros = stretch(digits, |b| b == b'0');
    &digits[zeros.min(digits.len() - 1)..]
}

fn list<T>(parts: &[T], out: &mut Vec<u8>, one: impl Fn(&T, &mut Vec<u8>)) {
    for (i, part) in parts.iter().enumerate() {
        out.extend(if i > 0 { b"," as Text } else { b"" });
        one(part, out);
    }
}

fn fields(parts: &[Text], out: &mut Vec<u8>) {
    for (i, part) in parts.iter().enumerate() {
        out.extend(if i > 0 { b":" as Text } else { b"" });
        out.extend(*part);
    }
}

fn say_chunk(chunk: &Text, out: &mut Vec<u8>) {
    fields(&[if numeric(chunk) { b"N" } else { b"A" }, chunk], out);
}

fn say_last(chunk: Text, out: &mut Vec<u8>) {
    match last(chunk) {
        Last::Marked(n, letters, Some(m)) => fields(&[b"R", n, letters, m], out),
        Last::Marked(n, letters, None) => fields(&[b"P", n, letters], out),
        Last::Numeric(_) | Last::Alphanum(_) => say_chunk(&chunk, out),
    }
}

/// What may be absent behind the chunks.
fn say_tail(release: &[Text], meta: Text, out: &mut Vec<u8>) {
    list(release, out, say_chunk);
    out.extend(if release.is_empty() { b"_;" as Text } else { b";" });
    out.extend(if meta.is_empty() { b"_" } else { meta });
}

fn say_levels(levels: &[Level], out: &mut Vec<u8>) {
    out.extend(b"mess");
    for (i, level) in levels.iter().enumerate() {
        if i > 0 {
            out.extend([b';', level.sign]);
        }
        out.push(b';');
        list(&level.chunks, out, |c, out| match c.sort {
            Sort::Digits => fields(&[b"D", plain(c.text), c.text], out),
            Sort::Rev => fields(&[b"R", plain(&c.text[1..]), c.text], out),
            Sort::Plain => fields(&[b"P", c.text], out),
        });
    }
}

fn say_parts(label: &Label, out: &mut Vec<u8>) {
    match label {
        Label::Ideal(v) => {
            out.extend(b"semver;");
            for n in v.core {
                out.extend(n);
                out.push(b';');
            }
            say_tail(&v.release, v.meta, out);
        }
        Label::General(v) => {
            out.extend(b"version;");
            out.extend(v.epoch.unwrap_or(b"_"));
            out.push(b';');
            if let [chunks @ .., last] = v.chunks.as_slice() {
                list(chunks, out, say_chunk);
                out.push(b';');
                say_last(last, out);
            }
            out.push(b';');
            say_tail(&v.release, v.meta, out);
        }
        Label::Complex(levels) => say_levels(levels, out),
    }
}

fn say_rule(rule: &Rule, out: &mut Vec<u8>) {
    out.extend(rule.operator.as_bytes());
    out.push(b' ');
    match &rule.bound {
        Some(bound) => say_parts(bound, out),
        None => out.push(b'_'),
    }
}

fn say_refusal(r: &Refusal, out: &mut Vec<u8>) -> std::io::Result<()> {
    write!(out, "refused {} at {} layer {}", r.number, r.place, r.layer)?;
    match r.holds {
        Some((number, place)) => write!(out, " holds ({number} at {place} layer label)"),
        None => Ok(()),
    }
}

/// Appends the answer. `probe` says what sort of answer it is, the others do not.
pub fn say(outcome: &Outcome, frame: Frame, out: &mut Vec<u8>) {
    let ours = frame == Frame::Probe;
    let mut word = |word: &str| out.extend(if ours { word.as_bytes() } else { b"" });
    match outcome {
        Outcome::Front(..) | Outcome::RuleFront(..) => word("read "),
        Outcome::Nth(_) => word("nth "),
        Outcome::Order(_) => word("order "),
        Outcome::Equal(_) => word("equal "),
        Outcome::Rule(_) => word("rule "),
        Outcome::Fits(_) => word("fits "),
        _ => (),
    }
    // Writing to a Vec does not fail.
    let _ = match outcome {
        Outcome::Whole(label) => Ok(say_parts(label, out)),
        Outcome::Front(label, n) => write!(out, "{n} ").map(|()| say_parts(label, out)),
        Outcome::Nth(Some(n)) => Ok(out.extend(plain(n))),
        Outcome::Nth(None) => write!(out, "absent"),
        Outcome::Order((o, _)) => write!(out, "{o:?}"),
        Outcome::Equal((is, _)) | Outcome::Fits((is, _)) => write!(out, "{is}"),
        Outcome::Rule(rule) => Ok(say_rule(rule, out)),
        Outcome::RuleFront(rule, n) => {
            let word = if ours { "rule " } else { "" };
            write!(out, "{n} {word}").map(|()| say_rule(rule, out))
        }
        Outcome::Refused(r) if ours => say_refusal(r, out),
        Outcome::Refused(_) => write!(out, "none"),
        Outcome::Bad => write!(out, "bad command"),
    };
}
