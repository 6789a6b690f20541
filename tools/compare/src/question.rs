//! A question, and the line that puts it to a child.

use std::ops::Range;

/// A form of labels; `Versioning` is the first of the others that reads.
#[derive(Clone, Copy, PartialEq)]
pub enum Form {
    Semver,
    Version,
    Mess,
    Versioning,
}

pub const FORMS: [Form; 4] = [Form::Semver, Form::Version, Form::Mess, Form::Versioning];

/// What is asked. A further question is a case here and in `statement::answer`.
#[derive(Clone, Copy, PartialEq)]
pub enum Verb {
    New(Form),
    Parse(Form),
    Nth(u128),
    Nthf(Form, u128),
    Cmp,
    Cmpf(Form),
    Eq,
    Tomess(Form),
    Req,
    Reqparse,
    Reqfits,
    /// A line that is no command; it goes to `probe` alone.
    Raw(&'static str),
}

/// The names of the commands.
#[rustfmt::skip]
pub const COMMANDS: [&str; 11] = [
    "new", "parse", "nth", "nthf", "cmp", "cmpf", "eq", "tomess", "req", "reqparse", "reqfits",
];

#[derive(Clone)]
pub struct Question {
    pub verb: Verb,
    texts: Vec<Vec<u8>>,
    /// All of the texts are UTF-8.
    utf8: bool,
}

/// How a child wants its questions and gives its answers.
#[derive(Clone, Copy, PartialEq)]
pub enum Frame {
    Probe,
    Rust,
    Peer,
}

/// The longest text that we take, and that the peers are asked about.
pub const LONGEST: usize = 128;

impl Form {
    pub fn name(self) -> &'static str {
        match self {
            Form::Semver => "semver",
            Form::Version => "version",
            Form::Mess => "mess",
            Form::Versioning => "versioning",
        }
    }
}

impl Verb {
    /// The command, its form, and its number.
    pub fn fields(self) -> (&'static str, Option<Form>, Option<u128>) {
        match self {
            Verb::New(form) => ("new", Some(form), None),
            Verb::Parse(form) => ("parse", Some(form), None),
            Verb::Nth(n) => ("nth", None, Some(n)),
            Verb::Nthf(form, n) => ("nthf", Some(form), Some(n)),
            Verb::Cmp => ("cmp", None, None),
            Verb::Cmpf(form) => ("cmpf", Some(form), None),
            Verb::Eq => ("eq", None, None),
            Verb::Tomess(form) => ("tomess", Some(form), None),
            Verb::Req => ("req", None, None),
            Verb::Reqparse => ("reqparse", None, None),
            Verb::Reqfits => ("reqfits", None, None),
            Verb::Raw(line) => (line, None, None),
        }
    }
}

impl Question {
    pub fn of(verb: Verb, texts: Vec<Vec<u8>>) -> Question {
        let utf8 = texts.iter().all(|t| std::str::from_utf8(t).is_ok());
        Question { verb, texts, utf8 }
    }

    /// A question about one text.
    pub fn one(verb: Verb, text: &[u8]) -> Question {
        Question::of(verb, vec![text.to_vec()])
    }

    /// A question about two texts.
    pub fn two(verb: Verb, a: &[u8], b: &[u8]) -> Question {
        Question::of(verb, vec![a.to_vec(), b.to_vec()])
    }

    pub fn raw(line: &'static str) -> Question {
        Question::of(Verb::Raw(line), Vec::new())
    }

    pub fn texts(&self) -> &[Vec<u8>] {
        &self.texts
    }

    /// The bytes of its texts in all.
    pub fn size(&self) -> usize {
        self.texts.iter().map(Vec::len).sum()
    }

    /// The same question without these bytes of some of its texts.
    pub fn without(&self, which: &[usize], bytes: Range<usize>) -> Question {
        let mut texts = self.texts.clone();
        for i in which {
            texts[*i].drain(bytes.clone());
        }
        Question::of(self.verb, texts)
    }

    /// Bytes that are no UTF-8, and numbers past the Rust's, are for `probe`
    /// alone; the peers read whole Ideals only.
    pub fn asked(&self, frame: Frame) -> bool {
        match (frame, self.verb) {
            (Frame::Probe, _) => true,
            (_, Verb::Raw(_)) => false,
            (Frame::Rust, Verb::Nth(n) | Verb::Nthf(_, n)) => self.utf8 && n <= u64::MAX.into(),
            (Frame::Rust, _) => self.utf8,
            (Frame::Peer, Verb::New(Form::Semver) | Verb::Cmpf(Form::Semver)) => {
                self.utf8 && self.texts.iter().all(|t| t.len() <= LONGEST)
            }
            (Frame::Peer, _) => false,
        }
    }

    /// Appends the line for a child that is asked.
    pub fn line(&self, frame: Frame, out: &mut Vec<u8>) {
        let (verb, form, number) = match (self.verb, frame) {
            (Verb::New(_), Frame::Peer) => ("parse", None, None),
            (Verb::Cmpf(_), Frame::Peer) => ("cmp", None, None),
            _ => self.verb.fields(),
        };
        out.extend(verb.as_bytes());
        if let Some(form) = form {
            out.push(b' ');
            out.extend(form.name().as_bytes());
        }
        for (i, text) in self.texts.iter().enumerate() {
            out.push(b' ');
            // `probe` has two ways to write the empty text: each is used at some places.
            let first = matches!(self.verb, Verb::New(_) | Verb::Nth(_) | Verb::Cmp | Verb::Req);
            let dash = first == (i == 0);
            if text.is_empty() && dash && frame == Frame::Probe {
                out.push(b'-');
            }
            hex(text, out);
        }
        if let Some(n) = number {
            out.extend(format!(" {n}").as_bytes());
        }
        out.push(b'\n');
    }
}

fn hex(text: &[u8], out: &mut Vec<u8>) {
    const DIGITS: &[u8; 16] = b"0123456789abcdef";
    for b in text {
        out.extend([DIGITS[usize::from(b >> 4)], DIGITS[usize::from(b & 15)]]);
    }
}
