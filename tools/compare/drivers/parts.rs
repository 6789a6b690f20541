//! The parts of the crate's labels, as `probe` writes them.

use std::fmt::{Result, Write};
use versions::{Chunk, Last, MChunk, Mess, Op, Release, SemVer, Sep, Version, Versioning};

pub trait Parts {
    fn write(&self, out: &mut String) -> Result;
}

fn list<T>(parts: &[T], out: &mut String, one: fn(&T, &mut String) -> Result) -> Result {
    for (i, part) in parts.iter().enumerate() {
        out.push_str(if i > 0 { "," } else { "" });
        one(part, out)?;
    }
    Ok(())
}

fn chunk(c: &Chunk, out: &mut String) -> Result {
    match c {
        Chunk::Numeric(n) => write!(out, "N:{n}"),
        Chunk::Alphanum(s) => write!(out, "A:{s}"),
    }
}

/// What may stand behind the chunks.
fn tail(release: &Option<Release>, meta: &Option<String>, out: &mut String) -> Result {
    match release {
        None => out.push('_'),
        Some(release) => list(&release.0, out, chunk)?,
    }
    write!(out, ";{}", meta.as_deref().unwrap_or("_"))
}

impl Parts for SemVer {
    fn write(&self, out: &mut String) -> Result {
        write!(out, "semver;{};{};{};", self.major, self.minor, self.patch)?;
        tail(&self.pre_rel, &self.meta, out)
    }
}

impl Parts for Version {
    fn write(&self, out: &mut String) -> Result {
        match self.epoch {
            Some(e) => write!(out, "version;{e};")?,
            None => out.push_str("version;_;"),
        }
        list(&self.chunks.0, out, chunk)?;
        match &self.last {
            Last::Numeric(n) => write!(out, ";N:{n};"),
            Last::Rc(a, s, b) => write!(out, ";R:{a}:{s}:{b};"),
            Last::Post(n, s) => write!(out, ";P:{n}:{s};"),
            Last::Alphanum(s) => write!(out, ";A:{s};"),
        }?;
        tail(&self.release, &self.meta, out)
    }
}

fn mchunk(c: &MChunk, out: &mut String) -> Result {
    match c {
        MChunk::Digits(n, s) => write!(out, "D:{n}:{s}"),
        MChunk::Rev(n, s) => write!(out, "R:{n}:{s}"),
        MChunk::Plain(s) => write!(out, "P:{s}"),
    }
}

impl Parts for Mess {
    fn write(&self, out: &mut String) -> Result {
        out.push_str("mess;");
        let mut level = self;
        loop {
            list(&level.chunks, out, mchunk)?;
            let Some((sep, next)) = &level.next else { return Ok(()) };
            let sign = match sep {
                Sep::Colon => ':',
                Sep::Hyphen => '-',
                Sep::Plus => '+',
                Sep::Underscore => '_',
                Sep::Tilde => '~',
            };
            write!(out, ";{sign};")?;
            level = next;
        }
    }
}

impl Parts for Versioning {
    fn write(&self, out: &mut String) -> Result {
        match self {
            Versioning::Ideal(v) => v.write(out),
            Versioning::General(v) => v.write(out),
            Versioning::Complex(v) => v.write(out),
        }
    }
}

pub fn op(op: Op) -> &'static str {
    match op {
        Op::Exact => "=",
        Op::GreaterEq => ">=",
        Op::Greater => ">",
        Op::LessEq => "<=",
        Op::Less => "<",
        Op::Tilde => "~",
        Op::Caret => "^",
        Op::Wildcard => "*",
    }
}
