//! The crate `semver` behind the line protocol, the first peer: `parse T` and
//! `cmp A B` by precedence. See README.md.

mod lines;

use lines::{serve, text, Refused};
use semver::{BuildMetadata, Version};
use std::fmt::Write;

fn read(hex: &str) -> Result<Version, Refused> {
    Version::parse(&text(hex)?).map_err(|_| "none")
}

/// Without its metadata, which has no part in precedence but in the crate's `Ord`.
fn bare(hex: &str) -> Result<Version, Refused> {
    let mut v = read(hex)?;
    v.build = BuildMetadata::EMPTY;
    Ok(v)
}

fn parts(v: &Version, out: &mut String) -> std::fmt::Result {
    write!(out, "semver;{};{};{};", v.major, v.minor, v.patch)?;
    for (i, chunk) in v.pre.split('.').enumerate().filter(|(_, c)| !c.is_empty()) {
        let sort = if chunk.bytes().all(|b| b.is_ascii_digit()) { 'N' } else { 'A' };
        write!(out, "{}{sort}:{chunk}", if i > 0 { "," } else { "" })?;
    }
    let absent = |t: &str| if t.is_empty() { "_" } else { "" };
    write!(out, "{};{}{}", absent(&v.pre), v.build, absent(&v.build))
}

fn answer(fields: &[&str], out: &mut String) -> Result<(), Refused> {
    let told = match fields {
        ["parse", t] => parts(&read(t)?, out),
        ["cmp", a, b] => {
            let (a, b) = (bare(a)?, bare(b)?);
            write!(out, "{:?}", a.cmp(&b))
        }
        _ => return Err("badcommand"),
    };
    told.map_err(|_| "badanswer")
}

fn main() -> std::io::Result<()> {
    serve(answer)
}
