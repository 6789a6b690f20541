//! The crate `versions` behind the line protocol: every question that is put to
//! `probe`. See README.md.

mod lines;
mod parts;

use lines::{serve, text, Refused};
use parts::{op, Parts};
use std::fmt::{Result as Written, Write};
use versions::{Mess, Requirement, SemVer, Version, Versioning};

/// No label, or no rule.
const NONE: Refused = "none";

type Told = Result<Written, Refused>;

fn read(form: &str, t: &str) -> Result<Versioning, Refused> {
    let label = match form {
        "semver" => SemVer::new(t).map(Versioning::Ideal),
        "version" => Version::new(t).map(Versioning::General),
        "mess" => Mess::new(t).map(Versioning::Complex),
        "versioning" => Versioning::new(t),
        _ => return Err("badform"),
    };
    label.ok_or(NONE)
}

/// The label at the front, and what is left behind it.
fn front<'a>(form: &str, t: &'a str) -> Result<(&'a str, Versioning), Refused> {
    let read = match form {
        "semver" => SemVer::parse(t).map(|(rest, v)| (rest, Versioning::Ideal(v))),
        "version" => Version::parse(t).map(|(rest, v)| (rest, Versioning::General(v))),
        "mess" => Mess::parse(t).map(|(rest, v)| (rest, Versioning::Complex(v))),
        "versioning" => Versioning::parse(t),
        _ => return Err("badform"),
    };
    read.map_err(|_| NONE)
}

fn nth(form: &str, t: &str, n: &str, out: &mut String) -> Told {
    let label = read(form, &text(t)?)?;
    let n = n.parse().map_err(|_| "badnumber")?;
    Ok(match label.nth(n) {
        Some(m) => write!(out, "{m}"),
        None => out.write_str("absent"),
    })
}

fn to_mess(label: Versioning) -> Mess {
    match label {
        Versioning::Ideal(v) => v.to_mess(),
        Versioning::General(v) => v.to_mess(),
        Versioning::Complex(v) => v,
    }
}

fn rule(r: &Requirement, out: &mut String) -> Written {
    write!(out, "{} ", op(r.op))?;
    match &r.version {
        Some(v) => v.write(out),
        None => out.write_char('_'),
    }
}

/// The two texts as labels of a form.
fn pair(form: &str, a: &str, b: &str) -> Result<(Versioning, Versioning), Refused> {
    Ok((read(form, &text(a)?)?, read(form, &text(b)?)?))
}

fn on_labels(fields: &[&str], out: &mut String) -> Told {
    Ok(match fields {
        ["new", form, t] => read(form, &text(t)?)?.write(out),
        ["parse", form, t] => {
            let t = text(t)?;
            let (rest, v) = front(form, &t)?;
            write!(out, "{} ", t.len() - rest.len()).and_then(|()| v.write(out))
        }
        ["nth", t, n] => nth("versioning", t, n, out)?,
        ["nthf", form, t, n] => nth(form, t, n, out)?,
        ["cmp", a, b] => return on_labels(&["cmpf", "versioning", a, b], out),
        ["cmpf", form, a, b] => {
            let (a, b) = pair(form, a, b)?;
            write!(out, "{:?}", a.cmp(&b))
        }
        ["eq", a, b] => {
            let (a, b) = pair("versioning", a, b)?;
            write!(out, "{}", a == b)
        }
        ["tomess", form, t] => to_mess(read(form, &text(t)?)?).write(out),
        _ => return Err("badcommand"),
    })
}

fn answer(fields: &[&str], out: &mut String) -> Result<(), Refused> {
    let told = match fields {
        ["req", line] => rule(&Requirement::new(&text(line)?).ok_or(NONE)?, out),
        ["reqparse", line] => {
            let line = text(line)?;
            let (rest, r) = Requirement::parse(&line).map_err(|_| NONE)?;
            write!(out, "{} ", line.len() - rest.len()).and_then(|()| rule(&r, out))
        }
        ["reqfits", t, line] => {
            let label = read("versioning", &text(t)?)?;
            let rule = Requirement::new(&text(line)?).ok_or(NONE)?;
            write!(out, "{}", rule.matches(&label))
        }
        _ => on_labels(fields, out)?,
    };
    told.map_err(|_| "badanswer")
}

fn main() -> std::io::Result<()> {
    // A long Complex is read, compared and dropped by recursion: it needs room.
    let worker = std::thread::Builder::new().stack_size(1 << 30).spawn(|| serve(answer))?;
    worker.join().unwrap_or_else(|_| Err(std::io::Error::other("the driver stopped")))
}
