//! Labels by chance: drafts of every form, relatives of them, damaged copies.

use crate::parts::{
    marked, neighbour, number, plain_chunk, release_chunk, small, stretch, Text, IDENTIFIER,
    TOO_LARGE,
};
use crate::random::Random;

/// Levels of parts before they are joined, each with the sign in front of it. An
/// epoch is a level too, and so are Release and metadata.
#[derive(Clone)]
pub struct Draft {
    levels: Vec<(u8, Vec<Text>)>,
}

const SIGNS: &[u8] = b":-+_~";
/// Bytes beside the classes and signs, and such as other readers pass over.
const TELLING: &[u8] =
    b"0019.-+aAzZr/:@[`{,_~v=*^ \t\n\r\x0b\x0c\0\x01\x7f\x80\x85\xa0\xc2\xe2\xff";
const FOREIGN: [&str; 9] = ["é", "٣", "１", "²", "ａ", "\u{212a}", "‐", "\u{feff}", "\u{a0}"];

/// A count that is mostly small.
fn few(r: &mut Random) -> usize {
    let most = r.pick(&[1, 2, 3, 6]);
    r.below(most) + 1
}

/// Perhaps a Release, perhaps metadata.
fn tail(r: &mut Random, wild: bool, levels: &mut Vec<(u8, Vec<Text>)>) {
    if r.below(8) < 4 {
        levels.push((b'-', (0..few(r)).map(|_| release_chunk(r, wild)).collect()));
    }
    if r.below(8) < 2 {
        levels.push((b'+', (0..few(r)).map(|_| stretch(r, wild)).collect()));
    }
}

impl Draft {
    pub fn ideal(r: &mut Random, wild: bool) -> Draft {
        let core = (0..3).map(|_| {
            let odd = wild && r.once_in(3);
            number(r, odd)
        });
        let mut levels = vec![(0, core.collect())];
        tail(r, wild, &mut levels);
        Draft { levels }
    }

    pub fn general(r: &mut Random, wild: bool) -> Draft {
        let mut levels = Vec::new();
        if r.once_in(3) {
            levels.push((0, vec![small(r)]));
        }
        levels.push((b':', (0..few(r)).map(|_| plain_chunk(r, wild)).collect()));
        tail(r, wild, &mut levels);
        Draft { levels }
    }

    pub fn complex(r: &mut Random) -> Draft {
        let level = |r: &mut Random| {
            let parts = (0..few(r)).map(|_| plain_chunk(r, true)).collect();
            (r.pick(SIGNS), parts)
        };
        let mut d = Draft { levels: (0..few(r)).map(|_| level(r)).collect() };
        // A rule's bound is a Complex only if it begins with such a number.
        if r.once_in(8) {
            d.levels[0].1[0] = r.pick(&TOO_LARGE).as_bytes().to_vec();
        }
        d
    }

    pub fn any(r: &mut Random, wild: bool) -> Draft {
        match r.below(8) {
            0 | 1 => Draft::ideal(r, wild),
            2..=4 => Draft::general(r, wild),
            _ => Draft::complex(r),
        }
    }

    /// Parts or levels of one byte: as many as a text has room for, about.
    pub fn crowded(r: &mut Random) -> Draft {
        let mut d = Draft::any(r, false);
        for (_, parts) in d.levels.iter_mut().filter(|(_, parts)| parts.len() == 3) {
            *parts = (0..3).map(|_| vec![r.pick(b"0123456789")]).collect();
        }
        let count = 57 + r.below(9);
        let parts: Vec<Text> = (0..count).map(|_| vec![r.pick(b"0123456789arRz")]).collect();
        match r.below(4) {
            0 => d.levels = parts.into_iter().map(|p| (r.pick(SIGNS), vec![p])).collect(),
            1 => {
                d.levels.truncate(1);
                d.levels.push((r.pick(b"-+"), parts));
            }
            _ => {
                let at = r.below(d.levels.len());
                d.levels[at].1 = parts;
            }
        }
        d
    }

    pub fn text(&self) -> Text {
        let mut t = Text::new();
        for (i, (sign, parts)) in self.levels.iter().enumerate() {
            t.extend(Some(*sign).filter(|_| i > 0));
            t.extend(parts.join(&b'.'));
        }
        t
    }

    /// A part of the sort that stands behind a sign.
    fn part(&self, level: usize, r: &mut Random) -> Text {
        match self.levels[level].0 {
            b'-' => release_chunk(r, false),
            b'+' => stretch(r, false),
            _ => plain_chunk(r, false),
        }
    }

    /// A copy with a level put in, taken away, or behind another sign.
    fn other_levels(&self, r: &mut Random) -> Draft {
        let mut d = self.clone();
        let at = r.below(d.levels.len());
        match r.below(6) {
            0 => d.levels[at].0 = r.pick(SIGNS),
            1 | 2 => {
                d.levels[0].0 = b':';
                d.levels.insert(0, (0, vec![small(r)]));
            }
            3 if d.levels.len() > 1 => drop(d.levels.remove(at)),
            4 if d.levels.len() > 1 => drop(d.levels.pop()),
            _ => {
                d.levels.push((r.pick(SIGNS), Vec::new()));
                let part = d.part(d.levels.len() - 1, r);
                d.levels.last_mut().into_iter().for_each(|l| l.1.push(part.clone()));
            }
        }
        d
    }

    /// A copy with one part changed.
    pub fn relative(&self, r: &mut Random) -> Draft {
        if r.once_in(4) {
            return self.other_levels(r);
        }
        let mut d = self.clone();
        let level = r.below(d.levels.len());
        let other = d.part(level, r);
        let parts = &mut d.levels[level].1;
        let at = r.below(parts.len().max(1));
        match r.below(12) {
            0 => parts.push(other),
            1 if parts.len() > 1 => drop(parts.pop()),
            2 => parts.insert(at.min(parts.len()), other),
            _ if parts.is_empty() => parts.push(other),
            3 => parts[at] = other,
            4 | 5 => {
                // In front, or behind a letter.
                let letters = parts[at].iter().take_while(|b| b.is_ascii_alphabetic()).count();
                parts[at].insert(letters.min(1), b'0');
            }
            6 | 7 => {
                let last = parts.len() - 1;
                parts[last] = marked(parts[last].clone(), r);
            }
            8 => parts[at].push(r.pick(b"0a-")),
            9 if r.once_in(2) => parts[at].insert(0, r.pick(b"arR")),
            9 => parts[at].make_ascii_uppercase(),
            _ => neighbour(&mut parts[at], r),
        }
        d
    }
}

/// Changes, drops, doubles, swaps, cuts or puts in.
pub fn damage(t: &mut Text, r: &mut Random) {
    if t.is_empty() {
        return t.push(r.pick(TELLING));
    }
    let (at, to) = (r.below(t.len()), r.below(t.len()));
    match r.below(9) {
        0 | 1 => t[at] = r.pick(TELLING),
        2 => drop(t.remove(at)),
        3 => t.insert(at, t[at]),
        4 => t.swap(at, to),
        5 => t.truncate(at),
        6 => t.insert(at, r.pick(TELLING)),
        7 => t[at] = r.below(256) as u8,
        _ => drop(t.splice(at..at, r.pick(&FOREIGN).bytes())),
    }
}

/// Brings a text to a length: cuts it, or goes on with its last part.
pub fn fit(t: &mut Text, length: usize, r: &mut Random) {
    t.truncate(length);
    if t.iter().all(|b| !SIGNS.contains(b)) && t.len() + 1 < length {
        t.push(r.pick(SIGNS));
    }
    let joints = r.pick(&[2, 8, 100]);
    let signs: &[u8] = r.pick(&[b".", b".", b"._~-+"]);
    while t.len() < length {
        let joint = t.last().is_none_or(|b| b".:-+_~".contains(b));
        let next = !joint && t.len() + 1 < length && r.once_in(joints);
        t.push(r.pick(if next { signs } else { IDENTIFIER }));
    }
}

/// Two texts that are alike but for a byte, mostly a late one.
pub fn twin(t: &Text, r: &mut Random) -> Text {
    let mut other = t.clone();
    if let Some(last) = t.len().checked_sub(1) {
        let at = if r.below(2) == 0 { last } else { r.below(t.len()) };
        other[at] = r.pick(IDENTIFIER);
    }
    other
}

/// Any bytes at all, or any of the telling ones.
pub fn noise(r: &mut Random) -> Text {
    let any = r.below(2) == 0;
    let byte = |r: &mut Random| if any { r.below(256) as u8 } else { r.pick(TELLING) };
    (0..r.below(12)).map(|_| byte(r)).collect()
}
