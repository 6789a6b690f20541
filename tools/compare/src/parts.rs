//! Parts of labels by chance: numbers, chunks, stretches.

use crate::random::Random;

pub type Text = Vec<u8>;

#[rustfmt::skip]
const LARGE: [&str; 8] = [
    "4294967294", "4294967295", "999999999", "1000000000", "2147483647", "2147483648", "65536",
    "4294967290",
];
#[rustfmt::skip]
pub const TOO_LARGE: [&str; 12] = [
    "4294967296", "4294967297", "4294967300", "5000000000", "42949672950", "42949672960",
    "9007199254740991", "9007199254740992", "9007199254740993", "18446744073709551615",
    "18446744073709551616", "340282366920938463463374607431768211456",
];
#[rustfmt::skip]
const RELEASES: [&str; 24] = [
    "alpha", "beta", "rc", "a", "b", "A", "B", "Z", "z", "-", "--", "a-b", "0a", "00a", "1-", "-1",
    "01a", "9a", "10a", "-0", "rc1", "rc-1", "x", "4294967296a",
];
/// Texts that Generals and Complexes compare by a number in them, or almost.
#[rustfmt::skip]
const MIXTURES: [&str; 40] = [
    "a", "b", "rc", "r", "R", "git", "0a", "1a", "2a", "3b", "9a", "10a", "00a", "01a", "007a",
    "1rc", "1rc1", "1rc2", "2rc1", "1a0", "1a01", "1a1b", "01rc1", "r1", "r2", "r8", "r08", "r10",
    "r01a", "R8", "b8", "b08", "r8a", "a1b2", "r4294967295", "r4294967296", "4294967295a",
    "4294967296a", "04294967296a", "1rc4294967296",
];
/// What is put behind a number.
#[rustfmt::skip]
const MARKS: [&str; 14] = [
    "rc1", "rc2", "rc", "rc0", "rc01", "a", "b", "a1", "RC1", "rca", "rc1a", "z9", "r1",
    "rc4294967296",
];
pub const IDENTIFIER: &[u8] = b"0123456789abcxyzABCXYZ---";
const IN_RUN: &[u8] = b"0012389abcrrzABRZ";

/// A number that is met again soon.
pub fn small(r: &mut Random) -> Text {
    let most = r.pick(&[2, 3, 3, 12]);
    r.below(most).to_string().into_bytes()
}

pub fn number(r: &mut Random, wild: bool) -> Text {
    let text = match r.below(if wild { 10 } else { 7 }) {
        0..=3 => return small(r),
        4 => (r.next() >> (32 + r.below(32))).to_string(),
        5 | 6 => r.pick(&LARGE).to_string(),
        7 => r.pick(&TOO_LARGE).to_string(),
        8 => format!("{}{}", "0".repeat(1 + r.below(2)), r.below(12)),
        _ => (4_294_967_290 + r.below(12)).to_string(),
    };
    text.into_bytes()
}

fn bytes(r: &mut Random, from: &[u8], longest: usize) -> Text {
    (0..=r.below(longest)).map(|_| r.pick(from)).collect()
}

/// A chunk of a Release. Tame ones are no numbers over the limit and have no leading zero.
pub fn release_chunk(r: &mut Random, wild: bool) -> Text {
    match r.below(if wild { 9 } else { 7 }) {
        0..=2 => number(r, wild),
        3 | 4 => r.pick(&RELEASES).as_bytes().to_vec(),
        5 => [number(r, true), vec![r.pick(b"a-Z")]].concat(),
        6 => [vec![r.pick(b"a-Z")], bytes(r, IDENTIFIER, 6)].concat(),
        7 => bytes(r, IDENTIFIER, 12),
        _ => Text::new(),
    }
}

/// A stretch of metadata; wild ones may be empty.
pub fn stretch(r: &mut Random, wild: bool) -> Text {
    match r.below(8) {
        0 if wild => Text::new(),
        1 | 2 => number(r, true),
        _ => bytes(r, IDENTIFIER, 5),
    }
}

/// A chunk of a General, or an MChunk; wild ones may be numbers with leading zeros
/// or over the limit.
pub fn plain_chunk(r: &mut Random, wild: bool) -> Text {
    match r.below(12) {
        0..=4 => small(r),
        5 => number(r, wild),
        6..=8 => r.pick(&MIXTURES).as_bytes().to_vec(),
        9 => marked(small(r), r),
        10 => [vec![r.pick(b"arR")], number(r, true)].concat(),
        _ => bytes(r, IN_RUN, 5),
    }
}

/// A part with something put behind it, as in 1rc1.
pub fn marked(part: Text, r: &mut Random) -> Text {
    [part.as_slice(), r.pick(&MARKS).as_bytes()].concat()
}

/// Another text of the same sort: the last byte one up or down, or a digit more or less.
pub fn neighbour(part: &mut Text, r: &mut Random) {
    let Some(last) = part.pop() else { return };
    match (r.below(4), last) {
        (0, _) if !part.is_empty() => (),
        (1, _) if !part.is_empty() || last != b'0' => part.extend([last, r.pick(b"09")]),
        (2, b'1'..=b'9' | b'b'..=b'z' | b'B'..=b'Z') => part.push(last - 1),
        (_, b'0'..=b'8' | b'a'..=b'y' | b'A'..=b'Y') => part.push(last + 1),
        _ => part.extend([b'1', last]),
    }
}
