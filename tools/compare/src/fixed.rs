//! The fixed series of questions: whole families, the same in every run.

use crate::parts::Text;
use crate::question::{Form, Question, Verb, FORMS};
use crate::samples::{IDEALS, OTHERS};
use crate::shapes::shapes;

/// Lines that are no command, now or later.
#[rustfmt::skip]
const RAW: [&str; 18] = [
    "nonsense", "new", "new semver 3", "new semver 3g", "new nonsense 31", "parse nonsense 31",
    "cmpf semver 31 3", "new semver 31 31", "nth 31", "nth 31 x", "nth 31 -1", "nth 31 1x",
    "nthf mess 31", "nthf nonsense 31 0", "cmp 31 3", "tomess nonsense 31", "reqfits 31 3", "req 3",
];

/// Fronts of Ideals, and the symbols of which all short texts stand behind them.
const FRONTS: [&str; 8] =
    ["", "1.2.3", "0.0.0-", "1.2.3+", "1.2.3-a+", "1.2.", "1.2.3-0.", "4294967295.1.0-9"];
const SYMBOLS: &[u8] = b"01a-.+9Z";
/// The symbols of all short texts of every form.
const EVERY: &[u8] = b"0129arz.-+:_~";
/// Where a number is put.
#[rustfmt::skip]
const PLACES: [&str; 24] = [
    "N.2.3", "1.N.3", "1.2.N", "1.2.3-N", "1.2.3-a.N", "1.2.3-N.a+N", "1.2.3-Na", "N", "N:1", "1:N",
    "1.N", "1.Na", "1.Na.2", "1.Nrc1", "1.1rcN", "1.2-N", "rN", "1.rN", "rN.1", "1.bN.1", "N_a",
    "1_N", "1.2.N_a", "1.2.Na_a",
];
#[rustfmt::skip]
const NUMBERS: [&str; 29] = [
    "0", "1", "9", "10", "00", "01", "09", "010", "4294967294", "4294967295", "4294967296",
    "4294967297", "04294967295", "0004294967295", "04294967296", "999999999", "9999999999",
    "42949672949", "42949672950", "42949672960", "9007199254740990", "9007199254740991",
    "9007199254740992", "9007199254740993", "18446744073709551615", "18446744073709551616",
    "18446744078004518911", "340282366920938463463374607431768211455",
    "340282366920938463463374607431768211456",
];
/// Fronts, and what is repeated behind them: 60 to 65 chunks, levels or MChunks.
#[rustfmt::skip]
const SORTS: [(&str, &str); 22] = [
    ("0.0.0-", "0."), ("0.0.0-0", ".0"), ("0.0.0+", "a."), ("0.0.0+a", ".a"), ("1.2.3-", "a"),
    ("1.2.3-a+", "0"), ("1.2.3-", "1"), ("1.2.3-", "é"), ("", "1.2.3-"), ("", "0."), ("1:", "a."),
    ("1-", "0."), ("1+", "a."), ("a", "a"), ("", "1"), ("", "0"), ("", "a_"), ("", "1:"),
    ("", "1~"), ("a_", "1."), ("1.", "r1."), ("r", "0"),
];
/// Each byte value is put into these, and in place of each of their bytes.
const HOSTS: [&str; 6] = [
    "1.2.3",
    "1.20.3-a1.b-2+c.d-4",
    "10.0.0-0.1",
    "0.0.0+0-a.00",
    "1:2.3rc4-r5+x",
    "01.r2:a_4~5.6",
];
const LINES: [&str; 3] = [">=1.2", "^1:2.a", "*"];
const OPERATORS: [&str; 7] = ["=", ">=", ">", "<=", "<", "~", "^"];

pub fn texts<'a>(from: impl IntoIterator<Item = &'a &'a str>) -> Vec<Text> {
    from.into_iter().map(|t| t.as_bytes().to_vec()).collect()
}

/// Reading a text by every form.
fn read(text: Text) -> impl Iterator<Item = Question> {
    let verbs = FORMS.into_iter().flat_map(|f| [Verb::New(f), Verb::Parse(f)]);
    verbs.map(move |verb| Question::one(verb, &text))
}

/// What else is asked about one text.
fn more(text: Text) -> impl Iterator<Item = Question> {
    let verbs = FORMS.into_iter().flat_map(|f| {
        let nth = (0..4).map(move |n| Verb::Nthf(f, n));
        nth.chain([Verb::Tomess(f)])
    });
    verbs.chain([Verb::Nth(0), Verb::Nth(64)]).map(move |verb| Question::one(verb, &text))
}

/// Each of the first held against each of the second, by each verb.
pub fn cross(verbs: Vec<Verb>, a: Vec<Text>, b: Vec<Text>) -> impl Iterator<Item = Question> {
    let (n, m) = (verbs.len(), verbs.len() * b.len());
    (0..a.len() * m).map(move |i| Question::two(verbs[i % n], &a[i / m], &b[i / n % b.len()]))
}

/// Every operator in front of each of these.
fn lines(bounds: &[Text]) -> Vec<Text> {
    let with = |o: &str, b: &Text| [o.as_bytes(), b].concat();
    OPERATORS.iter().flat_map(|o| bounds.iter().map(move |b| with(o, b))).collect()
}

/// All texts of `n` of these symbols.
fn words(symbols: &'static [u8], n: usize) -> impl Iterator<Item = Text> {
    let base = symbols.len();
    (0..base.pow(n as u32))
        .map(move |i| (0..n).map(|k| symbols[i / base.pow(k as u32) % base]).collect())
}

pub fn words_to(symbols: &'static [u8], n: usize) -> impl Iterator<Item = Text> {
    (0..=n).flat_map(move |n| words(symbols, n))
}

/// The samples: each alone, each against each other, each as a bound.
fn samples() -> impl Iterator<Item = Question> {
    let all = || texts(IDEALS.iter().chain(&OTHERS));
    let singles = all().into_iter().flat_map(|t| read(t.clone()).chain(more(t)));
    let rules = lines(&all())
        .into_iter()
        .flat_map(|line| [Verb::Req, Verb::Reqparse].map(|verb| Question::one(verb, &line)));
    let forms = FORMS.map(Verb::Cmpf);
    let pairs = cross([vec![Verb::Cmp, Verb::Eq], forms.to_vec()].concat(), all(), all());
    let fits = cross(vec![Verb::Reqfits], all(), lines(&all()));
    singles.chain(rules).chain(alternate(pairs, fits))
}

/// Numbers round the limits, with leading zeros and without, at each place.
fn numbers() -> impl Iterator<Item = Question> {
    let at = |place: &str| -> Vec<Text> {
        NUMBERS.iter().map(|n| place.replace('N', n).into_bytes()).collect()
    };
    let singles =
        PLACES.iter().flat_map(move |p| at(p)).flat_map(|t| read(t.clone()).chain(more(t)));
    let verbs = [vec![Verb::Cmp, Verb::Eq], FORMS.map(Verb::Cmpf).to_vec()].concat();
    let pairs = PLACES.iter().flat_map(move |p| cross(verbs.clone(), at(p), at(p)));
    let fits = PLACES.iter().flat_map(move |p| cross(vec![Verb::Reqfits], at(p), lines(&at(p))));
    singles.chain(pairs).chain(fits)
}

/// Texts of the lengths round the longest, each held against each other.
fn lengths() -> impl Iterator<Item = Question> {
    let all = || -> Vec<Text> {
        let sorts = SORTS.iter().flat_map(|s| (123..=130).map(move |n| (s, n)));
        let text = |((front, unit), n): (&(&str, &str), usize)| {
            front.bytes().chain(unit.bytes().cycle()).take(n).collect()
        };
        sorts.map(text).collect()
    };
    let rules = lines(&all()).into_iter().map(|line| Question::one(Verb::Req, &line));
    let pairs = cross(vec![Verb::Cmp, Verb::Cmpf(Form::Mess)], all(), all());
    all().into_iter().flat_map(|t| read(t.clone()).chain(more(t))).chain(rules).chain(pairs)
}

/// Every byte value: alone, put in at every place, and in place of every byte.
fn bytes() -> impl Iterator<Item = Question> {
    let alone = || (0..=255).map(|b| vec![b]);
    let placed = |hosts: &'static [&'static str]| {
        let places = hosts.iter().flat_map(|h| (0..=h.len()).map(move |at| (h.as_bytes(), at)));
        places.flat_map(|(h, at)| {
            (0..=255).flat_map(move |b| {
                let rest = &h[at..];
                let put = [&h[..at], &[b], rest].concat();
                let changed = [&h[..at], &[b], &rest[rest.len().min(1)..]].concat();
                [put, changed]
            })
        })
    };
    let rules = alone().chain(placed(&LINES)).map(|t| Question::one(Verb::Reqparse, &t));
    alone().chain(placed(&HOSTS)).flat_map(read).chain(rules)
}

/// All short texts behind the fronts of Ideals, and all short texts of every form.
fn short() -> impl Iterator<Item = Question> {
    let fronted = |w: Text| FRONTS.iter().map(move |f| [f.as_bytes(), &w].concat());
    let ideals = words_to(SYMBOLS, 5).flat_map(fronted).flat_map(|t| {
        [Verb::New(Form::Semver), Verb::Parse(Form::Semver)].map(|verb| Question::one(verb, &t))
    });
    alternate(words_to(EVERY, 5).flat_map(read), ideals)
}

/// All pairs of short Releases.
fn releases() -> impl Iterator<Item = Question> {
    let all = || words_to(b"01-.aZ", 3).map(|w| [b"1.2.3-", w.as_slice()].concat()).collect();
    cross(vec![Verb::Cmpf(Form::Semver)], all(), all())
}

/// All pairs of short texts, as labels and as bounds.
fn short_pairs() -> impl Iterator<Item = Question> {
    let all = |symbols| words_to(symbols, 3).collect::<Vec<_>>();
    let orders = cross(vec![Verb::Cmp], all(b"019ar.:_"), all(b"019ar.:_"));
    let fits = cross(vec![Verb::Reqfits], all(b"01ar."), lines(&all(b"01ar.")));
    let complexes = words_to(b"01a.:_", 5).collect();
    let others =
        texts(&["0.0.0", "1.1.1", "0.1.1-a", "1.0.0+a", "1:0", "1:0.1", "0:1", "1.1a", "a"]);
    let mixed = cross(vec![Verb::Cmp], others, complexes);
    alternate(mixed, alternate(orders, fits))
}

/// The fixed series.
pub fn fixed() -> impl Iterator<Item = Question> {
    let raw = RAW.iter().map(|l| Question::raw(l));
    let told = alternate(samples(), alternate(numbers(), lengths()));
    let pairs = alternate(alternate(bytes(), releases()), alternate(short_pairs(), shapes()));
    raw.chain(alternate(told, pairs)).chain(short())
}

/// One of each in turn; what is left of the longer.
pub fn alternate<T>(
    mut a: impl Iterator<Item = T>,
    mut b: impl Iterator<Item = T>,
) -> impl Iterator<Item = T> {
    let mut first = false;
    std::iter::from_fn(move || {
        first = !first;
        if first {
            a.next().or_else(|| b.next())
        } else {
            b.next().or_else(|| a.next())
        }
    })
}
