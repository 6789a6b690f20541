//! Pairs of every shape: the fixed series that takes each branch of the orders
//! between two forms, and of tilde and caret.

use crate::fixed::{alternate, cross, texts, words_to};
use crate::parts::Text;
use crate::question::{Question, Verb};

/// Up to `n` of these joined by dots.
fn lists(parts: &'static [&'static str], n: usize) -> Vec<Text> {
    let places: &[u8] = &[0, 1, 2, 3, 4, 5];
    let joined = |w: Text| {
        let parts: Vec<&str> = w.iter().map(|i| parts[usize::from(*i)]).collect();
        parts.join(".").into_bytes()
    };
    words_to(&places[..parts.len()], n).skip(1).map(joined).collect()
}

/// Each of the fronts, each of the middles, each of the backs.
fn joined(fronts: &[&str], middles: Vec<Text>, backs: &[&str]) -> Vec<Text> {
    let mut all = Vec::new();
    for middle in middles {
        for front in fronts {
            all.extend(backs.iter().map(|b| [front.as_bytes(), &middle, b.as_bytes()].concat()));
        }
    }
    all
}

/// Three numbers.
fn cores(numbers: &'static [&'static str]) -> Vec<Text> {
    let three = |t: &Text| t.iter().filter(|b| **b == b'.').count() == 2;
    lists(numbers, 3).into_iter().filter(three).collect()
}

fn ideal_general() -> impl Iterator<Item = Question> {
    let ideals = joined(&[""], texts(&["0.0.0", "1.0.1"]), &["", "-a", "-0", "+a"]);
    let short = joined(&["", "0:", "1:"], lists(&["0", "1", "a", "1a", "0rc1"], 3), &["", "-a"]);
    let long =
        joined(&["0.0.0.", "1.0.1.", "0:1.0.1."], lists(&["0", "a", "1a", "0rc1"], 2), &[""]);
    cross(vec![Verb::Cmp], ideals, [short, long].concat())
}

fn ideal_complex() -> impl Iterator<Item = Question> {
    let ideals = joined(&[""], texts(&["0.0.0", "1.0.1", "1.0.2"]), &["", "-a", "+a"]);
    let fronts = ["", "0:", "1:", "a:", "0.0.0:", "1.0.1a:", "1.0.01:", "1.0.2a:1:"];
    let complexes = joined(&fronts, lists(&["0", "1", "00", "0a", "01a", "r1"], 3), &["_x", "-0"]);
    cross(vec![Verb::Cmp], ideals, complexes)
}

fn general_complex() -> impl Iterator<Item = Question> {
    let generals = joined(&["", "0:", "1:", "2:"], lists(&["0", "1", "1a"], 3), &["", "-0"]);
    let fronts = ["", "0:", "1:", "01:", "a:", "r1:", "1.0:", "1:1:", "1_"];
    let complexes = joined(&fronts, lists(&["0", "1", "01", "1a"], 2), &["_x", "-0"]);
    let numbers = || lists(&["0", "1"], 4);
    let deep = joined(&["", "1:", "1:0:"], numbers(), &["_x"]);
    let pairs = cross(vec![Verb::Cmp], generals, complexes);
    cross(vec![Verb::Cmp], numbers(), deep).chain(pairs)
}

/// Tilde and caret of Ideals, and of Generals.
fn rules() -> impl Iterator<Item = Question> {
    let ideals = || cores(&["0", "1", "2"]);
    let generals = || lists(&["0", "1", "2", "1a"], 3);
    let with = |t| joined(&["~", "^", "~1:", "^1:"], t, &[""]);
    let fits = |labels, bounds| cross(vec![Verb::Reqfits], labels, bounds);
    let wide = lists(&["0", "1", "r1", "r01", "b", "1a"], 3);
    let bounds = joined(&["~1:", "^1:"], wide.clone(), &[""]);
    let others = cross(vec![Verb::Reqfits], joined(&["2:"], wide, &[""]), bounds);
    fits(ideals(), with(ideals())).chain(fits(generals(), with(generals()))).chain(others)
}

pub fn shapes() -> impl Iterator<Item = Question> {
    let complexes = alternate(ideal_complex(), general_complex());
    alternate(alternate(ideal_general(), rules()), complexes)
}
