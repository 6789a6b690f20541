//! The smallest question that still shows an unlisted difference.

use crate::judge::{judge, Party};
use crate::question::{Frame, Question, Verb};
use std::ops::Range;

/// The questions among these that have a wrong answer when they alone are asked.
fn wrong(party: &mut Party, questions: &[Question]) -> Vec<usize> {
    let Ok(running) = party.put(questions) else { return Vec::new() };
    judge(std::slice::from_mut(party), questions, &[running.finish()]).concat()
}

/// Halves a list while a half of it goes wrong by itself.
pub fn narrow(party: &mut Party, mut questions: Vec<Question>) -> Vec<Question> {
    while questions.len() > 1 {
        let behind = questions.split_off(questions.len() / 2);
        if wrong(party, &questions).is_empty() {
            if wrong(party, &behind).is_empty() {
                questions.extend(behind);
                break;
            }
            questions = behind;
        }
    }
    questions
}

/// The pieces of a text that are tried: of every size that halving gives.
fn pieces(length: usize) -> impl Iterator<Item = Range<usize>> {
    let sizes = std::iter::successors(Some(length), |n| Some(n / 2));
    let sizes = sizes.take_while(move |n| *n > 0 && length / n <= 256);
    sizes
        .flat_map(move |n| (0..length).step_by(n.div_ceil(2)).map(move |at| at..length.min(at + n)))
}

/// All ways to drop a piece of one text, or the same piece of every text.
fn shorter(q: &Question) -> Vec<Question> {
    let mut all = Vec::new();
    let lengths: Vec<usize> = q.texts().iter().map(Vec::len).collect();
    for (which, length) in lengths.iter().enumerate() {
        all.extend(pieces(*length).map(|cut| q.without(&[which], cut)));
    }
    let both: Vec<usize> = (0..lengths.len()).collect();
    let least = lengths.iter().min().copied().unwrap_or(0);
    all.extend(pieces(least).map(|cut| q.without(&both, cut)));
    all.sort_by_key(Question::size);
    all
}

/// Drops bytes while the difference stays.
pub fn shrink(party: &mut Party, mut q: Question) -> Question {
    loop {
        let all = shorter(&q);
        // A child that stops at one question leaves the later ones unanswered,
        // so each is tried alone before it is taken.
        let found = wrong(party, &all).into_iter().find(|i| alone(party, &all[*i]));
        match found {
            Some(i) => q = all[i].clone(),
            None => return q,
        }
    }
}

/// Whether a question goes wrong by itself.
pub fn alone(party: &mut Party, q: &Question) -> bool {
    !wrong(party, std::slice::from_ref(q)).is_empty()
}

/// A question for a person.
pub fn shown(q: &Question) -> String {
    let mut line = Vec::new();
    q.line(Frame::Probe, &mut line);
    let mut shown = String::from_utf8_lossy(&line).trim_end_matches('\n').to_string();
    if !matches!(q.verb, Verb::Raw(_)) {
        for t in q.texts() {
            shown += &format!("\n             \"{}\", length {}", t.escape_ascii(), t.len());
        }
    }
    shown
}

/// A text in quotes, cut if it is long.
pub fn short(text: &str) -> String {
    match text.get(..60) {
        Some(front) => format!("\"{front}..\" ({} bytes)", text.len()),
        None => format!("\"{text}\""),
    }
}

/// A question on one line, with its texts as they are.
pub fn brief(q: &Question) -> String {
    let (verb, form, number) = q.verb.fields();
    let mut words = vec![verb.to_string()];
    words.extend(form.map(|f| f.name().to_string()));
    words.extend(q.texts().iter().map(|t| short(&t.escape_ascii().to_string())));
    words.extend(number.map(|n| n.to_string()));
    words.join(" ")
}
