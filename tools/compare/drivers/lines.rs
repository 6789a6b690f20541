//! The line protocol of the drivers: a question to a line, an answer to a line,
//! fields parted by one blank, texts in hex.

use std::io::{stdin, stdout, BufRead, BufReader, Result, Write};
use std::panic::{catch_unwind, AssertUnwindSafe};

/// What a question comes to when there is no label: the whole answer.
pub type Refused = &'static str;

/// Answers every line until the input ends; a panic is an answer too.
pub fn serve(answer: fn(&[&str], &mut String) -> std::result::Result<(), Refused>) -> Result<()> {
    let mut input = BufReader::with_capacity(1 << 16, stdin().lock());
    let mut output = stdout().lock();
    let (mut line, mut answers) = (String::new(), String::new());
    while input.read_line(&mut line)? > 0 {
        let fields: Vec<&str> = line.trim_end_matches('\n').split(' ').collect();
        let start = answers.len();
        let told = catch_unwind(AssertUnwindSafe(|| answer(&fields, &mut answers)));
        if let Err(refused) = told.unwrap_or(Err("panic")) {
            answers.truncate(start);
            answers.push_str(refused);
        }
        answers.push('\n');
        line.clear();
        if answers.len() > 1 << 16 {
            output.write_all(answers.as_bytes())?;
            answers.clear();
        }
    }
    output.write_all(answers.as_bytes())
}

/// A text from hex.
pub fn text(hex: &str) -> std::result::Result<String, Refused> {
    let digit = |b: u8| (b as char).to_digit(16).map(|d| d as u8).ok_or("badhex");
    let mut bytes = Vec::with_capacity(hex.len() / 2);
    for pair in hex.as_bytes().chunks(2) {
        let [high, low] = pair else { return Err("badhex") };
        bytes.push(digit(*high)? << 4 | digit(*low)?);
    }
    String::from_utf8(bytes).map_err(|_| "badutf8")
}
