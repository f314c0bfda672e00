//! Asks the published crate every question of the list, compares each answer with the rules, and
//! prints the list.
//!
//! Where the rules mean to differ from the crate, the line has the answer of the rules, and the
//! line with both answers goes to standard error, and to the file that the argument names. Any
//! other difference ends the run with a failure, and so does one among a million further random
//! questions that are not printed.

mod intended;
mod published;
mod question;
mod rules;
mod texts;

use question::{Answer, Form, Question};
use std::collections::HashSet;
use std::fmt::Write;
use std::process::ExitCode;
use std::{env, fs};

const FURTHER: usize = 1_000_000;

/// The answer of the rules, and if the crate gives another, on purpose, a line about it. An error
/// is a difference that nothing explains.
fn compare(question: &Question) -> Result<(Answer, Option<String>), String> {
    let ours = rules::answer(question);
    let theirs = published::answer(question);
    if ours == theirs {
        return Ok((ours, None));
    }
    match intended::difference(question, ours, theirs) {
        Some(why) => Ok((ours, Some(format!("{why}: {question} => {ours} (crate: {theirs})")))),
        None => Err(format!("unexplained: {question} => {ours} (crate: {theirs})")),
    }
}

fn list() -> Vec<Question> {
    let mut random = texts::Random::seeded();
    let mut questions = texts::short();
    questions.extend(texts::limits());
    questions.extend(texts::mixed(&mut random));
    let mut seen = HashSet::new();
    questions.retain(|question| seen.insert(question.clone()));
    questions
}

/// The list and the differences, or what nothing explains.
fn lines() -> Result<(String, String), String> {
    let mut list_text = String::new();
    let mut differences = String::new();
    for question in list() {
        let (answer, difference) = compare(&question)?;
        writeln!(list_text, "{question} => {answer}").map_err(|e| e.to_string())?;
        if let Some(line) = difference {
            writeln!(differences, "{line}").map_err(|e| e.to_string())?;
        }
    }
    let forms = Form::all();
    let mut random = texts::Random::seeded();
    for _ in 0..FURTHER {
        compare(&texts::any(&forms, &mut random))?;
    }
    Ok((list_text, differences))
}

fn main() -> ExitCode {
    match lines() {
        Ok((list, differences)) => {
            print!("{list}");
            eprint!("{differences}");
            eprintln!(
                "{} lines, {} of them differ from the crate on purpose; {FURTHER} further questions compared",
                list.lines().count(),
                differences.lines().count(),
            );
            match env::args_os().nth(1).map(|path| fs::write(path, differences)) {
                None | Some(Ok(())) => ExitCode::SUCCESS,
                Some(Err(error)) => {
                    eprintln!("the differences were not written: {error}");
                    ExitCode::FAILURE
                }
            }
        }
        Err(line) => {
            eprintln!("{line}");
            ExitCode::FAILURE
        }
    }
}
