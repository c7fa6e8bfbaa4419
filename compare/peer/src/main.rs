//! Holds the program `answers` against libdbus, an outside judge of messages, signatures, paths and UTF-8. libdbus says only whether it takes
//! the bytes, and a message's length. The rows K1 to K6 and L1 to L6 of docs/DIFFERENCES.md are switches of the model: with all of them turned
//! it must say what libdbus says.
//! With --capture it asks both about the messages of a file instead, as dbus-monitor --binary writes them.
//! usage: peer [--seed N] [--rounds N] [--capture FILE] JUDGE PROGRAM [ARGUMENT ..]
mod capture;
mod make;

use model::ask::ask;
use model::question::{hex, Question};
use model::random::Random;
use model::tally::Other;
use model::ways::{Row, LIBDBUS};

struct Libdbus {
    judge: Vec<String>,
}

impl Other for Libdbus {
    fn name(&self) -> &'static str {
        "libdbus"
    }

    fn rows(&self) -> &'static [Row] {
        LIBDBUS
    }

    fn ask(&self, questions: &[Question]) -> std::io::Result<Vec<Option<String>>> {
        let lines: Vec<String> = questions.iter().map(to_judge).collect();
        let answers = ask(&self.judge, &lines)?;
        Ok(answers.into_iter().map(|answer| (answer != "none").then_some(answer)).collect())
    }

    /// No numbers, no positions, and lengths of messages only.
    fn words(&self, question: &Question, line: &str) -> String {
        let taken = line.starts_with("ok");
        match question {
            Question::Message { .. } if taken => line.to_string(),
            _ => if taken { "ok" } else { "no" }.to_string(),
        }
    }
}

/// The judge's line for a question that `make` makes.
fn to_judge(question: &Question) -> String {
    match question {
        Question::Message { bytes } => format!("message {}", hex(bytes)),
        Question::Value { sig, bytes, .. } => {
            let (kind, head) = match sig[..] {
                [b'g'] => ("sig", 1),
                [b'o'] => ("path", 4),
                _ => ("utf8", 4),
            };
            // the text between the length and the terminator; a question cut below that has none
            format!("{kind} {}", hex(bytes.get(head..bytes.len().saturating_sub(1)).unwrap_or(&[])))
        }
        other => unreachable!("not a question for libdbus: {other}"),
    }
}

struct Settings {
    seed: u64,
    rounds: usize,
    capture: Option<String>,
    judge: String,
    program: Vec<String>,
}

fn settings() -> Option<Settings> {
    let mut settings = Settings { seed: 1, rounds: 1, capture: None, judge: String::new(), program: Vec::new() };
    let mut words = std::env::args().skip(1);
    while let Some(word) = words.next() {
        match word.as_str() {
            "--seed" => settings.seed = words.next()?.parse().ok()?,
            "--rounds" => settings.rounds = words.next()?.parse().ok()?,
            "--capture" => settings.capture = Some(words.next()?),
            _ => {
                settings.judge = word;
                settings.program = words.by_ref().collect();
            }
        }
    }
    (!settings.program.is_empty()).then_some(settings)
}

fn run(settings: &Settings) -> std::io::Result<bool> {
    let libdbus = Libdbus { judge: vec![settings.judge.clone()] };
    if let Some(file) = &settings.capture {
        return capture::check(&std::fs::read(file)?, &libdbus, &settings.program);
    }
    let questions = make::questions(Random::new(settings.seed), settings.rounds);
    let tally = model::run::run(&settings.program, &libdbus, questions, |_, _, _, _| {})?;
    println!("seed {}", settings.seed);
    model::report::print(&tally, &libdbus, &settings.program)
}

fn main() {
    let Some(settings) = settings() else {
        eprintln!("usage: peer [--seed N] [--rounds N] [--capture FILE] JUDGE PROGRAM [ARGUMENT ..]");
        std::process::exit(2);
    };
    match run(&settings) {
        Ok(true) => {}
        Ok(false) => std::process::exit(1),
        Err(error) => {
            eprintln!("peer: {error}");
            std::process::exit(2);
        }
    }
}
