//! Several files of answers to the same questions.
use std::collections::BTreeMap;
use std::fs;
use std::io;

// The numbers of the refusals, of the table that names them.
fn refusals() -> Vec<usize> {
    let table = include_str!("../../docs/refusals.txt");
    let number = |row: &str| row.split(" | ").next()?.parse().ok();
    table.lines().filter_map(number).collect()
}

type Lines = Vec<Vec<u8>>;

fn lines(file: &str) -> io::Result<Lines> {
    let text = fs::read(file)
        .map_err(|error| io::Error::new(error.kind(), format!("{}: {}", file, error)))?;
    let text = text.strip_suffix(b"\n").unwrap_or(&text);
    Ok(text.split(|c| *c == b'\n').map(<[u8]>::to_vec).collect())
}

fn short(line: &[u8]) -> String {
    String::from_utf8_lossy(&line[..line.len().min(400)]).into_owned()
}

/// How the answers to one kind of question fall.
#[derive(Default)]
struct Tally {
    ok: usize,
    bad: usize,
    refused: BTreeMap<usize, usize>,
}

impl Tally {
    fn count(&mut self, answer: &[u8]) -> Result<(), String> {
        let answer = short(answer);
        let words: Vec<&str> = answer.split(' ').collect();
        match words[..] {
            ["ok" | "text" | "whole" | "cut", ..] => self.ok += 1,
            ["bad"] => self.bad += 1,
            ["no", _, number, ..] => {
                let number = number.parse().ok().filter(|n| refusals().contains(n));
                *self
                    .refused
                    .entry(number.ok_or(answer.clone())?)
                    .or_default() += 1;
            }
            _ => return Err(answer),
        }
        Ok(())
    }
}

const KINDS: [&str; 13] = [
    "value", "sig", "fixed", "message", "next", "header", "field", "pad", "w16", "w32", "w64",
    "wstr", "wsig",
];

fn kind(question: &[u8], answer: &[u8]) -> &'static str {
    let named = |kind: &&&str| question.starts_with(kind.as_bytes()) && answer != b"bad";
    KINDS.iter().find(named).copied().unwrap_or("no question")
}

fn print(tallies: &BTreeMap<&str, Tally>) {
    let mut all = BTreeMap::new();
    println!(
        "{:<12} {:>7} {:>7} {:>7}   by number",
        "question", "ok", "refused", "bad"
    );
    for (kind, tally) in tallies {
        let refused: usize = tally.refused.values().sum();
        let by_number: Vec<String> = tally
            .refused
            .iter()
            .map(|(number, times)| format!("{}:{}", number, times))
            .collect();
        println!(
            "{:<12} {:>7} {:>7} {:>7}   {}",
            kind,
            tally.ok,
            refused,
            tally.bad,
            by_number.join(" ")
        );
        for (number, times) in &tally.refused {
            *all.entry(*number).or_insert(0) += times;
        }
    }
    let numbers = refusals();
    let missing: Vec<String> = numbers
        .iter()
        .filter(|n| !all.contains_key(n))
        .map(|n| n.to_string())
        .collect();
    println!(
        "refusals that were given: {} of {}; not given: {}",
        all.len(),
        numbers.len(),
        if missing.is_empty() {
            "none".to_string()
        } else {
            missing.join(" ")
        }
    );
}

/// Whether all files have the same answer in each line, which must be an answer. Prints the first lines that differ, and the tally.
pub fn compare(questions: &str, files: &[&str]) -> io::Result<bool> {
    let asked = lines(questions)?;
    let given: Vec<Lines> = files
        .iter()
        .map(|file| lines(file))
        .collect::<io::Result<_>>()?;
    let mut wrong = 0;
    for (file, answers) in files.iter().zip(&given) {
        if answers.len() != asked.len() {
            println!(
                "{} answers in {} to {} questions",
                answers.len(),
                file,
                asked.len()
            );
            return Ok(false);
        }
    }
    let mut tallies: BTreeMap<&str, Tally> = BTreeMap::new();
    for (at, question) in asked.iter().enumerate() {
        let first = &given[0][at];
        let counted = tallies
            .entry(kind(question, first))
            .or_default()
            .count(first);
        if counted.is_err() || given.iter().any(|answers| answers[at] != *first) {
            wrong += 1;
            if wrong <= 10 {
                println!("question {}: {}", at + 1, short(question));
                for (file, answers) in files.iter().zip(&given) {
                    println!("    {:<24} {}", file, short(&answers[at]));
                }
            }
        }
    }
    print(&tallies);
    println!(
        "{} questions, {} programs: {} answers differ",
        asked.len(),
        files.len(),
        wrong
    );
    Ok(wrong == 0)
}
