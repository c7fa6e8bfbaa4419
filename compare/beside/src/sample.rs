//! A sample of the crate's answers for the program crates/replay_original, which replays it without the crate.
use model::question::Question;
use model::tally::Verdict;
use model::ways::CRATE;
use std::collections::BTreeMap;

/// How many questions are kept of each kind and outcome where the sides agree.
const OF_SAME: usize = 32;
/// How many of each kind, outcome and set of rows where they differ.
const OF_DIFFERING: usize = 7;
/// Longer lines are left out.
const LONGEST: usize = 260;

#[derive(Default)]
pub struct Sample {
    counts: BTreeMap<(&'static str, String, String), usize>,
    /// a question, the crate's answer and the rows
    lines: Vec<String>,
    /// what the program says to each line
    says: Vec<&'static str>,
}

impl Sample {
    /// Keeps the first few of each sort.
    pub fn add(&mut self, question: &Question, ours: &str, theirs: &Option<String>, verdict: &Verdict) {
        let (rows, most, says) = match verdict {
            Verdict::Same => ("-".to_string(), OF_SAME, "same"),
            Verdict::Differ(ways) => (ways.rows(CRATE).iter().map(|row| row.id()).collect::<Vec<_>>().join("+"), OF_DIFFERING, "differs"),
            Verdict::NotAsked | Verdict::Unexplained(_) => return,
        };
        let line = format!("{question} => {} => {rows}", theirs.as_deref().unwrap_or_default());
        if !matches!(question.kind(), "value" | "sig" | "message") || line.len() > LONGEST {
            return;
        }
        let kept = self.counts.entry((question.kind(), rows, outcome(ours))).or_default();
        if *kept < most {
            *kept += 1;
            self.lines.push(line);
            self.says.push(says);
        }
    }

    /// Writes the program's input and what it is to say.
    pub fn write(&self, folder: &str) -> std::io::Result<()> {
        std::fs::write(format!("{folder}/stdin"), self.lines.join("\n") + "\n")?;
        std::fs::write(format!("{folder}/stdout"), self.says.join("\n") + "\n")
    }
}

/// An answer without what it says of place and length: `ok`, or `no` and its number.
fn outcome(answer: &str) -> String {
    let words: Vec<&str> = answer.split(' ').collect();
    match words[..] {
        ["no", _, number, ..] => format!("no {number}"),
        [first, ..] => first.to_string(),
        [] => String::new(),
    }
}
