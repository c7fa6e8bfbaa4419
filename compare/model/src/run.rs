//! A run: all questions to both sides, in batches.
use crate::ask::ask;
use crate::question::Question;
use crate::tally::{judge, Other, Tally, Verdict};
use std::io::Result;

const BATCH: usize = 20_000;

/// Asks `program` and the other side; `each` sees every question with both answers.
pub fn run(
    program: &[String],
    other: &dyn Other,
    questions: impl Iterator<Item = Question>,
    mut each: impl FnMut(&Question, &str, &Option<String>, &Verdict),
) -> Result<Tally> {
    let mut tally = Tally::default();
    let mut questions = questions.peekable();
    while questions.peek().is_some() {
        let batch: Vec<Question> = questions.by_ref().take(BATCH).collect();
        let lines: Vec<String> = batch.iter().map(Question::to_string).collect();
        let answers = ask(program, &lines)?.into_iter().zip(other.ask(&batch)?);
        for (question, (ours, theirs)) in batch.iter().zip(answers) {
            let verdict = judge(other, question, &ours, &theirs);
            each(question, &ours, &theirs, &verdict);
            tally.add(other, question, &ours, theirs, verdict);
        }
    }
    Ok(tally)
}
