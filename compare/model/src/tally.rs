//! Holds our program, another side and the model against each other, and counts.
use crate::answer::{answer, same};
use crate::question::Question;
use crate::ways::{fewest, Row, Ways};
use std::collections::BTreeMap;

/// Another side that can be asked.
pub trait Other {
    fn name(&self) -> &'static str;
    /// the rows by which it differs from document 01
    fn rows(&self) -> &'static [Row];
    /// its answers; none where it cannot be asked
    fn ask(&self, questions: &[Question]) -> std::io::Result<Vec<Option<String>>>;
    /// an answer in our words, put into what it can say
    fn words(&self, question: &Question, line: &str) -> String;
}

/// A question on which the sides differ, with both answers.
#[derive(Clone)]
pub struct Case {
    pub question: Question,
    pub ours: String,
    pub theirs: String,
}

/// How the questions of one kind came out.
#[derive(Default)]
pub struct Kind {
    pub asked: usize,
    pub same: usize,
    pub differ: usize,
    pub not_asked: usize,
}

#[derive(Default)]
pub struct Tally {
    pub kinds: BTreeMap<&'static str, Kind>,
    /// by the fewest rows that explain: how many
    pub sets: BTreeMap<Ways, usize>,
    /// the smallest question on which a row decides
    pub smallest: BTreeMap<Row, Case>,
    pub failures: Vec<String>,
}

/// What a question comes to.
pub enum Verdict {
    Same,
    /// the other side cannot be asked
    NotAsked,
    /// the fewest rows that explain it
    Differ(Ways),
    Unexplained(String),
}

/// With no row turned the model must answer as our program does; with all turned, as the other side does.
pub fn judge(other: &dyn Other, question: &Question, ours: &str, theirs: &Option<String>) -> Verdict {
    let document = answer(question, Ways::DOCUMENT);
    if document != ours {
        return Verdict::Unexplained(format!("{question}\n  answers: {ours}\n  the model of document 01: {document}"));
    }
    let Some(theirs) = theirs else { return Verdict::NotAsked };
    let turned = answer(question, Ways::all(other.rows()));
    if !same(&other.words(question, &turned), theirs) {
        let name = other.name();
        let why = format!("{question}\n  answers: {ours}\n  {name}: {theirs}\n  the model with all rows turned: {turned}");
        return Verdict::Unexplained(why);
    }
    match explaining(other, question, theirs) {
        Ways::DOCUMENT => Verdict::Same,
        ways => Verdict::Differ(ways),
    }
}

/// The fewest rows that lead from document 01 to `theirs`: none where that is document 01's answer.
pub fn explaining(other: &dyn Other, question: &Question, theirs: &str) -> Ways {
    let explains = |ways| same(&other.words(question, &answer(question, ways)), theirs);
    if explains(Ways::DOCUMENT) {
        Ways::DOCUMENT
    } else {
        fewest(other.rows(), explains)
    }
}

/// Whether the row decides: it explains alone, and without it the other side would say what document 01 does.
pub fn decides(other: &dyn Other, question: &Question, row: Row) -> bool {
    let said = |ways| other.words(question, &answer(question, ways));
    let (document, all) = (said(Ways::DOCUMENT), Ways::all(other.rows()));
    said(Ways::all(&[row])) == said(all) && said(all) != document && said(all.without(row)) == document
}

impl Tally {
    pub fn add(&mut self, other: &dyn Other, question: &Question, ours: &str, theirs: Option<String>, verdict: Verdict) {
        let kind = self.kinds.entry(question.kind()).or_default();
        kind.asked += 1;
        match verdict {
            Verdict::Same => kind.same += 1,
            Verdict::NotAsked => kind.not_asked += 1,
            Verdict::Unexplained(why) => self.failures.push(why),
            Verdict::Differ(ways) => {
                kind.differ += 1;
                *self.sets.entry(ways).or_default() += 1;
                let case = Case { question: question.clone(), ours: ours.into(), theirs: theirs.unwrap_or_default() };
                if let [row] = ways.rows(other.rows())[..] {
                    self.keep(other, case, row);
                }
            }
        }
    }

    /// Keeps the case if it is the row's smallest so far.
    fn keep(&mut self, other: &dyn Other, case: Case, row: Row) {
        let smaller = self.smallest.get(&row).is_none_or(|smallest| case.size() < smallest.size());
        if smaller && decides(other, &case.question, row) {
            self.smallest.insert(row, case);
        }
    }

    /// How many questions a row helps to explain.
    pub fn count(&self, row: Row) -> usize {
        self.sets.iter().filter(|(ways, _)| ways.has(row)).map(|(_, count)| count).sum()
    }

    /// How many it explains alone.
    pub fn count_alone(&self, row: Row) -> usize {
        self.sets.get(&Ways::all(&[row])).copied().unwrap_or(0)
    }
}

impl Case {
    /// Smaller is first that one side accepts and the other does not, which shows most; then little-endian; then the shorter line.
    pub fn size(&self) -> (bool, bool, usize, String) {
        let both = self.ours.starts_with("ok") == self.theirs.starts_with("ok");
        let line = self.question.to_string();
        (both, self.question.is_big(), line.len() - self.question.kind().len(), line)
    }
}
