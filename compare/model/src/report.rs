//! The summary.
use crate::answer::same;
use crate::ask::ask;
use crate::smaller::shrink;
use crate::tally::{Case, Other, Tally};
use crate::ways::Row;
use std::io::{Error, Result};

/// Prints all that was counted; false if anything is not explained.
pub fn print(tally: &Tally, other: &dyn Other, program: &[String]) -> Result<bool> {
    kinds(tally, other);
    rows(tally, &smallest(tally, other, program)?, other);
    for why in tally.failures.iter().take(20) {
        println!("NOT EXPLAINED: {why}");
    }
    let asked: usize = tally.kinds.values().map(|kind| kind.asked).sum();
    let differ: usize = tally.kinds.values().map(|kind| kind.differ).sum();
    println!("{asked} questions: {differ} differ by a row, {} not explained", tally.failures.len());
    Ok(tally.failures.is_empty())
}

fn kinds(tally: &Tally, other: &dyn Other) {
    println!("{:<8} {:>9} {:>9} {:>9}   {} cannot be asked", "kind", "asked", "same", "differ", other.name());
    for (name, kind) in &tally.kinds {
        println!("{name:<8} {:>9} {:>9} {:>9} {:>9}", kind.asked, kind.same, kind.differ, kind.not_asked);
    }
}

/// Each row's smallest case, made smaller by the model; both sides are asked again to bear out the answers.
fn smallest(tally: &Tally, other: &dyn Other, program: &[String]) -> Result<Vec<(Row, Option<Case>)>> {
    let mut found = Vec::new();
    for row in other.rows() {
        let case = tally.smallest.get(row).map(|case| borne_out(shrink(other, case, *row), other, program));
        found.push((*row, case.transpose()?));
    }
    Ok(found)
}

/// The case with what the other side itself says.
fn borne_out(case: Case, other: &dyn Other, program: &[String]) -> Result<Case> {
    let ours = ask(program, &[case.question.to_string()])?.concat();
    let theirs = other.ask(std::slice::from_ref(&case.question))?.into_iter().flatten().collect::<String>();
    if case.ours != ours || !same(&case.theirs, &theirs) {
        return Err(Error::other(format!("{}: {ours}, {theirs}, but the model {}, {}", case.question, case.ours, case.theirs)));
    }
    Ok(Case { theirs, ..case })
}

fn rows(tally: &Tally, smallest: &[(Row, Option<Case>)], other: &dyn Other) {
    println!("\n{:<4} {:>9} {:>9}   smallest on which the row decides", "row", "helps", "alone");
    for (row, case) in smallest {
        let said = match case {
            Some(case) => format!("{}: here {}, {} {}", case.question, case.ours, other.name(), case.theirs),
            None => "not met".into(),
        };
        println!("{:<4} {:>9} {:>9}   {said}", row.id(), tally.count(*row), tally.count_alone(*row));
    }
    println!();
}
