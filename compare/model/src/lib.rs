//! A reading of document 01 apart from the proved code, in plain Rust, with a switch for each row of docs/DIFFERENCES.md; the questions to ask;
//! and what holds our program, another side and the model against each other.

// the model: what document 01 answers, and what it would with rows turned
pub mod answer;
pub mod fixed;
pub mod grammar;
pub mod message;
pub mod question;
pub mod value;
pub mod ways;
pub mod write;

// questions
pub mod encode;
pub mod make;
pub mod random;

// a run
pub mod ask;
pub mod report;
pub mod run;
pub mod smaller;
pub mod tally;
