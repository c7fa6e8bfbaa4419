//! Asking a program that answers a line for each line.
use std::io::{BufRead, BufReader, BufWriter, Error, Result, Write};
use std::process::{Command, Stdio};

/// The answers of `program` to `lines`, in their order.
pub fn ask(program: &[String], lines: &[String]) -> Result<Vec<String>> {
    let mut child = Command::new(&program[0]).args(&program[1..]).stdin(Stdio::piped()).stdout(Stdio::piped()).spawn()?;
    let input = child.stdin.take().expect("a piped input");
    let output = child.stdout.take().expect("a piped output");
    let answers = std::thread::scope(|scope| {
        // written beside the reading, since either pipe may fill
        let writing = scope.spawn(move || {
            let mut input = BufWriter::new(input);
            lines.iter().try_for_each(|line| writeln!(input, "{line}"))?;
            input.flush()
        });
        let answers: Result<Vec<String>> = BufReader::new(output).lines().collect();
        writing.join().expect("the writer ends")?;
        answers
    })?;
    let status = child.wait()?;
    if !status.success() || answers.len() != lines.len() {
        let (given, asked) = (answers.len(), lines.len());
        return Err(Error::other(format!("{program:?} gave {given} answers to {asked} questions, and ended with {status}")));
    }
    Ok(answers)
}
