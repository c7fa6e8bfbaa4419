//! A real capture: message behind message to the file's end, each of them accepted with exactly its length.
use model::ask::ask;
use model::message;
use model::question::Question;
use model::tally::Other;
use model::ways::Ways;

/// Each message is asked about with up to this many bytes of what is behind it.
const BEHIND: usize = 256;

/// False if a message is refused, or another length is given, by any of our program, libdbus and the model; or if the file is empty.
pub fn check(bytes: &[u8], libdbus: &dyn Other, program: &[String]) -> std::io::Result<bool> {
    let ends = ends(bytes);
    let starts: Vec<usize> = std::iter::once(0).chain(ends.iter().copied()).collect();
    let asked = |(start, end): (&usize, &usize)| Question::Message { bytes: bytes[*start..bytes.len().min(end + BEHIND)].to_vec() };
    let questions: Vec<Question> = starts.iter().zip(&ends).map(asked).collect();
    let lines: Vec<String> = questions.iter().map(Question::to_string).collect();
    let answers: Vec<_> = ask(program, &lines)?.into_iter().zip(libdbus.ask(&questions)?).collect();
    let mut right = 0;
    for (i, (ours, theirs)) in answers.iter().enumerate() {
        let expected = format!("ok {}", ends[i] - starts[i]);
        if *ours == expected && theirs.as_ref() == Some(&expected) {
            right += 1;
        } else {
            println!("at {}: {expected} expected, answers: {ours}, libdbus: {theirs:?}", starts[i]);
        }
    }
    let reached = ends.last().copied().unwrap_or(0);
    println!("{} messages, {right} accepted with exactly their length by both; {reached} of {} bytes", ends.len(), bytes.len());
    Ok(right == ends.len() && reached == bytes.len() && !ends.is_empty())
}

/// Where each message ends by the model, up to the first that it refuses.
fn ends(bytes: &[u8]) -> Vec<usize> {
    let mut at = 0;
    std::iter::from_fn(|| {
        let message = message::check(&bytes[at..], Ways::DOCUMENT).ok()?;
        at += message.length();
        Some(at)
    })
    .collect()
}
