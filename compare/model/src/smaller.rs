//! Makes the smallest case of a row smaller still, as long as that row decides on it. The model stands for both sides meanwhile.
use crate::answer::answer;
use crate::question::Question;
use crate::tally::{decides, Case, Other};
use crate::ways::{Row, Ways};

/// The question with the model's answers, if the row decides on it.
fn case(other: &dyn Other, question: Question, row: Row) -> Option<Case> {
    let theirs = other.words(&question, &answer(&question, Ways::all(other.rows())));
    let ours = answer(&question, Ways::DOCUMENT);
    decides(other, &question, row).then_some(Case { question, ours, theirs })
}

/// Tries smaller questions until none serves.
pub fn shrink(other: &dyn Other, found: &Case, row: Row) -> Case {
    let mut smallest = about_the_message(other, found, row);
    loop {
        let here = smallest.size();
        let tried = smaller(&smallest.question).into_iter().filter(|q| q.to_string().len() <= here.2 + q.kind().len());
        match { tried }.filter_map(|question| case(other, question, row)).find(|case| case.size() < here) {
            Some(case) => smallest = case,
            None => return smallest,
        }
    }
}

/// A question about a message's parts as one about the message, where that serves.
fn about_the_message(other: &dyn Other, found: &Case, row: Row) -> Case {
    let question = match &found.question {
        Question::Header { bytes } | Question::Field { message: bytes, .. } => Question::Message { bytes: bytes.clone() },
        other => other.clone(),
    };
    case(other, question, row).unwrap_or_else(|| found.clone())
}

/// Questions near this one, with bytes taken out or made plainer.
fn smaller(question: &Question) -> Vec<Question> {
    let mut found = Vec::new();
    match question {
        Question::Value { big, offset, sig, bytes } => {
            found.push(Question::Value { big: false, offset: *offset, sig: sig.clone(), bytes: bytes.clone() });
            found.extend(fewer(bytes).map(|bytes| Question::Value { big: *big, offset: *offset, sig: sig.clone(), bytes }));
            found.extend(fewer(sig).map(|sig| Question::Value { big: *big, offset: *offset, sig, bytes: bytes.clone() }));
            found.extend((0..*offset).map(|offset| Question::Value { big: *big, offset, sig: sig.clone(), bytes: bytes.clone() }));
        }
        Question::Message { bytes } => {
            found.extend(fewer(bytes).chain(without_a_field(bytes)).map(|bytes| Question::Message { bytes }));
        }
        Question::Pad { place, alignment, buf } => {
            found.extend(fewer(buf).map(|buf| Question::Pad { place: *place, alignment: *alignment, buf }));
            found.extend((0..*place).map(|place| Question::Pad { place, alignment: *alignment, buf: buf.clone() }));
            found.extend((0..*alignment).map(|alignment| Question::Pad { place: *place, alignment, buf: buf.clone() }));
        }
        Question::Write { width, big, place, number, buf } => {
            found.extend(fewer(buf).map(|buf| Question::Write { width: *width, big: *big, place: *place, number: *number, buf }));
            found.extend((0..*place).map(|place| Question::Write { width: *width, big: *big, place, number: *number, buf: buf.clone() }));
            found.push(Question::Write { width: *width, big: *big, place: *place, number: 0, buf: buf.clone() });
        }
        Question::WriteString { big, place, text, buf } => {
            found.extend(fewer(buf).map(|buf| Question::WriteString { big: *big, place: *place, text: text.clone(), buf }));
            found.extend(fewer(text).map(|text| Question::WriteString { big: *big, place: *place, text, buf: buf.clone() }));
            found.extend((0..*place).map(|place| Question::WriteString { big: *big, place, text: text.clone(), buf: buf.clone() }));
        }
        Question::WriteSignature { place, sig, buf } => {
            found.extend(fewer(buf).map(|buf| Question::WriteSignature { place: *place, sig: sig.clone(), buf }));
            found.push(Question::WriteSignature { place: *place, sig: vec![b'b'; sig.len()], buf: vec![0; buf.len()] });
            found.extend(fewer(sig).map(|sig| Question::WriteSignature { place: *place, sig, buf: buf.clone() }));
            found.extend((0..*place).map(|place| Question::WriteSignature { place, sig: sig.clone(), buf: buf.clone() }));
        }
        Question::Sig { .. } | Question::Fixed { .. } | Question::Header { .. } | Question::Field { .. } => {}
    }
    found
}

/// The bytes with 8, 4, 2 or 1 of them taken out, with a length before them made to fit, or with one made plainer.
fn fewer(bytes: &[u8]) -> impl Iterator<Item = Vec<u8>> + '_ {
    let cut = [8, 4, 2, 1].into_iter().flat_map(move |n| (0..(bytes.len() + 1).saturating_sub(n)).map(move |at| (n, at)));
    let shorter = cut.clone().map(|(n, at)| [&bytes[..at], &bytes[at + n..]].concat());
    // long cases are cut only: there are too many ways to alter them
    let few = bytes.len() < 90;
    let fitted = cut.filter(move |_| few).flat_map(move |(n, at)| {
        (0..at).filter(move |i| bytes[*i] as usize >= n).map(move |i| {
            let mut less = bytes.to_vec();
            less[i] -= n as u8;
            less.drain(at..at + n);
            less
        })
    });
    let plainer = (0..bytes.len()).filter(move |_| few).flat_map(move |at| {
        [0, 1, b'y'].into_iter().filter(move |b| b < &bytes[at]).map(move |b| {
            let mut plain = bytes.to_vec();
            plain[at] = b;
            plain
        })
    });
    shorter.chain(fitted).chain(plainer)
}

/// A little-endian message with 8 to 40 bytes less in its table.
fn without_a_field(bytes: &[u8]) -> impl Iterator<Item = Vec<u8>> + '_ {
    let places = (2..bytes.len() / 8).flat_map(|from| (1..6).map(move |n| (from * 8, n * 8)));
    places.filter(|(from, n)| from + n <= bytes.len() && bytes[12] as usize >= *n).map(|(from, n)| {
        let mut less = bytes.to_vec();
        less[12] -= n as u8;
        less.drain(from..from + n);
        less
    })
}
