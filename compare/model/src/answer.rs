//! What the model answers, in the words of the program `answers`.
use crate::message::{self, Entry, Message};
use crate::question::{hex, Question};
use crate::value::{Fault, Walk};
use crate::ways::Ways;
use crate::{fixed, grammar, value, write};

/// The answer with the rows of `ways` turned to the other side's way.
pub fn answer(question: &Question, ways: Ways) -> String {
    match question {
        Question::Value { big, offset, sig, bytes } => said(value::check(*big, *offset, sig, bytes, ways), accepted),
        Question::Sig { sig } => match grammar::bare(sig, ways) {
            Ok(types) => accepted(types.len()),
            Err(number) => format!("no 0 {number}"),
        },
        Question::Fixed { big, offset, sig, bytes } => said(fixed::read(*big, *offset, sig, bytes, ways), |words| words),
        Question::Message { bytes } => said(message::check(bytes, ways), |m| accepted(m.length())),
        Question::Header { bytes } => said(message::check(bytes, ways), |m| header(&m)),
        Question::Field { code, message, fallback } => format!("text {}", hex(lookup(*code, message, fallback, ways))),
        Question::Pad { place, alignment, buf } => written(write::padding(*place, *alignment, buf, ways), buf),
        Question::Write { width, big, place, number, buf } => written(write::number(*width, *big, *place, *number, buf, ways), buf),
        Question::WriteString { big, place, text, buf } => written(write::string(*big, *place, text, buf, ways), buf),
        Question::WriteSignature { place, sig, buf } => written(write::signature(*place, sig, buf, ways), buf),
    }
}

fn accepted(n: usize) -> String {
    format!("ok {n}")
}

fn said<T>(walk: Walk<T>, ok: impl Fn(T) -> String) -> String {
    match walk {
        Ok(found) => ok(found),
        Err(Fault::Refused { at, number }) => format!("no {at} {number}"),
        Err(Fault::Stops) => STOPS.into(),
    }
}

/// The answer of a program that stops.
pub const STOPS: &str = "stops";

fn written(walk: Walk<write::Done>, buf: &[u8]) -> String {
    match walk {
        Err(Fault::Refused { at, number }) => format!("no {at} {number} {}", hex(buf)),
        other => said(other, |(place, buf)| format!("ok {place} {}", hex(&buf))),
    }
}

fn header(m: &Message) -> String {
    let order = if m.big { 'B' } else { 'l' };
    let start = format!("ok {} {order} {} {} {} {} {} {}", m.length(), m.kind, m.flags, m.version, m.serial, m.body, m.body_length);
    m.fields.iter().fold(start, |line, entry| {
        line + &match entry {
            Entry::Absent => " -".to_string(),
            Entry::Number(n) => format!(" n:{n}"),
            Entry::Text { place, length } => format!(" t:{place}:{length}"),
        }
    })
}

/// The text of a field, or the fallback.
fn lookup<'a>(code: u8, bytes: &'a [u8], fallback: &'a [u8], ways: Ways) -> &'a [u8] {
    let Ok(message) = message::check(bytes, ways) else { return fallback };
    match (code, message.fields.get((code as usize).wrapping_sub(1))) {
        (1 | 2 | 3 | 4 | 6 | 7 | 8, Some(Entry::Text { place, length })) => &bytes[*place..place + length],
        _ => fallback,
    }
}

/// A header's line with each text instead of its place, as a side that gives no places has it.
pub fn without_places(line: &str, message: &[u8]) -> String {
    let word = |w: &str| match w.strip_prefix("t:").and_then(|part| part.split_once(':')) {
        Some((place, length)) => {
            let (place, length): (usize, usize) = (place.parse().unwrap_or(0), length.parse().unwrap_or(0));
            format!("t={}", message.get(place..place + length).map(hex).unwrap_or_default())
        }
        None => w.to_string(),
    };
    line.split(' ').map(word).collect::<Vec<_>>().join(" ")
}

/// Whether two answers say the same: a refusal with `-` for its position gives none.
pub fn same(ours: &str, theirs: &str) -> bool {
    match theirs.strip_prefix("no - ") {
        Some(number) => ours.starts_with("no ") && ours.rsplit(' ').next() == Some(number),
        None => ours == theirs,
    }
}
