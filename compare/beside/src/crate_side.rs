//! Asks the original crate, and puts what it says into the words of the program `answers`.
use model::answer::{without_places, STOPS};
use model::fixed::said;
use model::question::{hex, Question};
use model::tally::Other;
use model::ways::{Row, CRATE};
use rustbus::message_builder::{DynamicHeader, MarshalledMessage, MessageType};
use rustbus::params::validation::Error as Invalid;
use rustbus::signature::{Error as SigError, Type};
use rustbus::wire::errors::UnmarshalError as Fault;
use rustbus::wire::unmarshal::{self, Header};
use rustbus::wire::util;
use rustbus::wire::validate_raw::validate_marshalled;
use rustbus::ByteOrder;
use std::panic::{catch_unwind, AssertUnwindSafe};

pub struct Crate;

impl Other for Crate {
    fn name(&self) -> &'static str {
        "the crate"
    }

    fn rows(&self) -> &'static [Row] {
        CRATE
    }

    fn ask(&self, questions: &[Question]) -> std::io::Result<Vec<Option<String>>> {
        Ok(questions.iter().map(answer).collect())
    }

    /// The crate gives no places of texts.
    fn words(&self, question: &Question, line: &str) -> String {
        match question {
            Question::Header { bytes } => without_places(line, bytes),
            _ => line.to_string(),
        }
    }
}

/// The crate's answer, `stops` where it panics, and none where it cannot be asked.
fn answer(question: &Question) -> Option<String> {
    catch_unwind(AssertUnwindSafe(|| asked(question))).unwrap_or_else(|_| Some(STOPS.into()))
}

fn asked(question: &Question) -> Option<String> {
    match question {
        Question::Value { big, offset, sig, bytes } => Some(match one_type(sig)? {
            None => refused(Some(0), 26),
            Some(one) => match validate_marshalled(order(*big), *offset, bytes, &one) {
                Ok(length) => format!("ok {length}"),
                Err((at, fault)) => refused(Some(at), number(&fault)),
            },
        }),
        Question::Sig { sig } => Some(match Type::parse_description(std::str::from_utf8(sig).ok()?) {
            Ok(types) => format!("ok {}", types.len()),
            Err(fault) => refused(Some(0), sig_number(&fault)),
        }),
        Question::Fixed { big, offset, sig, bytes } => fixed(order(*big), *offset, sig, bytes),
        Question::Message { bytes } => Some(whole(bytes).map_or_else(|no| no, |read| format!("ok {}", read.length))),
        Question::Header { bytes } => Some(whole(bytes).map_or_else(|no| no, |read| read.line())),
        Question::Field { code, message, fallback } => Some(match whole(message) {
            Ok(read) => format!("text {}", read.text(*code).map_or(hex(fallback), |text| hex(text.as_bytes()))),
            Err(_) => format!("text {}", hex(fallback)),
        }),
        _ => writer(question),
    }
}

fn order(big: bool) -> ByteOrder {
    if big {
        ByteOrder::BigEndian
    } else {
        ByteOrder::LittleEndian
    }
}

fn refused(at: Option<usize>, number: u8) -> String {
    at.map_or(format!("no - {number}"), |at| format!("no {at} {number}"))
}

/// The one type that a caller's signature spells: the crate's own parser decides. It takes no bytes that are not UTF-8.
fn one_type(sig: &[u8]) -> Option<Option<Type>> {
    let types = Type::parse_description(std::str::from_utf8(sig).ok()?).unwrap_or_default();
    Some(if types.len() == 1 { types.into_iter().next() } else { None })
}

/// An error that document 01 has no number for: it agrees with nothing.
const NONE: u8 = 0;

/// Document 01's number of the crate's error.
fn number(fault: &Fault) -> u8 {
    match fault {
        Fault::NotEnoughBytes => 2,
        Fault::NotEnoughBytesForCollection => 3,
        Fault::PaddingContainedData => 4,
        Fault::InvalidBoolean => 5,
        Fault::Validation(Invalid::InvalidUtf8) => 6,
        Fault::Validation(Invalid::StringContainsNullByte) => 7,
        Fault::Validation(Invalid::InvalidObjectPath) => 9,
        Fault::Validation(Invalid::InvalidSignature(inner)) => sig_number(inner),
        Fault::WrongSignature => 15,
        Fault::InvalidByteOrder => 17,
        Fault::InvalidMessageType => 18,
        Fault::NoSignature => 19,
        Fault::InvalidHeaderField => 20,
        Fault::InvalidHeaderFields => 21,
        Fault::NotAllBytesUsed => 22,
        _ => NONE,
    }
}

fn sig_number(fault: &SigError) -> u8 {
    match fault {
        SigError::InvalidSignature => 10,
        SigError::EmptySignature => 11,
        SigError::EmptyStruct => 12,
        SigError::SignatureTooLong => 13,
        SigError::NestingTooDeep => 14,
        _ => NONE,
    }
}

/// A value of fixed width: checked, then read by the crate's integer readers. The crate has no such reader for other types.
fn fixed(order: ByteOrder, offset: usize, sig: &[u8], bytes: &[u8]) -> Option<String> {
    let [letter @ (b'y' | b'b' | b'n' | b'q' | b'i' | b'u' | b'x' | b't' | b'd' | b'h')] = sig else { return None };
    let one = one_type(sig)??;
    let length = match validate_marshalled(order, offset, bytes, &one) {
        Ok(length) => length,
        Err((at, fault)) => return Some(refused(Some(at), number(&fault))),
    };
    let padding = util::align_offset(one.get_alignment(), bytes, offset).ok()?;
    let place = &bytes[offset + padding..offset + length];
    let bits = match letter {
        b'y' => place[0] as u64,
        b'n' | b'q' => util::parse_u16(place, order).ok()?.1 as u64,
        b'x' | b't' | b'd' => util::parse_u64(place, order).ok()?.1,
        _ => util::parse_u32(place, order).ok()?.1 as u64,
    };
    Some(said(*letter, bits))
}

/// A message that the crate takes, and its body too.
struct Read {
    header: Header,
    fields: DynamicHeader,
    length: usize,
}

/// The crate's four steps: the header, the fields, the message, its body. The first three give no position.
fn whole(bytes: &[u8]) -> Result<Read, String> {
    let before_the_body = |fault: Fault| refused(None, number(&fault));
    let (start, header) = unmarshal::unmarshal_header(bytes, 0).map_err(before_the_body)?;
    let (table, fields) = unmarshal::unmarshal_dynamic_header(&header, bytes, start).map_err(before_the_body)?;
    let at = start + table;
    let (rest, message) = unmarshal::unmarshal_next_message(&header, fields.clone(), bytes, at).map_err(before_the_body)?;
    let length = at + rest;
    if let Err(fault) = message.body.validate() {
        let place = body_position(&message, header.byteorder, &fault).map(|at| length - header.body_len as usize + at);
        return Err(refused(place, number(&fault)));
    }
    Ok(Read { header, fields, length })
}

/// `validate` drops the position that its walk gives: the same walk again, to have it. None where it stops before the values.
fn body_position(message: &MarshalledMessage, order: ByteOrder, fault: &Fault) -> Option<usize> {
    let mut at = 0;
    for one in Type::parse_description(message.get_sig()).ok()? {
        match validate_marshalled(order, at, message.get_buf(), &one) {
            Ok(length) => at += length,
            Err((place, again)) if again == *fault => return Some(place),
            Err(_) => return None,
        }
    }
    Some(at)
}

impl Read {
    fn text(&self, code: u8) -> Option<&String> {
        let f = &self.fields;
        match code {
            1 => f.object.as_ref(),
            2 => f.interface.as_ref(),
            3 => f.member.as_ref(),
            4 => f.error_name.as_ref(),
            6 => f.destination.as_ref(),
            7 => f.sender.as_ref(),
            8 => f.signature.as_ref(),
            _ => None,
        }
    }

    /// A header's line, with each text instead of its place, which the crate does not give.
    fn line(&self) -> String {
        let h = &self.header;
        let order = if matches!(h.byteorder, ByteOrder::BigEndian) { 'B' } else { 'l' };
        let kind = match h.typ {
            MessageType::Call => 1,
            MessageType::Reply => 2,
            MessageType::Error => 3,
            MessageType::Signal => 4,
            MessageType::Invalid => 0,
        };
        let body = self.length - h.body_len as usize;
        let start = format!("ok {} {order} {kind} {} {} {} {body} {}", self.length, h.flags, h.version, h.serial, h.body_len);
        (1..=9).fold(start, |line, code| {
            let number = match code {
                5 => self.fields.response_serial,
                9 => self.fields.num_fds,
                _ => None,
            };
            let text = self.text(code).map(|text| format!(" t={}", hex(text.as_bytes())));
            line + &number.map(|n| format!(" n:{n}")).or(text).unwrap_or(" -".into())
        })
    }
}

/// A writer: the crate's grow a `Vec`, which here holds what stands before the place. A place above the buffer's length has no such `Vec`.
fn writer(question: &Question) -> Option<String> {
    let (place, buf) = match question {
        Question::Pad { place, buf, .. } | Question::Write { place, buf, .. } => (*place, buf),
        Question::WriteString { place, buf, .. } | Question::WriteSignature { place, buf, .. } => (*place, buf),
        _ => return None,
    };
    let mut out = buf.get(..place)?.to_vec();
    match question {
        Question::Pad { alignment, .. } => util::pad_to_align(*alignment, &mut out),
        Question::Write { width: 2, big, number, .. } => util::write_u16(*number as u16, order(*big), &mut out),
        Question::Write { width: 4, big, number, .. } => util::write_u32(*number as u32, order(*big), &mut out),
        Question::Write { big, number, .. } => util::write_u64(*number, order(*big), &mut out),
        Question::WriteString { big, text, .. } => util::write_string(std::str::from_utf8(text).ok()?, order(*big), &mut out),
        Question::WriteSignature { sig, .. } => util::write_signature(std::str::from_utf8(sig).ok()?, &mut out),
        _ => return None,
    }
    let next = out.len();
    out.extend(buf.get(next..).unwrap_or(&[]));
    Some(format!("ok {next} {}", hex(&out)))
}
