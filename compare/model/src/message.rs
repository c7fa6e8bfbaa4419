//! Messages: document 01, port order 5, with the rows that change them.
use crate::grammar::{self, Type};
use crate::value::{is_path, no, Bytes, Fault, Levels, Walk};
use crate::ways::{Row, Ways};

/// What a header field holds.
#[derive(Clone, Copy, PartialEq, Debug)]
pub enum Entry {
    Absent,
    Number(u32),
    Text { place: usize, length: usize },
}

/// An accepted message.
#[derive(Debug)]
pub struct Message {
    pub big: bool,
    pub kind: u8,
    pub flags: u8,
    pub version: u8,
    pub serial: u32,
    pub body: usize,
    pub body_length: usize,
    /// by field code, less one
    pub fields: [Entry; 9],
}

impl Message {
    pub fn length(&self) -> usize {
        self.body + self.body_length
    }
}

/// The types that the field codes 1 to 9 ask for.
const KNOWN: &[u8; 9] = b"osssussgu";

/// The codes that each message type needs, by type less one.
const NEEDED: [&[usize]; 4] = [&[1, 3], &[5], &[4, 5], &[1, 2, 3]];

pub fn check(all: &[u8], ways: Ways) -> Walk<Message> {
    let bytes = start(all, ways)?;
    if all.len() < 16 {
        return no(0, 2);
    }
    let end = 16 + bytes.number(12, 4) as usize;
    if all.len() < end {
        return no(0, 2);
    }
    let fields = at_zero(table(&bytes, all[1], end))?;
    let body = at_zero(bytes.padded(end, all.len(), 8))?;
    let message = Message {
        big: bytes.big,
        kind: all[1],
        flags: all[2],
        version: all[3],
        serial: bytes.number(8, 4) as u32,
        body,
        body_length: bytes.number(4, 4) as usize,
        fields,
    };
    if all.len() - body < message.body_length {
        return no(0, 2);
    }
    values(&bytes, &message)?;
    Ok(message)
}

/// The first 12 bytes: the order that they name, and whether the rest is worth reading.
fn start(all: &[u8], ways: Ways) -> Walk<Bytes<'_>> {
    if all.len() < 12 {
        return no(0, 2);
    }
    let big = match all[0] {
        b'l' => false,
        b'B' => true,
        _ => return no(0, 17),
    };
    let bytes = Bytes { all, big, ways };
    let kind = all[1];
    if kind == 0 || kind > 4 && !ways.has(Row::L2) {
        return no(0, 18);
    }
    if ways.has(Row::K5) && (all[3] != 1 || bytes.number(8, 4) == 0) {
        return no(0, 18);
    }
    Ok(bytes)
}

/// Faults before the body's values have position 0.
fn at_zero<T>(walk: Walk<T>) -> Walk<T> {
    walk.map_err(|fault| match fault {
        Fault::Refused { number, .. } => Fault::Refused { at: 0, number },
        stops => stops,
    })
}

fn table(bytes: &Bytes, kind: u8, end: usize) -> Walk<[Entry; 9]> {
    let seen = if bytes.ways.has(Row::S2) { bytes.all.len() } else { end };
    let mut fields = [Entry::Absent; 9];
    let mut twice = false;
    let mut at = 16;
    while at < end {
        let (next, known) = field(bytes, at, seen)?;
        if let Some((code, entry)) = known {
            twice |= fields[code - 1] != Entry::Absent;
            fields[code - 1] = entry;
        }
        at = next;
    }
    let needed: &[usize] = NEEDED.get(kind as usize - 1).copied().unwrap_or(&[]);
    if twice || needed.iter().any(|code| fields[code - 1] == Entry::Absent) {
        return no(0, 21);
    }
    Ok(fields)
}

/// The field at `at`: the place after it, and what it holds if its code is known.
fn field(bytes: &Bytes, at: usize, end: usize) -> Walk<(usize, Option<(usize, Entry)>)> {
    let start = bytes.padded(at, end, 8)?;
    if start == end {
        return no(start, 2);
    }
    let code = bytes.all[start] as usize;
    let (sig, value) = bytes.signature(start + 1, end)?;
    let types = grammar::bare(sig, bytes.ways).unwrap_or_default();
    let [one] = &types[..] else { return no(start, 19) };
    match code {
        0 => no(start, 20),
        1..=9 => {
            if *one != Type::Basic(KNOWN[code - 1]) {
                return no(start, 15);
            }
            let next = bytes.basic(KNOWN[code - 1], value, end)?;
            let entry = entry(bytes, KNOWN[code - 1], value, next);
            content(bytes, code, entry)?;
            Ok((next, Some((code, entry))))
        }
        _ => {
            if code == 10 && bytes.ways.has(Row::L3) && *one != Type::Basic(b'o') {
                return no(start, 15);
            }
            let variant = if bytes.ways.has(Row::S3) { at } else { start } + 1;
            // the table is an array, and the field a struct
            let levels = Levels { variants: 0, containers: 2 };
            Ok((bytes.value(&Type::Variant, variant, end, levels)?, None))
        }
    }
}

/// What the header keeps of a known field whose value lies from `value` to `next`: no padding stands before it, since a field begins at a
/// multiple of 8 and its signature has one letter.
fn entry(bytes: &Bytes, letter: u8, value: usize, next: usize) -> Entry {
    match letter {
        b'u' => Entry::Number(bytes.number(next - 4, 4) as u32),
        b'g' => Entry::Text { place: value + 1, length: next - value - 2 },
        _ => Entry::Text { place: value + 4, length: next - value - 5 },
    }
}

/// libdbus's rules on what a known field holds (K6, L4, L5, L6).
fn content(bytes: &Bytes, code: usize, entry: Entry) -> Walk<()> {
    let refused = match entry {
        Entry::Absent => false,
        Entry::Number(n) => code == 5 && n == 0 && bytes.ways.has(Row::L5) || code == 9 && n > 0 && bytes.ways.has(Row::L6),
        Entry::Text { place, length } => {
            let text = &bytes.all[place..place + length];
            bytes.ways.has(Row::K6) && !is_name(code, text) || bytes.ways.has(Row::L4) && is_reserved(code, text)
        }
    };
    if refused {
        no(0, 21)
    } else {
        Ok(())
    }
}

fn is_reserved(code: usize, text: &[u8]) -> bool {
    code == 1 && text == b"/org/freedesktop/DBus/Local" || code == 2 && text == b"org.freedesktop.DBus.Local"
}

/// The form of the name that a field holds, as libdbus tests it: the Specification's, but that a unique name needs no dot.
pub fn is_name(code: usize, text: &[u8]) -> bool {
    let letter = |c: &u8| c.is_ascii_alphanumeric() || *c == b'_';
    let dashed = |c: &u8| letter(c) || *c == b'-';
    let named = |part: &[u8], letter: &dyn Fn(&u8) -> bool| part.first().is_some_and(|c| !c.is_ascii_digit()) && part.iter().all(letter);
    let dotted = |text: &[u8], part: &dyn Fn(&[u8]) -> bool| text.contains(&b'.') && text.split(|c| *c == b'.').all(part);
    match code {
        1 => is_path(text, Ways::DOCUMENT),
        8 => true,
        _ if text.len() > 255 => false,
        2 | 4 => dotted(text, &|part| named(part, &letter)),
        3 => named(text, &letter),
        _ => match text.strip_prefix(b":") {
            Some(unique) => unique.split(|c| *c == b'.').enumerate().all(|(i, part)| (i == 0 || !part.is_empty()) && part.iter().all(dashed)),
            None => dotted(text, &|part| named(part, &dashed)),
        },
    }
}

/// The body's values by field 8, and that nothing is left after them.
fn values(bytes: &Bytes, message: &Message) -> Walk<()> {
    let sig = match message.fields[7] {
        Entry::Text { place, length } => &bytes.all[place..place + length],
        _ => &[],
    };
    let to_the_end = bytes.ways.has(Row::S4) && message.body_length > 0;
    let end = if to_the_end { bytes.all.len() } else { message.length() };
    let types = match grammar::bare(sig, bytes.ways) {
        Err(11) if message.body == end || !bytes.ways.has(Row::B1) => Vec::new(),
        // document 01 has refused it as field 8's own fault: it gets here by a G row only
        Err(number) => return no(0, number),
        Ok(types) => types,
    };
    let at = types.iter().try_fold(message.body, |at, t| bytes.value(t, at, end, Levels::default()))?;
    if at < end {
        no(at, 22)
    } else {
        Ok(())
    }
}
