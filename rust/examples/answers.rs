//! The questions of the program `answers`, one a line, answered through these bindings: the project's README says which there are.
//! `agree/run` holds the two, and the same program in C, to the same answers.
use millettie::*;
use std::io::{self, Read, Write};
use std::ops::Range;

/// Bytes in hexadecimal; `-` for none.
fn hex(bytes: &[u8]) -> String {
    if bytes.is_empty() {
        return "-".to_string();
    }
    bytes.iter().map(|byte| format!("{:02x}", byte)).collect()
}

fn digit(c: u8) -> Option<u8> {
    match c {
        b'0'..=b'9' => Some(c - b'0'),
        b'a'..=b'f' => Some(c - b'a' + 10),
        _ => None,
    }
}

fn bytes(word: &[u8]) -> Option<Vec<u8>> {
    match word {
        b"-" => Some(Vec::new()),
        b"" => None,
        _ => word.chunks(2).map(byte).collect(),
    }
}

fn byte(pair: &[u8]) -> Option<u8> {
    match pair {
        [high, low] => Some(digit(*high)? * 16 + digit(*low)?),
        _ => None,
    }
}

/// A decimal number of 64 bits.
fn number(word: &[u8]) -> Option<u64> {
    let plain = !word.is_empty() && word.iter().all(u8::is_ascii_digit);
    std::str::from_utf8(word)
        .ok()
        .filter(|_| plain)?
        .parse()
        .ok()
}

fn place(word: &[u8]) -> Option<usize> {
    number(word).map(|n| n as usize)
}

fn order(word: &[u8]) -> Option<ByteOrder> {
    match word {
        b"l" => Some(ByteOrder::LittleEndian),
        b"B" => Some(ByteOrder::BigEndian),
        _ => None,
    }
}

fn no(refusal: Refusal) -> String {
    format!("no {} {}", refusal.position, refusal.number)
}

fn counted(answer: Result<usize, Refusal>) -> String {
    answer.map_or_else(no, |n| format!("ok {}", n))
}

fn fixed(answer: Result<(FixedValue, usize), Refusal>) -> String {
    match answer {
        Err(refusal) => no(refusal),
        Ok((FixedValue::Byte(n), _)) => format!("ok y {}", n),
        Ok((FixedValue::Boolean(b), _)) => format!("ok b {}", u8::from(b)),
        Ok((FixedValue::Int16(n), _)) => format!("ok n {}", n),
        Ok((FixedValue::Uint16(n), _)) => format!("ok q {}", n),
        Ok((FixedValue::Int32(n), _)) => format!("ok i {}", n),
        Ok((FixedValue::Uint32(n), _)) => format!("ok u {}", n),
        Ok((FixedValue::Int64(n), _)) => format!("ok x {}", n),
        Ok((FixedValue::Uint64(n), _)) => format!("ok t {}", n),
        Ok((FixedValue::Double(x), _)) => format!("ok d {:016x}", x.to_bits()),
        Ok((FixedValue::Nan(bits), _)) => format!("ok N {:016x}", bits),
        Ok((FixedValue::UnixFd(n), _)) => format!("ok h {}", n),
    }
}

fn text_field(field: &Option<Range<usize>>) -> String {
    match field {
        Some(at) => format!("t:{}:{}", at.start, at.len()),
        None => "-".to_string(),
    }
}

fn number_field(field: Option<u32>) -> String {
    field.map_or("-".to_string(), |n| format!("n:{}", n))
}

fn fields(f: &Fields) -> String {
    let all = [
        text_field(&f.object),
        text_field(&f.interface),
        text_field(&f.member),
        text_field(&f.error_name),
        number_field(f.response_serial),
        text_field(&f.destination),
        text_field(&f.sender),
        text_field(&f.signature),
        number_field(f.num_fds),
    ];
    all.join(" ")
}

fn header(h: Header) -> String {
    let mark = match h.byteorder {
        ByteOrder::LittleEndian => "l",
        ByteOrder::BigEndian => "B",
    };
    let kind = match h.typ {
        MessageType::Call => 1,
        MessageType::Reply => 2,
        MessageType::Error => 3,
        MessageType::Signal => 4,
    };
    let start = format!(
        "ok {} {} {} {} {} {}",
        h.length, mark, kind, h.flags, h.version, h.serial
    );
    let body = format!("{} {}", h.body.start, h.body.len());
    format!("{} {} {}", start, body, fields(&h.fields))
}

/// A write into the buffer, and the buffer as it is afterwards.
fn written(buf: &[u8], write: impl FnOnce(&mut [u8]) -> Result<usize, Refusal>) -> String {
    let mut buf = buf.to_vec();
    let answer = counted(write(&mut buf));
    format!("{} {}", answer, hex(&buf))
}

/// The answer to a question about a write; none if it is no such question.
fn write(words: &[&[u8]]) -> Option<String> {
    Some(match words {
        [b"pad", p, n, b] => {
            let (at, align) = (place(p)?, number(n)? as usize);
            written(&bytes(b)?, |buf| pad_to_align(align, buf, at))
        }
        [b"w16", o, p, n, b] => {
            let (order, at, val) = (order(o)?, place(p)?, u16::try_from(number(n)?).ok()?);
            written(&bytes(b)?, |buf| write_u16(val, order, buf, at))
        }
        [b"w32", o, p, n, b] => {
            let (order, at, val) = (order(o)?, place(p)?, u32::try_from(number(n)?).ok()?);
            written(&bytes(b)?, |buf| write_u32(val, order, buf, at))
        }
        [b"w64", o, p, n, b] => {
            let (order, at, val) = (order(o)?, place(p)?, number(n)?);
            written(&bytes(b)?, |buf| write_u64(val, order, buf, at))
        }
        [b"wstr", o, p, t, b] => {
            let (order, at, text) = (order(o)?, place(p)?, bytes(t)?);
            written(&bytes(b)?, |buf| write_string(&text, order, buf, at))
        }
        [b"wsig", p, s, b] => {
            let (at, sig) = (place(p)?, bytes(s)?);
            written(&bytes(b)?, |buf| write_signature(&sig, buf, at))
        }
        _ => return None,
    })
}

/// The answer to a line; none if it is no question.
fn answer(line: &[u8]) -> Option<String> {
    let words: Vec<&[u8]> = line.split(|c| *c == b' ').collect();
    Some(match words[..] {
        [b"sig", s] => counted(validate_signature(&bytes(s)?)),
        [b"value", o, p, s, b] => counted(validate_marshalled(
            order(o)?,
            place(p)?,
            &bytes(b)?,
            &bytes(s)?,
        )),
        [b"fixed", o, p, s, b] => fixed(unmarshal_fixed(
            order(o)?,
            place(p)?,
            &bytes(b)?,
            &bytes(s)?,
        )),
        [b"message", b] => counted(check_message(&bytes(b)?)),
        [b"next", b] => match next_message(&bytes(b)?) {
            Next::Whole(length) => format!("whole {}", length),
            Next::Cut(length) => format!("cut {}", length),
            Next::Refused(refusal) => no(refusal),
        },
        [b"header", b] => unmarshal_header(&bytes(b)?).map_or_else(no, header),
        [b"field", c, m, f] => {
            // a code above 255 is no field's, as 0 is none
            let code = u8::try_from(number(c)?).unwrap_or(0);
            format!("text {}", hex(lookup(&bytes(m)?, code, &bytes(f)?)))
        }
        _ => return write(&words),
    })
}

fn main() -> io::Result<()> {
    let mut input = Vec::new();
    io::stdin().read_to_end(&mut input)?;
    let lines = input.strip_suffix(b"\n").unwrap_or(&input);
    let mut out = io::BufWriter::new(io::stdout());
    if !input.is_empty() {
        for line in lines.split(|c| *c == b'\n') {
            writeln!(out, "{}", answer(line).unwrap_or_else(|| "bad".to_string()))?;
        }
    }
    out.flush()
}
