//! The relay on streams that are cut at every place.
use crate::{relay, Stop};
use millettie::ByteOrder::{self, BigEndian, LittleEndian};
use millettie::{pad_to_align, write_signature, write_string, write_u32, Refusal};
use std::io::{self, Read};

/// A reader that hands out its pieces, one a read.
struct Pieces<'a>(Vec<&'a [u8]>);

impl Read for Pieces<'_> {
    fn read(&mut self, buf: &mut [u8]) -> io::Result<usize> {
        self.0.retain(|piece| !piece.is_empty());
        match self.0.first_mut() {
            Some(piece) => piece.read(buf),
            None => Ok(0),
        }
    }
}

/// A signal `org.example.Font.Changed` of `/font` with that text in its body, made by the library's writers.
fn signal(order: ByteOrder, serial: u32, text: &str) -> Result<Vec<u8>, Refusal> {
    let mut buf = vec![0; 256 + text.len()];
    buf[..4].copy_from_slice(&[if order == BigEndian { b'B' } else { b'l' }, 4, 0, 1]);
    write_u32(serial, order, &mut buf, 8)?;
    let mut end = 16;
    for (code, kind, text) in [
        (1, "o", "/font"),
        (2, "s", "org.example.Font"),
        (3, "s", "Changed"),
        (8, "g", "s"),
    ] {
        let field = pad_to_align(8, &mut buf, end)?;
        buf[field] = code;
        let value = write_signature(kind.as_bytes(), &mut buf, field + 1)?;
        end = match kind {
            "g" => write_signature(text.as_bytes(), &mut buf, value)?,
            _ => write_string(text.as_bytes(), order, &mut buf, value)?,
        };
    }
    write_u32(end as u32 - 16, order, &mut buf, 12)?;
    let body = pad_to_align(8, &mut buf, end)?;
    let end = write_string(text.as_bytes(), order, &mut buf, body)?;
    write_u32((end - body) as u32, order, &mut buf, 4)?;
    buf.truncate(end);
    Ok(buf)
}

/// What the relay handed on, and how it ended.
fn relayed(pieces: Vec<&[u8]>) -> (Vec<Vec<u8>>, Result<usize, Stop>) {
    let mut messages = Vec::new();
    let end = relay(Pieces(pieces), |message| messages.push(message.to_vec()));
    (messages, end)
}

fn whole_streams(messages: &[Vec<u8>]) {
    let stream = messages.concat();
    for cut in 0..=stream.len() {
        let (got, end) = relayed(vec![&stream[..cut], &stream[cut..]]);
        assert_eq!(got, messages, "cut at {}", cut);
        assert_eq!(end.unwrap(), stream.len());
    }
    let (got, end) = relayed(stream.chunks(1).collect());
    assert_eq!(got, messages, "byte by byte");
    assert_eq!(end.unwrap(), stream.len());
    println!(
        "{} messages, {} bytes: cut at each of {} places, and byte by byte, all came out",
        messages.len(),
        stream.len(),
        stream.len() + 1
    );
}

/// A stream with a fault: the relay hands on what is good and says why it stops, wherever the stream is cut.
fn faulty_streams(what: &str, good: &[Vec<u8>], faulty: &[u8], expected: &str) {
    let stream = [&good.concat(), faulty].concat();
    for cut in 0..=stream.len() {
        let (got, end) = relayed(vec![&stream[..cut], &stream[cut..]]);
        assert_eq!(got, good, "cut at {}", cut);
        assert_eq!(end.unwrap_err().to_string(), expected, "cut at {}", cut);
    }
    println!("{}: {}", what, expected);
}

/// A byte of a message replaced.
fn with(message: &[u8], at: usize, byte: u8) -> Vec<u8> {
    let mut copy = message.to_vec();
    copy[at] = byte;
    copy
}

fn stream_of_five() -> Vec<Vec<u8>> {
    let long = "glyph ".repeat(700);
    let texts = [
        (LittleEndian, "regular"),
        (BigEndian, "fett, kursiv, größer"),
        (LittleEndian, ""),
        (BigEndian, &long),
        (LittleEndian, "light"),
    ];
    let message = |(serial, (order, text))| signal(order, serial, text).unwrap();
    (1..).zip(texts).map(message).collect()
}

pub fn run() {
    let messages = stream_of_five();
    whole_streams(&messages);
    let (good, next) = (&messages[..3], &messages[4]);
    let last = next.len() - 1;
    let text = next.len() - "light".len() - 5;
    let refused = |number, position| format!("{} of the message", Refusal::new(number, position));
    let cut = format!(
        "the stream ends inside a message, of which it has {} bytes",
        last
    );
    let long = format!(
        "a message states {} bytes, more than are allowed",
        next.len() + (0x7f << 24)
    );
    for (what, faulty, why) in [
        (
            "no zero behind a text",
            with(next, last, 1),
            refused(8, text),
        ),
        (
            "a text longer than its message",
            with(next, text, 6),
            refused(2, text),
        ),
        ("no message", with(next, 0, b'?'), refused(17, 0)),
        ("a message cut off", next[..last].to_vec(), cut),
        ("a message of 2 GiB", with(next, 7, 0x7f), long),
    ] {
        let expected = format!("after {} good bytes: {}", good.concat().len(), why);
        faulty_streams(what, good, &faulty, &expected);
    }
}
