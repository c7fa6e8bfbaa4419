//! The writers: document 01, "Order for a write" and port order 6.
use crate::grammar;
use crate::value::{no, Fault, Walk};
use crate::ways::{Row, Ways};

/// The place after the write, and the buffer as it is then.
pub type Done = (usize, Vec<u8>);

pub fn padding(place: usize, alignment: usize, buf: &[u8], ways: Ways) -> Walk<Done> {
    within(place, buf)?;
    if !matches!(alignment, 1 | 2 | 4 | 8) && !ways.has(Row::W24) {
        return no(place, 24);
    }
    if alignment == 0 {
        return Err(Fault::Stops);
    }
    let zeros = vec![0; place.next_multiple_of(alignment) - place];
    put(place, &zeros, buf, ways)
}

pub fn number(width: usize, big: bool, place: usize, n: u64, buf: &[u8], ways: Ways) -> Walk<Done> {
    within(place, buf)?;
    put(place, &ordered(n, width, big), buf, ways)
}

pub fn string(big: bool, place: usize, text: &[u8], buf: &[u8], ways: Ways) -> Walk<Done> {
    within(place, buf)?;
    if std::str::from_utf8(text).is_err() {
        return no(place, 6);
    }
    if text.contains(&0) && !ways.has(Row::W7) {
        return no(place, 7);
    }
    put(place, &[&ordered(text.len() as u64, 4, big), text, &[0]].concat(), buf, ways)
}

pub fn signature(place: usize, sig: &[u8], buf: &[u8], ways: Ways) -> Walk<Done> {
    within(place, buf)?;
    if sig.len() > 255 && !ways.has(Row::W13) {
        return no(place, 13);
    }
    match grammar::of_value(sig, Ways::DOCUMENT) {
        Err(number) if !ways.has(Row::W10) => no(place, number),
        _ => put(place, &[&[sig.len() as u8], sig, &[0]].concat(), buf, ways),
    }
}

fn within(place: usize, buf: &[u8]) -> Walk<()> {
    if place > buf.len() {
        no(place, 1)
    } else {
        Ok(())
    }
}

fn ordered(n: u64, width: usize, big: bool) -> Vec<u8> {
    let mut bytes = n.to_le_bytes()[..width].to_vec();
    if big {
        bytes.reverse();
    }
    bytes
}

fn put(place: usize, bytes: &[u8], buf: &[u8], ways: Ways) -> Walk<Done> {
    let next = place + bytes.len();
    if next > buf.len() && !ways.has(Row::W23) {
        return no(place, 23);
    }
    let after = buf.get(next..).unwrap_or(&[]);
    Ok((next, [&buf[..place], bytes, after].concat()))
}
