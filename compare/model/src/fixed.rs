//! The value reader: document 01, port order 6.
use crate::value::{self, no, width, Bytes, Walk};
use crate::ways::Ways;

/// What `answers` says of a value of fixed width: its kind and its number.
pub fn read(big: bool, offset: usize, sig: &[u8], all: &[u8], ways: Ways) -> Walk<String> {
    let [letter @ (b'y' | b'b' | b'n' | b'q' | b'i' | b'u' | b'x' | b't' | b'd' | b'h')] = sig else { return no(0, 26) };
    let length = value::check(big, offset, sig, all, ways)?;
    let size = width(*letter);
    let bits = Bytes { all, big, ways }.number(offset + length - size, size);
    Ok(said(*letter, bits))
}

/// The words for the bits of a kind.
pub fn said(letter: u8, bits: u64) -> String {
    match letter {
        b'n' => format!("ok n {}", bits as u16 as i16),
        b'i' => format!("ok i {}", bits as u32 as i32),
        b'x' => format!("ok x {}", bits as i64),
        b'd' if f64::from_bits(bits).is_nan() => format!("ok N {bits:016x}"),
        b'd' => format!("ok d {bits:016x}"),
        other => format!("ok {} {bits}", other as char),
    }
}
