//! The wire core of D-Bus, proved: safe bindings of `libmillettie.a`.
//!
//! Everything works on byte slices, allocates nothing and stops for no input. What is refused comes back as a [`Refusal`], which prints in
//! words. `examples/relay` shows a relay that takes messages out of a stream.
//!
//! ```
//! use millettie::{validate_marshalled, ByteOrder};
//!
//! let good = [2, 0, 0, 0, b'k', b'1', 0];
//! assert_eq!(validate_marshalled(ByteOrder::LittleEndian, 0, &good, b"s"), Ok(7));
//!
//! let bad = [2, 0, 0, 0, b'k', b'1', 1];
//! let refusal = validate_marshalled(ByteOrder::LittleEndian, 0, &bad, b"s").unwrap_err();
//! assert_eq!(refusal.to_string(), "the byte after a text, which has to be zero, is not (refusal 8, MissingTerminator) at byte 0");
//! ```
#![deny(unsafe_code)]

#[allow(unsafe_code)]
mod ffi;
mod fixed;
mod header;
mod next;
mod refusal;
mod write;

pub use fixed::{unmarshal_fixed, FixedValue};
pub use header::{lookup, unmarshal_header, Fields, Header, MessageType};
pub use next::{next_message, Next};
pub use refusal::Refusal;
pub use write::{pad_to_align, write_signature, write_string, write_u16, write_u32, write_u64};

#[derive(Clone, Copy, Debug, PartialEq, Eq, Hash)]
pub enum ByteOrder {
    LittleEndian,
    BigEndian,
}

/// Whether the library that is linked has the interface that these bindings were written for. Where it has not, answers mean nothing: ask once,
/// at the start.
pub fn library_fits() -> bool {
    ffi::interface() == ffi::INTERFACE
}

/// Checks a bare signature, and answers how many types it spells.
pub fn validate_signature(sig: &[u8]) -> Result<usize, Refusal> {
    accepted(ffi::check_signature(sig))
}

/// Checks the value of the one type that `sig` spells, at `offset` in `raw`, and answers how many bytes it takes, the padding before it
/// included.
pub fn validate_marshalled(
    byteorder: ByteOrder,
    offset: usize,
    raw: &[u8],
    sig: &[u8],
) -> Result<usize, Refusal> {
    accepted(ffi::check_value(byteorder, offset, raw, sig))
}

/// Checks the message at the start of `buf`, and answers how many bytes it takes: the next message begins right behind them.
pub fn check_message(buf: &[u8]) -> Result<usize, Refusal> {
    accepted(ffi::check_message(buf))
}

fn accepted(answer: ffi::Answer) -> Result<usize, Refusal> {
    match answer.number {
        0 => Ok(answer.length as usize),
        number => Err(Refusal::new(number as u8, answer.position as usize)),
    }
}
