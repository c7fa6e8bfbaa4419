// Writers into a buffer that the caller lends.
//
// Each puts bytes at `place` and answers the place behind them: `place = write_u32(..., place)?`. A refused write changes no byte. Only
// `pad_to_align` pads.
use crate::{accepted, ffi, ByteOrder, Refusal};

fn behind(place: usize, answer: ffi::Answer) -> Result<usize, Refusal> {
    accepted(answer).map(|written| place + written)
}

/// Writes zeros up to the next multiple of `align_to`: 1, 2, 4 or 8.
pub fn pad_to_align(align_to: usize, buf: &mut [u8], place: usize) -> Result<usize, Refusal> {
    behind(place, ffi::write_padding(buf, place, align_to))
}

pub fn write_u16(
    val: u16,
    byteorder: ByteOrder,
    buf: &mut [u8],
    place: usize,
) -> Result<usize, Refusal> {
    behind(place, ffi::write_u16(buf, place, val, byteorder))
}

pub fn write_u32(
    val: u32,
    byteorder: ByteOrder,
    buf: &mut [u8],
    place: usize,
) -> Result<usize, Refusal> {
    behind(place, ffi::write_u32(buf, place, val, byteorder))
}

pub fn write_u64(
    val: u64,
    byteorder: ByteOrder,
    buf: &mut [u8],
    place: usize,
) -> Result<usize, Refusal> {
    behind(place, ffi::write_u64(buf, place, val, byteorder))
}

/// Writes a string: its length in 32 bits, its bytes, a zero. Refused if it is not UTF-8 or has a zero byte inside.
pub fn write_string(
    val: &[u8],
    byteorder: ByteOrder,
    buf: &mut [u8],
    place: usize,
) -> Result<usize, Refusal> {
    behind(place, ffi::write_string(buf, place, val, byteorder))
}

/// Writes a signature: its length in one byte, its bytes, a zero. Refused if it does not spell types; none at all are allowed.
pub fn write_signature(val: &[u8], buf: &mut [u8], place: usize) -> Result<usize, Refusal> {
    behind(place, ffi::write_signature(buf, place, val))
}
