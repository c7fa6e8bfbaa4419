// Values of fixed width.
use crate::{accepted, ffi, ByteOrder, Refusal};

/// A value of fixed width. A double that is a NaN comes by its 64 bits, so that none is lost.
#[derive(Clone, Copy, Debug, PartialEq)]
pub enum FixedValue {
    Byte(u8),
    Boolean(bool),
    Int16(i16),
    Uint16(u16),
    Int32(i32),
    Uint32(u32),
    Int64(i64),
    Uint64(u64),
    Double(f64),
    Nan(u64),
    UnixFd(u32),
}

/// Reads the value of fixed width at `offset`, whose type `sig` spells: one of `y b n q i u x t d h`. With the value comes how many bytes it
/// took, the padding before it included.
pub fn unmarshal_fixed(
    byteorder: ByteOrder,
    offset: usize,
    buf: &[u8],
    sig: &[u8],
) -> Result<(FixedValue, usize), Refusal> {
    let read = ffi::read_fixed(byteorder, offset, buf, sig);
    let length = accepted(read.answer)?;
    Ok((value(read.kind, read.bits)?, length))
}

// The bits are sign-extended, so that each width is the low part of them.
fn value(kind: u8, bits: u64) -> Result<FixedValue, Refusal> {
    Ok(match kind {
        b'y' => FixedValue::Byte(bits as u8),
        b'b' => FixedValue::Boolean(bits != 0),
        b'n' => FixedValue::Int16(bits as i16),
        b'q' => FixedValue::Uint16(bits as u16),
        b'i' => FixedValue::Int32(bits as i32),
        b'u' => FixedValue::Uint32(bits as u32),
        b'x' => FixedValue::Int64(bits as i64),
        b't' => FixedValue::Uint64(bits),
        b'd' => FixedValue::Double(f64::from_bits(bits)),
        b'N' => FixedValue::Nan(bits),
        b'h' => FixedValue::UnixFd(bits as u32),
        _ => return Err(Refusal::misfit()),
    })
}
