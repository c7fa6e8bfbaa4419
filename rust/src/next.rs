// The next message of a stream.
use crate::{ffi, Refusal};

/// What stands next in a stream, by the bytes of it that are held.
#[derive(Clone, Copy, Debug, PartialEq, Eq)]
pub enum Next {
    /// A message of this many bytes, all of it checked. It stays that, whatever follows: the next one begins right behind it.
    Whole(usize),
    /// Not all of it is there yet. It makes no sense to ask again before this many bytes are held.
    Cut(usize),
    /// No message, whatever follows.
    Refused(Refusal),
}

/// Says what stands at the start of `buf`.
pub fn next_message(buf: &[u8]) -> Next {
    let next = ffi::next_message(buf);
    match next.state {
        0 => Next::Whole(next.length as usize),
        1 => Next::Cut(next.length as usize),
        2 => Next::Refused(Refusal::new(next.number as u8, next.position as usize)),
        _ => Next::Refused(Refusal::misfit()),
    }
}
