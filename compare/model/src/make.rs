//! Makes questions.
mod message;
mod sig;
mod value;
mod write;

pub use message::{field, header, long_message, message, message_bytes};
pub use sig::{exhaustive, random_sig};
pub use value::{deep, fixed, in_variants, long, short, value};
pub use write::writer;

use crate::random::Random;

/// Spoils some bytes from `from` on, in most calls a few of them and in some none.
fn damage(random: &mut Random, bytes: &mut Vec<u8>, from: usize) {
    for _ in 0..random.pick(&[0, 0, 0, 1, 1, 1, 1, 2, 3]) {
        if bytes.len() <= from {
            return bytes.push(random.byte());
        }
        let at = from + random.below(bytes.len() - from);
        let small = random.pick(&[0, 1, 2, 3, 4, 7, 8, 255]);
        match random.below(8) {
            0 => bytes[at] ^= 1 << random.below(8),
            1 => bytes[at] = small,
            2 => bytes[at] = bytes[at].wrapping_add(small),
            3 => bytes[at] = bytes[at].wrapping_sub(small),
            4 => bytes.truncate(at),
            5 => bytes.insert(at, small),
            6 => drop(bytes.remove(at)),
            _ => {
                let n = random.below(9);
                bytes.extend(random.bytes_of(&[0, 0, 0, 1, b'l', 0x79], n))
            }
        }
    }
}
