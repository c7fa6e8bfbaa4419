//! Writers.
use crate::encode::{signature_text, text};
use crate::question::Question;
use crate::random::Random;

pub fn writer(random: &mut Random) -> Question {
    let size = random.below(40);
    let buf = random.bytes(size);
    let place = if random.percent(5) { size + random.below(4) } else { random.below(size + 1) };
    let big = random.percent(50);
    match random.below(7) {
        0 | 1 => {
            let alignment = if random.percent(85) { random.pick(&[1, 2, 4, 8]) } else { random.below(18) };
            Question::Pad { place, alignment, buf }
        }
        2 | 3 | 4 => {
            let width = random.pick(&[2, 4, 8]);
            let number = random.number() & (u64::MAX >> (64 - 8 * width));
            Question::Write { width, big, place, number, buf }
        }
        5 => {
            let text = text(random, 20);
            let buf = with_room(random, buf, text.len());
            Question::WriteString { big, place, text, buf }
        }
        _ => {
            let mut sig = signature_text(random, 25);
            if random.percent(10) {
                sig = sig.repeat(40);
                let longest = random.pick(&[254, 255, 256, 257, 600]);
                sig.truncate(longest);
            }
            let buf = with_room(random, buf, sig.len());
            Question::WriteSignature { place, sig, buf }
        }
    }
}

/// Most times with room for `n` bytes more.
fn with_room(random: &mut Random, mut buf: Vec<u8>, n: usize) -> Vec<u8> {
    if random.percent(80) {
        let more = random.bytes(n + 6);
        buf.extend(more);
    }
    buf
}
