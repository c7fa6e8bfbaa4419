//! Values, and values of fixed width.
use super::damage;
use crate::encode::{deep_type, some_type, spell, Encoder};
use crate::grammar::Type;
use crate::question::Question;
use crate::random::Random;

/// An encoder behind some bytes that are no part of the value.
fn encoder(random: &mut Random, room: usize) -> Encoder<'_> {
    let before = random.below(17);
    let buf = random.bytes(before);
    let big = random.percent(50);
    let odd = random.pick(&[0, 0, 3, 25]);
    Encoder { random, buf, big, odd, room: before + room, least: 0 }
}

/// The question about what the encoder holds from `offset` on, most times spoiled.
fn asked(encoder: Encoder, offset: usize, mut sig: Vec<u8>) -> Question {
    let Encoder { random, mut buf, mut big, .. } = encoder;
    damage(random, &mut buf, offset);
    let mut at = offset;
    match random.below(60) {
        0 => big = !big,
        1 => at = random.below(buf.len() + 3),
        2 => damage(random, &mut sig, 0),
        3 => sig.push(b'y'),
        4 => sig.clear(),
        _ => {}
    }
    Question::Value { big, offset: at, sig, bytes: buf }
}

fn of_type(random: &mut Random, t: &Type, room: usize) -> Question {
    let sig = spell(random, t);
    let mut encoder = encoder(random, room);
    let offset = encoder.buf.len();
    encoder.value(t);
    asked(encoder, offset, sig)
}

/// A value of any type.
pub fn value(random: &mut Random) -> Question {
    let depth = random.below(4);
    let t = some_type(random, depth);
    of_type(random, &t, 200)
}

/// An array of 2 to 60 KiB.
pub fn long(random: &mut Random) -> Question {
    let element = some_type(random, 2);
    let t = Type::Array(Box::new(element.clone()));
    let sig = spell(random, &t);
    let room = random.pick(&[2_000, 2_000, 8_000, 60_000]);
    let mut encoder = encoder(random, room);
    encoder.odd = encoder.random.pick(&[0, 0, 1]);
    let offset = encoder.buf.len();
    encoder.filled(&element);
    asked(encoder, offset, sig)
}

/// A value whose type is near the limits of depth.
pub fn deep(random: &mut Random) -> Question {
    let t = deep_type(random);
    let sig = spell(random, &t);
    let mut encoder = encoder(random, 300);
    encoder.least = 1;
    let offset = encoder.buf.len();
    encoder.value(&t);
    asked(encoder, offset, sig)
}

/// Variants within one another, near the limit and far beyond it.
pub fn in_variants(random: &mut Random) -> Question {
    let levels = random.pick(&[1, 2, 14, 15, 16, 17, 18, 40, 400]);
    let mut encoder = encoder(random, 200);
    let offset = encoder.buf.len();
    encoder.nested_variants(levels);
    asked(encoder, offset, b"v".to_vec())
}

/// A few bytes out of few, so that small cases come up.
pub fn short(random: &mut Random) -> Question {
    let sigs: &[&[u8]] = &[
        b"y", b"b", b"q", b"i", b"t", b"s", b"o", b"g", b"v", b"h", b"d", b"ay", b"ai", b"ab", b"at", b"as", b"ag", b"av", b"a(y)", b"(yu)",
        b"a{yy}", b"a{sv}", b"{yy}", b"aay", b"(v)", b"ao",
    ];
    let n = random.below(13);
    let bytes = random.bytes_of(&[0, 0, 0, 0, 1, 1, 2, 3, 4, 8, b'/', b'g', b's', b'v', b'y', b'a', b'(', b')', 0xc3, 0xa9], n);
    let offset = if random.percent(60) { 0 } else { random.below(n + 2) };
    Question::Value { big: random.percent(30), offset, sig: random.pick(sigs).to_vec(), bytes }
}

/// A value of fixed width, at any offset.
pub fn fixed(random: &mut Random) -> Question {
    let letter = if random.percent(95) { random.pick(b"ybnqiuxtdh".as_slice()) } else { random.pick(b"sogvaz({".as_slice()) };
    let mut encoder = encoder(random, 0);
    let mut offset = encoder.buf.len();
    encoder.pad(Type::Basic(letter).alignment());
    let n = encoder.random.number();
    let not_finite = [0x7ff0_0000_0000_0000, 0xfff0_0000_0000_0000, 0x7ff8_0000_0000_0000, 0x7ff0_0000_0000_0001, u64::MAX, 1 << 63];
    let n = match letter {
        b'd' if encoder.random.percent(40) => encoder.random.pick(&not_finite),
        b'b' => n % 2,
        _ if encoder.random.percent(30) => !n,
        _ => n,
    };
    encoder.number(n, crate::value::width(letter));
    let Encoder { random, mut buf, big, .. } = encoder;
    if random.percent(30) {
        damage(random, &mut buf, offset);
    }
    if random.percent(4) {
        offset = random.below(buf.len() + 3);
    }
    let sig = if random.percent(97) { vec![letter] } else { vec![letter, letter] };
    Question::Fixed { big, offset, sig, bytes: buf }
}
