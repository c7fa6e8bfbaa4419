//! Messages, and the questions that take one apart.
use super::damage;
use crate::encode::{path, signature_text, some_type, spell, text, Encoder};
use crate::grammar::Type;
use crate::question::Question;
use crate::random::Random;

pub fn message(random: &mut Random) -> Question {
    Question::Message { bytes: message_bytes(random) }
}

pub fn header(random: &mut Random) -> Question {
    Question::Header { bytes: message_bytes(random) }
}

pub fn field(random: &mut Random) -> Question {
    let message = message_bytes(random);
    let code = if random.percent(90) { random.below(11) as u8 } else { random.byte() };
    let n = random.below(4);
    Question::Field { code, message, fallback: random.bytes(n) }
}

/// A message whose body is an array of 2 to 60 KiB.
pub fn long_message(random: &mut Random) -> Question {
    let element = some_type(random, 2);
    let sig = spell(random, &Type::Array(Box::new(element.clone())));
    let big = random.percent(50);
    let room = random.pick(&[2_000, 2_000, 8_000, 60_000]);
    let mut encoder = Encoder { random, buf: Vec::new(), big, odd: 0, room, least: 0 };
    start(&mut encoder, 2);
    fields(&mut encoder, 2, &Some(sig));
    let first = encoder.buf.len();
    encoder.filled(&element);
    encoder.patch(4, (encoder.buf.len() - first) as u32);
    let Encoder { random, mut buf, .. } = encoder;
    damage(random, &mut buf, 0);
    Question::Message { bytes: buf }
}

/// A message, most times right or nearly so, and at times with bytes behind it.
pub fn message_bytes(random: &mut Random) -> Vec<u8> {
    let big = random.percent(50);
    let odd = random.pick(&[0, 0, 0, 3, 25]);
    let kind = random.below(4) as u8 + 1;
    let mut encoder = Encoder { random, buf: Vec::new(), big, odd, room: 600, least: 0 };
    start(&mut encoder, kind);
    let types = body_types(encoder.random);
    let sig = body_signature(encoder.random, &types, odd);
    fields(&mut encoder, kind, &sig);
    body(&mut encoder, &types);
    let Encoder { random, mut buf, .. } = encoder;
    if random.percent(15) {
        let n = random.below(20);
        buf.extend(random.bytes_of(&[0, 0, 0, b'l', 1, 0x79], n));
    }
    if random.percent(45) {
        damage(random, &mut buf, 0);
    }
    buf
}

/// Bytes 0 to 15; both lengths are put in later.
fn start(encoder: &mut Encoder, kind: u8) {
    let plain = encoder.random.percent(70);
    let (flags, version) = if plain { (0, 1) } else { (encoder.random.byte(), encoder.random.byte()) };
    let order = if encoder.big { b'B' } else { b'l' };
    let serial = if plain { 1 } else { encoder.random.number() };
    encoder.buf.extend([order, kind, flags, version]);
    encoder.number(0, 4);
    encoder.number(serial, 4);
    encoder.number(0, 4);
}

fn body_types(random: &mut Random) -> Vec<Type> {
    let count = random.pick(&[0, 0, 1, 1, 1, 2, 3]);
    (0..count)
        .map(|_| {
            let depth = random.below(3);
            some_type(random, depth)
        })
        .collect()
}

/// Field 8's text, and none where the field is left out.
fn body_signature(random: &mut Random, types: &[Type], odd: usize) -> Option<Vec<u8>> {
    let sig: Vec<u8> = types.iter().flat_map(|t| spell(random, t)).collect();
    if random.percent(odd) {
        return random.percent(80).then(|| signature_text(random, 70));
    }
    let empty_too = random.percent(10);
    (!sig.is_empty() || empty_too).then_some(sig)
}

/// The table: what the type needs, field 8, and at times others.
fn fields(encoder: &mut Encoder, kind: u8, sig: &Option<Vec<u8>>) {
    let needed: &[u8] = [&[1, 3][..], &[5], &[4, 5], &[1, 2, 3]][kind as usize - 1];
    let mut codes = needed.to_vec();
    if sig.is_some() {
        codes.push(8);
    }
    for _ in 0..encoder.random.pick(&[0, 0, 0, 1, 1, 2]) {
        let unknown = 10 + encoder.random.byte() % 246;
        let code = encoder.random.pick(&[2, 6, 7, 9, 9, 6, unknown, unknown]);
        if code > 9 || !codes.contains(&code) {
            let at = encoder.random.below(codes.len() + 1);
            codes.insert(at, code);
        }
    }
    if encoder.random.percent(encoder.odd) {
        let strange = encoder.random.byte() % 12;
        let at = encoder.random.below(codes.len());
        if encoder.random.percent(50) {
            codes.insert(at, strange)
        } else {
            codes[at] = strange
        }
    }
    let sig = sig.clone().unwrap_or_default();
    codes.iter().for_each(|code| one_field(encoder, *code, &sig));
    let mut length = encoder.buf.len() as i64 - 16;
    if encoder.random.percent(encoder.odd / 2) {
        length += encoder.random.below(17) as i64 - 8;
    }
    encoder.patch(12, length.max(0) as u32);
    encoder.pad(8);
}

fn one_field(encoder: &mut Encoder, code: u8, sig: &[u8]) {
    encoder.pad(8);
    encoder.buf.push(code);
    if code == 0 || code > 9 || encoder.random.percent(encoder.odd / 6) {
        let t = some_type(encoder.random, 2);
        let spelled = spell(encoder.random, &t);
        encoder.signature(&spelled);
        return encoder.value(&t);
    }
    encoder.signature(&[b"osssussgu"[code as usize - 1]]);
    match code {
        1 => {
            let t = path(encoder.random, encoder.odd);
            encoder.string(&t)
        }
        8 => encoder.signature(sig),
        5 | 9 => encoder.basic(b'u'),
        _ => {
            let t = name(encoder.random, code, encoder.odd);
            encoder.string(&t)
        }
    }
}

/// A name that fits the field, or any text.
fn name(random: &mut Random, code: u8, odd: usize) -> Vec<u8> {
    if random.percent(10 + odd) {
        return text(random, odd);
    }
    let names: &[&str] = match code {
        3 => &["K", "Get", "a_1"],
        2 | 4 => &["a.b", "org.freedesktop.DBus.Error"],
        _ => &[":1.7", "a.b", "org.free-desktop.X"],
    };
    random.pick(names).as_bytes().to_vec()
}

fn body(encoder: &mut Encoder, types: &[Type]) {
    let first = encoder.buf.len();
    encoder.room = first + 300;
    types.iter().for_each(|t| encoder.value(t));
    let mut length = (encoder.buf.len() - first) as i64;
    if encoder.random.percent(encoder.odd / 2) {
        length += encoder.random.below(9) as i64 - 4;
    }
    encoder.patch(4, length.max(0) as u32);
}
