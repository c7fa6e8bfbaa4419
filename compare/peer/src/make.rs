//! The questions that libdbus can be asked too: messages, and texts as values of type `g`, `o` and `s`.
use model::encode::{deep_type, path, spell, text, Encoder};
use model::make::{exhaustive, message_bytes, random_sig};
use model::question::Question;
use model::random::Random;

/// What a round makes: how many, and by what.
const ROUND: &[(usize, fn(&mut Random) -> Question)] =
    &[(60_000, signature), (40_000, path_value), (80_000, string_value), (200_000, message), (40_000, with_names), (20_000, deep_body)];

pub fn questions(mut random: Random, rounds: usize) -> impl Iterator<Item = Question> {
    let values = exhaustive(5).filter(|question| question.kind() == "value");
    let makers = (0..rounds).flat_map(|_| ROUND.iter()).flat_map(|(count, maker)| std::iter::repeat_n(*maker, *count));
    values.chain(two_bytes()).chain(makers.map(move |maker| maker(&mut random)))
}

/// All texts of two bytes, the first above 127, as strings.
fn two_bytes() -> impl Iterator<Item = Question> {
    (0x80..=0xff).flat_map(|first| (0..=0xff).map(move |second| value(b's', &[first, second])))
}

/// A text as a value of its own, with the right length and terminator.
fn value(letter: u8, text: &[u8]) -> Question {
    let length = (text.len() as u32).to_le_bytes();
    let head = if letter == b'g' { &length[..1] } else { &length };
    Question::Value { big: false, offset: 0, sig: vec![letter], bytes: [head, text, &[0]].concat() }
}

fn signature(random: &mut Random) -> Question {
    loop {
        if let Question::Value { bytes, .. } = random_sig(random) {
            return value(b'g', &bytes[1..bytes.len() - 1]);
        }
    }
}

fn path_value(random: &mut Random) -> Question {
    value(b'o', &path(random, 70))
}

/// A string of random characters, spoiled at times, or of bytes near the edges of UTF-8's forms.
fn string_value(random: &mut Random) -> Question {
    if random.percent(50) {
        return value(b's', &text(random, 40));
    }
    let edges =
        [0x01, 0x7f, 0x80, 0x8f, 0x90, 0x9f, 0xa0, 0xbf, 0xc0, 0xc1, 0xc2, 0xdf, 0xe0, 0xe1, 0xec, 0xed, 0xee, 0xef, 0xf0, 0xf1, 0xf3, 0xf4, 0xf5];
    let first = random.pick(&edges);
    let behind = match first {
        0xc0..=0xdf => 1,
        0xe0..=0xef => 2,
        0xf0..=0xff => 3,
        _ => 0,
    };
    let mut bytes = vec![first];
    bytes.extend((0..behind).map(|_| random.pick(&edges)));
    value(b's', &bytes)
}

fn message(random: &mut Random) -> Question {
    Question::Message { bytes: message_bytes(random) }
}

/// A small call whose names, reply serial, version, type or serial may be ones that only one side takes.
fn with_names(random: &mut Random) -> Question {
    let odd = |random: &mut Random, plain: &'static str| -> &'static str {
        let texts = ["", "a", "a.b", "1a.b", "a.1b", ":1.7", ":a.-", "a..b", ".a", "a.", "a-b.c", "a b", "org.freedesktop.DBus.Local", "é.a", "_._"];
        if random.percent(70) {
            plain
        } else {
            random.pick(&texts)
        }
    };
    let mut bytes = vec![b'l', 1 + random.below(4) as u8, 0, 1, 0, 0, 0, 0, 1, 0, 0, 0, 0, 0, 0, 0];
    let path = random.pick(&["/", "/a", "/a", "/org/freedesktop/DBus/Local", "/org/freedesktop/DBus"]);
    for (code, text) in
        [(1, path), (2, odd(random, "a.b")), (3, odd(random, "K")), (4, odd(random, "a.b")), (6, odd(random, ":1.7")), (7, odd(random, "a.b"))]
    {
        if random.percent(85) {
            put_text(&mut bytes, code, text);
        }
    }
    for code in [5, 9] {
        if random.percent(if code == 5 { 70 } else { 15 }) {
            put(&mut bytes, &[code, 1, b'u', 0, random.pick(&[0, 1, 1, 1]), 0, 0, 0]);
        }
    }
    let table = (bytes.len() - 16) as u32;
    bytes[12..16].copy_from_slice(&table.to_le_bytes());
    put(&mut bytes, &[]);
    match random.below(12) {
        0 => bytes[1] = random.pick(&[0, 5, 6, 255]),
        1 => bytes[3] = random.byte(),
        2 => bytes[8] = 0,
        3 => bytes[2] = random.byte(),
        _ => {}
    }
    Question::Message { bytes }
}

/// A reply whose body is one variant, which holds variants within one another and a type near the limits of depth.
fn deep_body(random: &mut Random) -> Question {
    let around = random.pick(&[0, 1, 2, 14, 15, 16, 17, 30, 31, 60, 61, 62, 63, 64, 65]);
    let mut bytes = vec![b'l', 2, 0, 1, 0, 0, 0, 0, 1, 0, 0, 0, 15, 0, 0, 0, 5, 1, b'u', 0, 1, 0, 0, 0, 8, 1, b'g', 0, 1, b'v', 0, 0];
    let t = if random.percent(50) { deep_type(random) } else { model::encode::some_type(random, 3) };
    let sig = spell(random, &t);
    let mut encoder = Encoder { random, buf: std::mem::take(&mut bytes), big: false, odd: 0, room: 300, least: 1 };
    (0..around).for_each(|_| encoder.signature(b"v"));
    encoder.signature(&sig);
    encoder.value(&t);
    encoder.patch(4, (encoder.buf.len() - 32) as u32);
    Question::Message { bytes: encoder.buf }
}

/// Bytes at the next multiple of 8.
fn put(bytes: &mut Vec<u8>, field: &[u8]) {
    bytes.resize(bytes.len().next_multiple_of(8), 0);
    bytes.extend(field);
}

fn put_text(bytes: &mut Vec<u8>, code: u8, text: &str) {
    let letter = if code == 1 { b'o' } else { b's' };
    let length = (text.len() as u32).to_le_bytes();
    put(bytes, &[&[code, 1, letter, 0], &length, text.as_bytes(), &[0]].concat());
}
