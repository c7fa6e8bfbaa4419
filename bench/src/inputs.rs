//! The bytes that are checked and the values that are written. All is little-endian.
use crate::random::{letters, Random};
use rustbus::wire::util::{
    pad_to_align, write_signature, write_string, write_u16, write_u32, write_u64,
};
use rustbus::ByteOrder::LittleEndian as LE;

/// The size of the big inputs: 60 KiB.
pub const BIG: usize = 61_440;

pub const TEXTS: [&str; 3] = ["ASCII", "mixed", "two-byte"];

/// A text of exactly that many bytes. In `mixed`, one character of eight is not ASCII: of two, three or four bytes.
pub fn text(kind: &str, bytes: usize) -> String {
    let [ascii, two, more] = [
        "abcdefghijklmnopqrstuvwxyz ,.",
        "αβγδεζηθικλμνξοπρστυφχψωабвгдежзиклмнопрст",
        "éßñøλж€語文字😀🦀",
    ]
    .map(letters);
    let mut r = Random::new();
    let mut text = String::new();
    while text.len() < bytes {
        let from = match kind {
            "two-byte" => &two,
            "mixed" if r.below(8) == 0 => &more,
            _ => &ascii,
        };
        let next = r.pick(from);
        let fits = text.len() + next.len_utf8() <= bytes;
        text.push(if fits { next } else { 'a' });
    }
    text
}

pub fn string(text: &str) -> Vec<u8> {
    let mut b = vec![];
    write_string(text, LE, &mut b);
    b
}

/// Arrays, and how many bytes hold at least one element.
pub const ARRAYS: [(&str, usize); 6] = [
    ("a{s(yx)}", 48),
    ("a(qqn)", 14),
    ("as", 24),
    ("ai", 8),
    ("av", 8),
    ("a(vv)", 32),
];

fn element(sig: &str, r: &mut Random, b: &mut Vec<u8>) {
    match sig {
        "a{s(yx)}" => {
            write_string(&r.name(), LE, b);
            pad_to_align(8, b);
            b.push(r.below(256) as u8);
            pad_to_align(8, b);
            write_u64(r.below(1 << 40), LE, b);
        }
        "a(qqn)" => (0..3).for_each(|_| write_u16(r.below(1 << 16) as u16, LE, b)),
        "as" => write_string(&r.name(), LE, b),
        "ai" => write_u32(r.below(1 << 32) as u32, LE, b),
        "av" => b.extend([1, b'y', 0, 5]),
        _ => {
            b.extend([1, b's', 0, 0]);
            write_string("abc", LE, b);
            b.extend([1, b'u', 0]);
            pad_to_align(4, b);
            write_u32(7, LE, b);
        }
    }
}

/// An array of at most that many bytes, at offset 0: as many elements as fit, padded to `align`. Its length counts from the first element.
pub fn filled(align: usize, bytes: usize, mut element: impl FnMut(&mut Vec<u8>)) -> Vec<u8> {
    let mut b = vec![0; 4];
    pad_to_align(align, &mut b);
    let first = b.len();
    loop {
        let end = b.len();
        pad_to_align(align, &mut b);
        element(&mut b);
        if b.len() > bytes {
            b.truncate(end);
            break;
        }
    }
    let length = (b.len() - first) as u32;
    b[..4].copy_from_slice(&length.to_le_bytes());
    b
}

pub fn array(sig: &str, bytes: usize) -> Vec<u8> {
    let align = match sig.as_bytes()[1] {
        b'(' | b'{' => 8,
        b'v' => 1,
        _ => 4,
    };
    let mut r = Random::new();
    filled(align, bytes, |b| element(sig, &mut r, b))
}

// A field is its code, the letter of its type, and its text.
fn message(kind: u8, fields: &[(u8, char, &str)], body: &[u8]) -> Vec<u8> {
    let mut b = vec![b'l', kind, 0, 1];
    write_u32(body.len() as u32, LE, &mut b);
    write_u32(77, LE, &mut b);
    let start = b.len() + 4;
    write_u32(0, LE, &mut b);
    for (code, letter, text) in fields {
        pad_to_align(8, &mut b);
        b.push(*code);
        write_signature(&letter.to_string(), &mut b);
        match letter {
            'g' => write_signature(text, &mut b),
            _ => write_string(text, LE, &mut b),
        }
    }
    let length = (b.len() - start) as u32;
    b[start - 4..start].copy_from_slice(&length.to_le_bytes());
    pad_to_align(8, &mut b);
    b.extend(body);
    b
}

/// A signal with a table of glyphs.
pub fn signal() -> Vec<u8> {
    let sig = "a{s(yx)}";
    let fields = [
        (1, 'o', "/org/example/FontServer/Font7"),
        (2, 's', "org.example.FontServer.Font"),
        (3, 's', "GlyphsChanged"),
        (7, 's', ":1.42"),
        (8, 'g', sig),
    ];
    message(4, &fields, &array(sig, BIG))
}

/// A call with one short text.
pub fn call() -> Vec<u8> {
    let fields = [
        (1, 'o', "/org/freedesktop/DBus"),
        (2, 's', "org.freedesktop.DBus"),
        (3, 's', "GetNameOwner"),
        (6, 's', "org.freedesktop.DBus"),
        (7, 's', ":1.42"),
        (8, 'g', "s"),
    ];
    message(1, &fields, &string("org.freedesktop.Notifications"))
}
