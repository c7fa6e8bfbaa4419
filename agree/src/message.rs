//! Random messages, with faults strewn in.
use crate::random::Random;
use crate::types::{several, spell, wild_signature, Type};
use crate::value::Encoder;

/// What the fields 1 to 9 ask for.
const WANTED: &[u8] = b"osssussgu";

/// The fields that calls, replies, errors and signals need.
const NEEDED: [&[u8]; 4] = [&[1, 3], &[5], &[4, 5], &[1, 2, 3]];

// The codes that the message gets: those it needs and some more, in any order; with a fault, one is left out or stands twice.
fn codes(e: &mut Encoder, kind: usize, with_body: bool) -> Vec<u8> {
    let mut codes: Vec<u8> = NEEDED[kind - 1].to_vec();
    for code in [1, 2, 3, 4, 5, 6, 7, 9] {
        if !codes.contains(&code) && e.random.once_in(3) {
            codes.push(code);
        }
    }
    if with_body {
        codes.push(8);
    }
    while e.random.once_in(3) {
        codes.push(e.random.within(10, 255) as u8);
    }
    if e.fault() {
        codes.remove(0);
    }
    if e.fault() {
        let more = *e.random.pick(&[0, 1, 3, 5, 8]);
        codes.push(more);
    }
    for at in (1..codes.len()).rev() {
        codes.swap(at, e.random.below(at + 1));
    }
    codes
}

fn field(e: &mut Encoder, code: u8, body: &[Type]) {
    e.align(8);
    e.out.push(code);
    if e.fault() {
        let sig = wild_signature(e.random);
        return e.signature(&sig);
    }
    if code >= 10 && e.random.once_in(8) {
        e.signature(b"v");
        return e.deep_variant();
    }
    let known = WANTED.get(usize::from(code).wrapping_sub(1));
    let of = match known {
        Some(wanted) if !e.fault() => Type::Base(*wanted),
        _ => Type::random(e.random, 2),
    };
    e.signature(&of.spell());
    if code == 8 && matches!(of, Type::Base(b'g')) {
        e.signature(&spell(body));
    } else {
        e.value(&of);
    }
}

// Now and then a little more or less.
fn about(e: &mut Encoder, n: usize) -> usize {
    match e.fault() {
        true => (n + e.random.below(9)).saturating_sub(4),
        false => n,
    }
}

// The first 16 bytes, with both lengths still 0.
fn start(e: &mut Encoder, kind: usize) {
    let mark = if e.big { b'B' } else { b'l' };
    for byte in [mark, kind as u8] {
        let wrong = e.fault();
        e.out.push(if wrong { e.random.byte() } else { byte });
    }
    let (flags, version, serial) = (e.random.byte(), e.random.byte(), e.random.edge());
    e.out.extend([flags, version]);
    e.integer(0, 4);
    e.integer(serial, 4);
    e.integer(0, 4);
}

pub fn message(random: &mut Random, fault_in: usize) -> Vec<u8> {
    let kind = random.within(1, 4);
    let body = several(random, 0, 3, 2);
    let big = random.once_in(2);
    let out = Vec::new();
    let mut e = Encoder {
        random,
        out,
        big,
        fault_in,
    };
    start(&mut e, kind);
    for code in codes(&mut e, kind, !body.is_empty()) {
        field(&mut e, code, &body);
    }
    let fields = e.out.len() - 16;
    let fields = about(&mut e, fields);
    e.set(12, fields);
    e.align(8);
    let first = e.out.len();
    e.values(&body);
    if e.fault() {
        e.out.push(0);
    }
    let length = e.out.len() - first;
    let length = about(&mut e, length);
    e.set(4, length);
    e.out
}
