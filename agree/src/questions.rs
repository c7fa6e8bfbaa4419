//! Random questions of all kinds.
use crate::message::message;
use crate::random::Random;
use crate::types::{signature, wild_signature, Type};
use crate::value::{text, wild_text, Encoder};

fn hex(bytes: &[u8]) -> String {
    if bytes.is_empty() {
        return "-".to_string();
    }
    bytes.iter().map(|byte| format!("{:02x}", byte)).collect()
}

fn mark(big: bool) -> &'static str {
    if big {
        "B"
    } else {
        "l"
    }
}

// Bytes cut short, with a byte changed, or with more behind them.
fn damaged(random: &mut Random, mut bytes: Vec<u8>) -> Vec<u8> {
    match random.below(8) {
        0 => bytes.truncate(random.below(bytes.len() + 1)),
        1 if !bytes.is_empty() => {
            let at = random.below(bytes.len());
            bytes[at] = random.byte();
        }
        2 => bytes.extend(random.bytes(9)),
        _ => {}
    }
    bytes
}

// A place in the buffer, or now and then behind it.
fn place(random: &mut Random, length: usize) -> u64 {
    match random.below(40) {
        0 => random.edge(),
        1 => length as u64 + 1,
        _ => random.below(length + 1) as u64,
    }
}

fn value(random: &mut Random, name: &str, of: Type) -> String {
    let big = random.once_in(2);
    let fault_in = *random.pick(&[0, 24]);
    let out = vec![0; random.below(9)];
    let offset = out.len() as u64;
    let mut encoder = Encoder {
        random,
        out,
        big,
        fault_in,
    };
    match of {
        Type::Base(b'v') if encoder.random.once_in(4) => encoder.deep_variant(),
        _ => encoder.value(&of),
    }
    let bytes = damaged(encoder.random, encoder.out);
    let offset = if random.once_in(30) {
        place(random, bytes.len())
    } else {
        offset
    };
    let sig = if random.once_in(20) {
        signature(random)
    } else {
        of.spell()
    };
    format!(
        "{} {} {} {} {}",
        name,
        mark(big),
        offset,
        hex(&sig),
        hex(&bytes)
    )
}

fn any_value(random: &mut Random) -> String {
    let of = Type::random(random, 4);
    value(random, "value", of)
}

fn fixed(random: &mut Random) -> String {
    let of = Type::Base(*random.pick(b"ybnqiuxtdhybnqiuxtdhs"));
    value(random, "fixed", of)
}

fn any_message(random: &mut Random, faults: &[usize]) -> Vec<u8> {
    let fault_in = *random.pick(faults);
    let mut bytes = message(random, fault_in);
    if random.once_in(4) {
        bytes.extend(message(random, fault_in));
    }
    damaged(random, bytes)
}

fn field(random: &mut Random) -> String {
    let code = if random.once_in(4) {
        random.below(300)
    } else {
        *random.pick(&[1, 2, 3, 4, 6, 7, 8])
    };
    let message = any_message(random, &[0, 0, 100]);
    format!("field {} {} {}", code, hex(&message), hex(&random.bytes(6)))
}

fn write(random: &mut Random) -> String {
    let buf = random.bytes(64);
    let (at, order) = (place(random, buf.len()), mark(random.once_in(2)));
    let n = random.edge();
    match random.below(6) {
        0 => format!(
            "pad {} {} {}",
            at,
            random.pick(&[1, 2, 4, 8, 8, 8, 0, 3, 16]),
            hex(&buf)
        ),
        1 => format!("w16 {} {} {} {}", order, at, n % (1 << 16), hex(&buf)),
        2 => format!("w32 {} {} {} {}", order, at, n % (1 << 32), hex(&buf)),
        3 => format!("w64 {} {} {} {}", order, at, n, hex(&buf)),
        4 => {
            let text = if random.once_in(3) {
                wild_text(random)
            } else {
                text(random)
            };
            format!("wstr {} {} {} {}", order, at, hex(&text), hex(&buf))
        }
        _ => {
            let sig = if random.once_in(3) {
                wild_signature(random)
            } else {
                signature(random)
            };
            format!("wsig {} {} {}", at, hex(&sig), hex(&buf))
        }
    }
}

fn good(random: &mut Random) -> String {
    match random.below(13) {
        0..=3 => any_value(random),
        4 => format!("sig {}", hex(&signature(random))),
        5 => fixed(random),
        6 | 7 => format!("message {}", hex(&any_message(random, &[0, 100, 30]))),
        8 => format!("header {}", hex(&any_message(random, &[0, 0, 100, 30]))),
        9 => field(random),
        10 => format!("next {}", hex(&any_message(random, &[0, 100, 30]))),
        _ => write(random),
    }
}

// A line with a letter changed, left out or put in: mostly no question any more.
fn near_question(random: &mut Random, line: &str) -> Vec<u8> {
    let mut line = line.as_bytes().to_vec();
    let at = random.below(line.len().min(40));
    let letter = *random.pick(b"  -+0189afgAFlBx\t\r\0\xc3");
    match random.below(4) {
        0 => line[at] = letter,
        1 => line.insert(at, letter),
        2 => line.push(letter),
        _ => drop(line.remove(at)),
    }
    line
}

fn bad(random: &mut Random) -> Vec<u8> {
    let lines = [
        "",
        " ",
        "value",
        "sig",
        "sig ",
        "sig -  ",
        "Sig 79",
        "signature 79",
        "w8 l 0 1 00",
        "w16 l 0 65536 0000",
        "w32 l 0 4294967296 00000000",
        "w64 l 0 18446744073709551616 0000000000000000",
        "w64 l 18446744073709551616 0 00",
        "pad 0 8",
        "field -1 - -",
        "field 18446744073709551616 - -",
        "message",
        "header - -",
        "value L 0 79 00",
        "value l -1 79 00",
        "value l 00 79 00",
        "value l 0 7 00",
        "w16 l 0 00065535 0000",
    ];
    if random.once_in(2) {
        return random.pick(&lines).as_bytes().to_vec();
    }
    let line = good(random);
    near_question(random, &line)
}

/// A line without its end.
pub fn question(random: &mut Random) -> Vec<u8> {
    if random.once_in(12) {
        bad(random)
    } else {
        good(random).into_bytes()
    }
}
