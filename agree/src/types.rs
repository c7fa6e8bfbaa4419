//! Random types, and signatures.
use crate::random::Random;

const BASES: &[u8] = b"ybnqiuxtdhsogv";
const KEYS: &[u8] = b"ynqiuxtdhsog";

pub enum Type {
    Base(u8),
    Array(Box<Type>),
    Struct(Vec<Type>),
    /// A dict: its start (`a{`, or `{` alone), key and value.
    Dict(&'static str, u8, Box<Type>),
}

impl Type {
    pub fn random(random: &mut Random, depth: usize) -> Type {
        match if depth == 0 { 9 } else { random.below(10) } {
            0 | 1 => Type::Array(Box::new(Type::element(random, depth - 1))),
            2 => Type::Struct(several(random, 1, 3, depth - 1)),
            3 => {
                let start = *random.pick(&["a{", "a{", "a{", "{"]);
                let key = *random.pick(KEYS);
                Type::Dict(start, key, Box::new(Type::random(random, depth - 1)))
            }
            _ => Type::Base(*random.pick(BASES)),
        }
    }

    // An array of `{sv}` is spelled like the dict `a{sv}`, so that start is no element's.
    fn element(random: &mut Random, depth: usize) -> Type {
        match Type::random(random, depth) {
            Type::Dict(_, key, value) => Type::Dict("a{", key, value),
            other => other,
        }
    }

    pub fn spell(&self) -> Vec<u8> {
        match self {
            Type::Base(code) => vec![*code],
            Type::Array(element) => [b"a".to_vec(), element.spell()].concat(),
            Type::Struct(fields) => [b"(".to_vec(), spell(fields), b")".to_vec()].concat(),
            Type::Dict(start, key, value) => {
                [start.as_bytes(), &[*key], &value.spell(), b"}"].concat()
            }
        }
    }

    pub fn alignment(&self) -> usize {
        match self {
            Type::Base(b'y' | b'g' | b'v') => 1,
            Type::Base(b'n' | b'q') => 2,
            Type::Base(b'x' | b't' | b'd') | Type::Struct(_) => 8,
            _ => 4,
        }
    }
}

pub fn several(random: &mut Random, from: usize, to: usize, depth: usize) -> Vec<Type> {
    (0..random.within(from, to))
        .map(|_| Type::random(random, depth))
        .collect()
}

pub fn spell(types: &[Type]) -> Vec<u8> {
    types.iter().flat_map(Type::spell).collect()
}

/// A signature that is mostly wrong: of letters and brackets, or around one of the limits.
pub fn wild_signature(random: &mut Random) -> Vec<u8> {
    let levels = random.within(30, 33);
    let nested = |open: &[u8], close: &[u8]| {
        [&open.repeat(levels), &b"y"[..], &close.repeat(levels)].concat()
    };
    match random.below(8) {
        0 => nested(b"a", b""),
        1 => nested(b"(", b")"),
        2 => b"y".repeat(random.within(254, 257)),
        3 => {
            let mut sig = spell(&several(random, 1, 3, 3));
            let at = random.below(sig.len());
            sig[at] = random.byte();
            sig
        }
        4 => b"()".to_vec(),
        5 => Vec::new(),
        _ => (0..random.within(1, 6))
            .map(|_| *random.pick(b"aay(){}svbz"))
            .collect(),
    }
}

pub fn signature(random: &mut Random) -> Vec<u8> {
    if random.once_in(3) {
        wild_signature(random)
    } else {
        spell(&several(random, 0, 3, 3))
    }
}
