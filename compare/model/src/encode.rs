//! Random types, and random values of a type, written by document 01's layout. Most are right; `odd` says how many percent of the texts in
//! them are made to break, or nearly break, a rule.
use crate::grammar::{Type, BASIC};
use crate::random::Random;

const KEYS: &[u8] = b"ynqiuxtdhsog";

/// A type with at most `depth` levels of containers.
pub fn some_type(random: &mut Random, depth: usize) -> Type {
    if depth == 0 || random.percent(40) {
        return if random.percent(12) { Type::Variant } else { Type::Basic(random.pick(BASIC)) };
    }
    match random.below(10) {
        0..=3 => Type::Array(Box::new(some_type(random, depth - 1))),
        4..=6 => Type::Struct((0..1 + random.below(3)).map(|_| some_type(random, depth - 1)).collect()),
        7..=8 => Type::Dict(random.pick(KEYS), Box::new(some_type(random, depth - 1))),
        _ => Type::Variant,
    }
}

/// A type near the limits of depth, made of one kind of level or of several.
pub fn deep_type(random: &mut Random) -> Type {
    let mixed = random.percent(50);
    let kind = random.below(3);
    let levels = 29 + random.below(6);
    let mut t = Type::Basic(random.pick(b"ysv".as_slice()));
    for _ in 0..if mixed { 2 * levels } else { levels } {
        t = match if mixed { random.below(3) } else { kind } {
            0 => Type::Array(Box::new(t)),
            1 => Type::Struct(vec![t]),
            _ => Type::Dict(b's', Box::new(t)),
        };
    }
    t
}

/// The letters of a type. A dict outside an array is spelled either way.
pub fn spell(random: &mut Random, t: &Type) -> Vec<u8> {
    match t {
        Type::Basic(letter) => vec![*letter],
        Type::Variant => vec![b'v'],
        Type::Array(element) => {
            let inside = match &**element {
                // a loose dict behind an `a` would be read as that array's entry
                Type::Dict(..) => [b"a".to_vec(), entry(random, element)].concat(),
                other => spell(random, other),
            };
            [b"a".to_vec(), inside].concat()
        }
        Type::Struct(fields) => {
            let inside = fields.iter().flat_map(|field| spell(random, field)).collect::<Vec<u8>>();
            [b"(".to_vec(), inside, b")".to_vec()].concat()
        }
        Type::Dict(..) => {
            let array: &[u8] = if random.percent(85) { b"a" } else { b"" };
            [array.to_vec(), entry(random, t)].concat()
        }
    }
}

fn entry(random: &mut Random, t: &Type) -> Vec<u8> {
    let Type::Dict(key, value) = t else { unreachable!("asked for dicts only") };
    [vec![b'{', *key], spell(random, value), b"}".to_vec()].concat()
}

/// Text for a signature value: of types, or of letters in any order, or near the limits of depth.
pub fn signature_text(random: &mut Random, odd: usize) -> Vec<u8> {
    if !random.percent(odd) {
        let count = random.below(4);
        return (0..count)
            .flat_map(|_| {
                let t = some_type(random, 2);
                spell(random, &t)
            })
            .collect();
    }
    match random.below(5) {
        0 | 1 => {
            let n = random.below(8);
            random.bytes_of(b"a(){}bysvz", n)
        }
        2 => random.pick(&[&b"()"[..], b"a{by}", b"{sv}", b"a()", b"(a{bs}())", b"()z", b"z()"]).to_vec(),
        3 => {
            let t = deep_type(random);
            let mut text = spell(random, &t);
            text.truncate(255);
            text
        }
        _ => nested_text(random),
    }
}

/// Levels opened near the limit, then a letter that may be none, then perhaps closed.
fn nested_text(random: &mut Random) -> Vec<u8> {
    let mut closing = Vec::new();
    let mut text = Vec::new();
    for opening in [random.below(3), random.below(3), random.below(3)] {
        for _ in 0..random.pick(&[0, 1, 2, 29, 30, 31, 32, 33]) {
            let (open, close): (&[u8], &[u8]) = [(&b"a"[..], &b""[..]), (b"(", b")"), (b"a{s", b"}")][opening];
            text.extend_from_slice(open);
            closing.splice(0..0, close.iter().copied());
        }
    }
    text.extend(random.pick(&[&b"y"[..], b"z", b"", b"()", b"a{", b"a{s", b"b)"]));
    if random.percent(70) {
        text.extend(closing);
    }
    text.truncate(255);
    text
}

const LETTERS: &[&str] = &["a", "k", "Z", "_", "9", ".", " ", "é", "²", "日", "😀", "\u{7f}", "\u{7ff}", "\u{ffff}", "\u{10ffff}"];

/// A string's bytes.
pub fn text(random: &mut Random, odd: usize) -> Vec<u8> {
    let n = if random.percent(4) { random.below(200) } else { random.below(9) };
    let mut bytes: Vec<u8> = (0..n).flat_map(|_| random.pick(LETTERS).bytes()).collect();
    if random.percent(odd) && !bytes.is_empty() {
        let at = random.below(bytes.len());
        bytes[at] = random.pick(&[0, 0, 0x80, 0xc0, 0xed, 0xf5, 0xff]);
    }
    bytes
}

pub fn path(random: &mut Random, odd: usize) -> Vec<u8> {
    if random.percent(odd) {
        let n = random.below(6);
        return (0..n).flat_map(|_| random.pick(&["/", "/", "a", "_", "é", "²", "-", "٣"]).bytes()).collect();
    }
    let names = random.below(3);
    if names == 0 {
        return b"/".to_vec();
    }
    (0..names).flat_map(|_| random.pick(&["/a", "/b_1", "/Z9"]).bytes()).collect()
}

pub struct Encoder<'r> {
    pub random: &'r mut Random,
    pub buf: Vec<u8>,
    pub big: bool,
    /// percent of odd texts
    pub odd: usize,
    /// from this length on arrays stay short and variants plain
    pub room: usize,
    /// the fewest elements of an array
    pub least: usize,
}

impl Encoder<'_> {
    pub fn pad(&mut self, alignment: usize) {
        self.buf.resize(self.buf.len().next_multiple_of(alignment), 0);
    }

    pub fn number(&mut self, n: u64, width: usize) {
        let bytes = n.to_le_bytes();
        let bytes = &bytes[..width];
        if self.big {
            self.buf.extend(bytes.iter().rev())
        } else {
            self.buf.extend(bytes)
        }
    }

    /// Puts `n` over the 4 bytes at `at`.
    pub fn patch(&mut self, at: usize, n: u32) {
        let bytes = if self.big { n.to_be_bytes() } else { n.to_le_bytes() };
        self.buf[at..at + 4].copy_from_slice(&bytes);
    }

    pub fn string(&mut self, text: &[u8]) {
        self.number(text.len() as u64, 4);
        self.buf.extend(text);
        self.terminator();
    }

    pub fn signature(&mut self, text: &[u8]) {
        self.buf.push(text.len() as u8);
        self.buf.extend(text);
        self.terminator();
    }

    fn terminator(&mut self) {
        let odd = self.random.percent(self.odd / 4);
        self.buf.push(if odd { self.random.byte() } else { 0 });
    }

    pub fn basic(&mut self, letter: u8) {
        self.pad(Type::Basic(letter).alignment());
        match letter {
            b's' => {
                let t = text(self.random, self.odd);
                self.string(&t)
            }
            b'o' => {
                let t = path(self.random, self.odd);
                self.string(&t)
            }
            b'g' => {
                let t = signature_text(self.random, self.odd);
                self.signature(&t)
            }
            b'b' => {
                let n = self.random.below(2) as u64;
                self.number(n, 4)
            }
            _ => {
                let n = self.random.number();
                self.number(n, crate::value::width(letter))
            }
        }
    }

    pub fn value(&mut self, t: &Type) {
        match t {
            Type::Basic(letter) => self.basic(*letter),
            Type::Struct(fields) => {
                self.pad(8);
                fields.iter().for_each(|field| self.value(field));
            }
            Type::Array(element) => self.counted(element.alignment(), |e| e.value(element)),
            Type::Dict(key, value) => self.counted(8, |e| {
                e.pad(8);
                e.basic(*key);
                e.value(value);
            }),
            Type::Variant => self.variant(),
        }
    }

    fn counted(&mut self, alignment: usize, element: impl Fn(&mut Self)) {
        self.pad(4);
        let head = self.buf.len();
        self.number(0, 4);
        self.pad(alignment);
        let first = self.buf.len();
        let many = if self.random.percent(5) { 40 } else { 4 };
        for i in 0..self.least + self.random.below(many) {
            if i < self.least || self.buf.len() < self.room {
                element(self);
            }
        }
        self.patch(head, (self.buf.len() - first) as u32);
    }

    /// An array with as many elements as there is room for.
    pub fn filled(&mut self, element: &Type) {
        self.pad(4);
        let head = self.buf.len();
        self.number(0, 4);
        self.pad(element.alignment());
        let first = self.buf.len();
        while self.buf.len() < self.room {
            self.value(element);
        }
        self.patch(head, (self.buf.len() - first) as u32);
    }

    fn variant(&mut self) {
        let t = if self.buf.len() < self.room { some_type(self.random, 2) } else { Type::Basic(b'y') };
        let sig = spell(self.random, &t);
        self.signature(&sig);
        self.value(&t);
    }

    /// Variants within one another, `levels` deep, around a byte.
    pub fn nested_variants(&mut self, levels: usize) {
        (1..levels).for_each(|_| self.signature(b"v"));
        self.signature(b"y");
        self.buf.push(5);
    }
}
