//! The bytes of random values, with faults strewn in.
use crate::random::Random;
use crate::types::{several, spell, wild_signature, Type};

pub fn text(random: &mut Random) -> Vec<u8> {
    let longest = if random.once_in(300) { 6_000 } else { 12 };
    let letters = [
        "a", "k", "Z", "0", "_", ".", "/", " ", "ä", "→", "😀", "\u{7f}", "\u{7ff}", "\u{ffff}",
    ];
    (0..random.below(longest))
        .flat_map(|_| random.pick(&letters).bytes())
        .collect()
}

/// Text that no string may have.
pub fn wild_text(random: &mut Random) -> Vec<u8> {
    let faults: [&[u8]; 7] = [
        b"\xff",
        b"\xc0\x80",
        b"\xed\xa0\x80",
        b"\xf4\x90\x80\x80",
        b"\xe2\x82",
        b"\0",
        b"\x80",
    ];
    let fault = random.pick(&faults);
    [text(random), fault.to_vec(), text(random)].concat()
}

fn path(random: &mut Random) -> Vec<u8> {
    match random.below(5) {
        0 => b"/".to_vec(),
        n => (0..n)
            .flat_map(|_| random.pick(&["/a", "/Font_1", "/x9"]).bytes())
            .collect(),
    }
}

fn wild_path(random: &mut Random) -> Vec<u8> {
    random
        .pick(&["", "a", "//", "/a/", "/a//b", "/a.b", "/ä", "/a-b"])
        .as_bytes()
        .to_vec()
}

/// Bytes that are written value by value. Each thing that could be wrong is so once in as many times as `fault_in` says; 0 is never.
pub struct Encoder<'a> {
    pub random: &'a mut Random,
    pub out: Vec<u8>,
    pub big: bool,
    pub fault_in: usize,
}

impl Encoder<'_> {
    pub fn fault(&mut self) -> bool {
        self.fault_in != 0 && self.random.once_in(self.fault_in)
    }

    // A byte that should be zero.
    fn zero(&mut self) {
        let byte = if self.fault() { self.random.byte() } else { 0 };
        self.out.push(byte);
    }

    pub fn align(&mut self, to: usize) {
        while self.out.len() % to != 0 {
            self.zero();
        }
    }

    fn digits(&self, n: u64, width: usize) -> Vec<u8> {
        if self.big {
            n.to_be_bytes()[8 - width..].to_vec()
        } else {
            n.to_le_bytes()[..width].to_vec()
        }
    }

    pub fn integer(&mut self, n: u64, width: usize) {
        self.align(width);
        let digits = self.digits(n, width);
        self.out.extend(digits);
    }

    /// Puts a length where room was left for it.
    pub fn set(&mut self, at: usize, n: usize) {
        let digits = self.digits(n as u64, 4);
        self.out[at..at + 4].copy_from_slice(&digits);
    }

    fn string(&mut self, text: &[u8]) {
        let more = usize::from(self.fault());
        self.integer((text.len() + more) as u64, 4);
        self.out.extend(text);
        self.zero();
    }

    pub fn signature(&mut self, sig: &[u8]) {
        let more = u8::from(self.fault());
        self.out.push((sig.len() as u8).wrapping_add(more));
        self.out.extend(sig);
        self.zero();
    }

    // Behind a signature that may spell anything, some bytes.
    fn wild_variant(&mut self) {
        let sig = wild_signature(self.random);
        self.signature(&sig);
        let bytes = self.random.bytes(8);
        self.out.extend(bytes);
    }

    /// Variants in variants, around the limit.
    pub fn deep_variant(&mut self) {
        let levels = self.random.within(13, 18);
        self.out.extend(b"\x01v\0".repeat(levels));
        self.out.extend(b"\x01y\0\x05");
    }

    fn variant(&mut self) {
        if self.fault() {
            return self.wild_variant();
        }
        let most = if self.fault() { 2 } else { 1 };
        let types = several(self.random, 1, most, 1);
        self.signature(&spell(&types));
        self.values(&types);
    }

    // The length counts from the first element.
    fn array(&mut self, alignment: usize, mut element: impl FnMut(&mut Self)) {
        self.integer(0, 4);
        let length_at = self.out.len() - 4;
        self.align(alignment);
        let first = self.out.len();
        for _ in 0..self.random.below(4) {
            element(self);
        }
        let more = if self.fault() {
            self.random.within(1, 9)
        } else {
            0
        };
        self.set(length_at, self.out.len() - first + more);
    }

    fn double(&mut self) -> u64 {
        let (infinite, sign) = (0x7ff0 << 48, 1 << 63);
        let doubles = [
            0,
            1,
            sign,
            infinite,
            sign + infinite,
            infinite + 1,
            infinite + (1 << 51),
            u64::MAX,
        ];
        *self.random.pick(&doubles)
    }

    fn base(&mut self, code: u8) {
        let wrong = self.fault();
        let random = &mut *self.random;
        let n = random.edge();
        match code {
            b'y' => self.integer(n, 1),
            b'b' => self.integer(if wrong { n } else { n % 2 }, 4),
            b'n' | b'q' => self.integer(n, 2),
            b'i' | b'u' | b'h' => self.integer(n, 4),
            b'd' if n % 2 == 0 => {
                let n = self.double();
                self.integer(n, 8)
            }
            b'x' | b't' | b'd' => self.integer(n, 8),
            b's' => {
                let s = if wrong {
                    wild_text(random)
                } else {
                    text(random)
                };
                self.string(&s)
            }
            b'o' => {
                let s = if wrong {
                    wild_path(random)
                } else {
                    path(random)
                };
                self.string(&s)
            }
            b'g' => {
                let s = if wrong {
                    wild_signature(random)
                } else {
                    spell(&several(random, 0, 3, 2))
                };
                self.signature(&s)
            }
            _ => self.variant(),
        }
    }

    pub fn value(&mut self, of: &Type) {
        match of {
            Type::Base(code) => self.base(*code),
            Type::Array(element) => self.array(element.alignment(), |e| e.value(element)),
            Type::Struct(fields) => {
                self.align(8);
                self.values(fields);
            }
            Type::Dict(_, key, value) => self.array(8, |e| {
                e.align(8);
                e.base(*key);
                e.value(value);
            }),
        }
    }

    pub fn values(&mut self, of: &[Type]) {
        for each in of {
            self.value(each);
        }
    }
}
