//! Bodies of 60 KiB, written by the crate and by the library.
use crate::inputs::{text, BIG};
use crate::random::Random;
use rustbus::wire::util;
use rustbus::ByteOrder::LittleEndian as LE;

pub trait Writer {
    fn clear(&mut self);
    fn pad(&mut self, align: usize);
    fn u16(&mut self, value: u16);
    fn u32(&mut self, value: u32);
    fn u64(&mut self, value: u64);
    fn string(&mut self, text: &str);
    fn written(&self) -> &[u8];
}

/// The crate's: a `Vec` keeps its room when it is cleared, so only the first body makes it grow.
impl Writer for Vec<u8> {
    fn clear(&mut self) {
        Vec::clear(self);
    }

    fn pad(&mut self, align: usize) {
        util::pad_to_align(align, self);
    }

    fn u16(&mut self, value: u16) {
        util::write_u16(value, LE, self);
    }

    fn u32(&mut self, value: u32) {
        util::write_u32(value, LE, self);
    }

    fn u64(&mut self, value: u64) {
        util::write_u64(value, LE, self);
    }

    fn string(&mut self, text: &str) {
        util::write_string(text, LE, self);
    }

    fn written(&self) -> &[u8] {
        self
    }
}

pub enum Body {
    /// Structs `(qut)`, 16 bytes each.
    Integers(Vec<u64>),
    Strings(Vec<String>),
}

pub const BODIES: [&str; 3] = ["integers", "strings", "one text"];

impl Body {
    pub fn new(name: &str) -> Body {
        let mut r = Random::new();
        match name {
            "integers" => Body::Integers((0..BIG / 16).map(|_| r.below(1 << 50)).collect()),
            // a string takes 4 bytes, 4 to 12 of its own, a zero, and padding: 15 on average
            "strings" => Body::Strings((0..BIG / 15).map(|_| r.name()).collect()),
            _ => Body::Strings(vec![text("ASCII", BIG)]),
        }
    }

    pub fn write(&self, w: &mut impl Writer) -> usize {
        w.clear();
        match self {
            Body::Integers(numbers) => numbers.iter().for_each(|n| {
                w.pad(8);
                w.u16(*n as u16);
                w.pad(4);
                w.u32(*n as u32);
                w.pad(8);
                w.u64(*n);
            }),
            Body::Strings(texts) => texts.iter().for_each(|text| {
                w.pad(4);
                w.string(text);
            }),
        }
        w.written().len()
    }
}
