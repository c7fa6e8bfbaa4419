//! Signatures: document 01, port order 3, with the rows that change them.
use crate::ways::{Row, Ways};

pub const BASIC: &[u8] = b"ybnqiuxtdhsog";

/// What one complete type is.
#[derive(Clone, PartialEq, Debug)]
pub enum Type {
    Basic(u8),
    Array(Box<Type>),
    /// in an array or alone (K1): laid out alike
    Dict(u8, Box<Type>),
    Struct(Vec<Type>),
    Variant,
}

impl Type {
    pub fn alignment(&self) -> usize {
        match self {
            Type::Basic(b'y' | b'g') | Type::Variant => 1,
            Type::Basic(b'n' | b'q') => 2,
            Type::Basic(b'x' | b't' | b'd') | Type::Struct(_) => 8,
            Type::Basic(_) | Type::Array(_) | Type::Dict(..) => 4,
        }
    }
}

/// How many structs, arrays, dict entries and bracket levels lie around a type.
#[derive(Clone, Copy, Default)]
struct Around {
    structs: usize,
    arrays: usize,
    entries: usize,
}

struct Parser<'a> {
    bytes: &'a [u8],
    at: usize,
    ways: Ways,
    too_deep: bool,
}

/// A bare signature: its types, or the number of its refusal.
pub fn bare(bytes: &[u8], ways: Ways) -> Result<Vec<Type>, u8> {
    let plain = [Row::G1, Row::G2, Row::G3, Row::G4, Row::G5, Row::G6].iter().fold(ways, |w, row| w.without(*row));
    match bytes.len() {
        0 => Err(11),
        1..=255 => types(bytes, plain),
        _ => Err(13),
    }
}

/// The text of a `g` value: zero or more types.
pub fn of_value(bytes: &[u8], ways: Ways) -> Result<Vec<Type>, u8> {
    types(bytes, ways)
}

fn types(bytes: &[u8], ways: Ways) -> Result<Vec<Type>, u8> {
    let mut parser = Parser { bytes, at: 0, ways, too_deep: false };
    let mut found = Vec::new();
    while parser.at < bytes.len() {
        found.push(parser.one(Around::default())?);
    }
    if parser.too_deep {
        return Err(14);
    }
    Ok(found)
}

impl Parser<'_> {
    fn next(&mut self) -> Option<u8> {
        self.at += 1;
        self.bytes.get(self.at - 1).copied()
    }

    fn peek(&self) -> Option<u8> {
        self.bytes.get(self.at).copied()
    }

    /// A type stands here: notes whether it lies too deep, and refuses at once where the depth is tested on the way (G5).
    fn depth(&mut self, around: Around) -> Result<(), u8> {
        let most = if self.ways.has(Row::G4) || self.ways.has(Row::K3) { 32 } else { 31 };
        let dicts = self.ways.has(Row::K3) && around.entries > most;
        if around.structs > most || around.arrays > most || dicts {
            self.too_deep = true;
        }
        if self.too_deep && self.ways.has(Row::G5) {
            return Err(14);
        }
        Ok(())
    }

    fn one(&mut self, around: Around) -> Result<Type, u8> {
        self.depth(around)?;
        match self.next() {
            Some(b'v') => Ok(Type::Variant),
            Some(b'a') => self.array(around),
            Some(b'(') => self.fields(around),
            Some(b'{') if self.ways.has(Row::G1) || self.ways.has(Row::K1) => Err(10),
            Some(b'{') => self.entry(Around { arrays: around.arrays + 1, ..around }),
            Some(letter) if BASIC.contains(&letter) => Ok(Type::Basic(letter)),
            _ => Err(10),
        }
    }

    fn array(&mut self, around: Around) -> Result<Type, u8> {
        let inside = Around { arrays: around.arrays + 1, ..around };
        if self.peek() == Some(b'{') {
            self.depth(inside)?;
            self.at += 1;
            return self.entry(inside);
        }
        Ok(Type::Array(Box::new(self.one(inside)?)))
    }

    /// After the `{`: key, value, `}`.
    fn entry(&mut self, around: Around) -> Result<Type, u8> {
        let boolean = self.ways.has(Row::G2) || self.ways.has(Row::K2);
        let key = self.next().filter(|k| BASIC.contains(k) && (*k != b'b' || boolean)).ok_or(10)?;
        // with nothing after the key no type stands there, so no depth is tested
        self.peek().ok_or(10)?;
        let value = self.one(Around {
            structs: around.structs + self.ways.has(Row::G6) as usize,
            arrays: self.arrays_below(around),
            entries: around.entries + 1,
        })?;
        if self.next() != Some(b'}') {
            return Err(10);
        }
        Ok(Type::Dict(key, Box::new(value)))
    }

    /// After the `(`.
    fn fields(&mut self, around: Around) -> Result<Type, u8> {
        let inside = Around { structs: around.structs + 1, arrays: self.arrays_below(around), ..around };
        let mut found = Vec::new();
        loop {
            match self.peek().ok_or(10)? {
                b')' => break self.at += 1,
                _ => found.push(self.one(inside)?),
            }
        }
        if found.is_empty() && !self.ways.has(Row::G3) {
            return Err(12);
        }
        Ok(Type::Struct(found))
    }

    /// The array levels that still count below a bracket.
    fn arrays_below(&self, around: Around) -> usize {
        if self.ways.has(Row::L1) {
            0
        } else {
            around.arrays
        }
    }
}
