//! Values: document 01, port order 1, 2 and 4, with the rows that change them.
use crate::grammar::{self, Type};
use crate::ways::{Row, Ways};

/// Why there is no value.
#[derive(Clone, Copy, PartialEq, Debug)]
pub enum Fault {
    Refused {
        at: usize,
        number: u8,
    },
    /// the program stops
    Stops,
}

pub type Walk<T> = Result<T, Fault>;

pub fn no<T>(at: usize, number: u8) -> Walk<T> {
    Err(Fault::Refused { at, number })
}

/// How deep a value lies: variants around it, and containers of any kind.
#[derive(Clone, Copy, Default)]
pub struct Levels {
    pub variants: usize,
    pub containers: usize,
}

impl Levels {
    fn deeper(self, variants: usize) -> Levels {
        Levels { variants: self.variants + variants, containers: self.containers + 1 }
    }
}

/// Bytes with an order; `end` in each function is where the bytes that it may see end.
#[derive(Clone, Copy)]
pub struct Bytes<'a> {
    pub all: &'a [u8],
    pub big: bool,
    pub ways: Ways,
}

impl<'a> Bytes<'a> {
    /// An unsigned number of `width` bytes; they must be there.
    pub fn number(&self, at: usize, width: usize) -> u64 {
        let byte = |i: usize| self.all[at + if self.big { width - 1 - i } else { i }] as u64;
        (0..width).map(|i| byte(i) << (8 * i)).sum()
    }

    /// The next multiple of `alignment`.
    pub fn padded(&self, at: usize, end: usize, alignment: usize) -> Walk<usize> {
        let next = at.div_ceil(alignment) * alignment;
        if next > end {
            return no(at, 2);
        }
        if self.all[at..next].iter().any(|b| *b != 0) {
            return no(at, 4);
        }
        Ok(next)
    }

    /// `size` bytes at `at`: the place after them.
    fn taken(&self, at: usize, end: usize, size: usize) -> Walk<usize> {
        if end - at < size {
            no(at, 2)
        } else {
            Ok(at + size)
        }
    }

    fn terminator(&self, at: usize, place: usize) -> Walk<()> {
        if self.all[place] != 0 && !self.ways.has(Row::S1) {
            no(at, 8)
        } else {
            Ok(())
        }
    }

    /// A string's text, and the place after its terminator.
    pub fn string(&self, at: usize, end: usize) -> Walk<(&'a [u8], usize)> {
        let first = self.taken(at, end, 4)?;
        let length = self.number(at, 4) as usize;
        if end - first < length + 1 {
            return no(at, 2);
        }
        let text = &self.all[first..first + length];
        if std::str::from_utf8(text).is_err() {
            return no(at, 6);
        }
        if text.contains(&0) {
            return no(at, 7);
        }
        self.terminator(at, first + length)?;
        Ok((text, first + length + 1))
    }

    /// A signature's text, not yet held against the grammar, and the place after its terminator.
    pub fn signature(&self, at: usize, end: usize) -> Walk<(&'a [u8], usize)> {
        let first = self.taken(at, end, 1)?;
        let length = self.all[at] as usize;
        if end - first < length + 1 {
            return no(at, 2);
        }
        let text = &self.all[first..first + length];
        if std::str::from_utf8(text).is_err() {
            return no(at, 6);
        }
        self.terminator(at, first + length)?;
        Ok((text, first + length + 1))
    }

    /// A value of a basic type, its padding included: the place after it.
    pub fn basic(&self, letter: u8, at: usize, end: usize) -> Walk<usize> {
        let at = self.padded(at, end, Type::Basic(letter).alignment())?;
        match letter {
            b's' => self.string(at, end).map(|(_, next)| next),
            b'o' => {
                let (text, next) = self.string(at, end)?;
                if is_path(text, self.ways) {
                    Ok(next)
                } else {
                    no(at, 9)
                }
            }
            b'g' => {
                let (text, next) = self.signature(at, end)?;
                match grammar::of_value(text, self.ways) {
                    Ok(_) => Ok(next),
                    Err(number) => no(at, number),
                }
            }
            b'b' => {
                let next = self.taken(at, end, 4)?;
                if self.number(at, 4) > 1 {
                    no(at, 5)
                } else {
                    Ok(next)
                }
            }
            _ => self.taken(at, end, width(letter)),
        }
    }

    pub fn value(&self, t: &Type, at: usize, end: usize, levels: Levels) -> Walk<usize> {
        if self.ways.has(Row::K3) && levels.containers > 64 {
            return no(at, 14);
        }
        match t {
            Type::Basic(letter) => self.basic(*letter, at, end),
            Type::Struct(fields) => {
                let at = self.padded(at, end, 8)?;
                fields.iter().try_fold(at, |at, field| self.value(field, at, end, levels.deeper(0)))
            }
            Type::Array(element) => self.array(element, at, end, levels),
            Type::Dict(key, value) => {
                let (mut at, stop) = self.opened(at, end, 8)?;
                while at < stop {
                    at = self.padded(at, stop, 8)?;
                    at = self.basic(*key, at, stop)?;
                    at = self.value(value, at, stop, levels.deeper(0).deeper(0))?;
                }
                Ok(at)
            }
            Type::Variant => self.variant(at, end, levels),
        }
    }

    fn array(&self, element: &Type, at: usize, end: usize, levels: Levels) -> Walk<usize> {
        let (mut at, stop) = self.opened(at, end, element.alignment())?;
        if let Type::Basic(letter @ (b'y' | b'n' | b'q' | b'u' | b'x' | b't' | b'h' | b'd')) = element {
            return if (stop - at) % width(*letter) == 0 { Ok(stop) } else { no(at, 2) };
        }
        let flat = matches!(element, Type::Basic(b'i' | b'b'));
        while at < stop {
            at = self.value(element, at, stop, if flat { levels } else { levels.deeper(0) })?;
        }
        Ok(at)
    }

    /// The head of an array whose elements align to `alignment`: where they begin and end.
    fn opened(&self, at: usize, end: usize, alignment: usize) -> Walk<(usize, usize)> {
        let at = self.padded(at, end, 4)?;
        let behind = self.taken(at, end, 4)?;
        let length = self.number(at, 4) as usize;
        if end - behind < length {
            return no(behind, 3);
        }
        let first = self.padded(behind, end, alignment)?;
        if end - first < length {
            return no(first, 3);
        }
        Ok((first, first + length))
    }

    fn variant(&self, at: usize, end: usize, levels: Levels) -> Walk<usize> {
        let unlimited = self.ways.has(Row::R16) || self.ways.has(Row::K3);
        if levels.variants == 16 && !unlimited {
            return no(at, 16);
        }
        let (text, next) = self.signature(at, end)?;
        match grammar::bare(text, self.ways) {
            Err(number) => no(at, number),
            Ok(types) if types.len() != 1 => no(at, 15),
            Ok(types) => self.value(&types[0], next, end, levels.deeper(1)),
        }
    }
}

/// The bytes of a value of fixed width.
pub fn width(letter: u8) -> usize {
    match letter {
        b'y' => 1,
        b'n' | b'q' => 2,
        b'x' | b't' | b'd' => 8,
        _ => 4,
    }
}

/// `/`, or one or more of `/` followed by letters, digits and `_`.
pub fn is_path(text: &[u8], ways: Ways) -> bool {
    let text = std::str::from_utf8(text).unwrap_or("");
    let letter = |c: char| c.is_ascii_alphanumeric() || c == '_' || ways.has(Row::P1) && c.is_alphanumeric();
    let name = |part: &str| !part.is_empty() && part.chars().all(letter);
    match text.strip_prefix('/') {
        None => false,
        Some("") => true,
        Some(rest) => rest.split('/').all(name),
    }
}

/// "26, 1, then the walk": the length of the value at `offset`.
pub fn check(big: bool, offset: usize, sig: &[u8], all: &[u8], ways: Ways) -> Walk<usize> {
    let types = grammar::bare(sig, ways).unwrap_or_default();
    let [one] = &types[..] else { return no(0, 26) };
    if offset > all.len() {
        return outside(offset, ways);
    }
    let bytes = Bytes { all, big, ways };
    bytes.value(one, offset, all.len(), Levels::default()).map(|next| next - offset)
}

/// An offset above the buffer's length.
pub fn outside<T>(offset: usize, ways: Ways) -> Walk<T> {
    if ways.has(Row::R1) {
        Err(Fault::Stops)
    } else {
        no(offset, 1)
    }
}
