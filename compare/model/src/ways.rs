//! The rows of docs/DIFFERENCES.md as switches: which differences go the other side's way.

/// A row of docs/DIFFERENCES.md. The comment is the other side's way; a switch that is off is document 01's.
#[derive(Clone, Copy, PartialEq, Eq, PartialOrd, Ord, Debug)]
pub enum Row {
    // the crate's
    /// the byte after a text may be anything
    S1,
    /// header fields may run past their table's end
    S2,
    /// an unknown field's variant is read one byte after the place before the field's padding
    S3,
    /// a body that is not empty is all bytes up to the buffer's end
    S4,
    /// an offset above the buffer's length stops the program
    R1,
    /// no limit on variants within one another
    R16,
    /// in a `g` value: a dict entry stands in an array only
    G1,
    /// in a `g` value: Boolean is a dict key
    G2,
    /// in a `g` value: `()` is a type
    G3,
    /// in a `g` value: 32 levels are allowed
    G4,
    /// in a `g` value: the depth is tested before each type, not last
    G5,
    /// in a `g` value: a dict entry counts as a bracket too
    G6,
    /// a path's letters and digits are Unicode's
    P1,
    /// a body without types is refused for its empty signature
    B1,
    /// a string with a zero byte is written
    W7,
    /// bytes that are no signature are written as one
    W10,
    /// a signature above 255 bytes is written, its length modulo 256
    W13,
    /// the buffer grows where there is no room
    W23,
    /// any alignment is padded to; 0 stops the program
    W24,
    // libdbus's
    /// a dict entry stands in an array only
    K1,
    /// Boolean is a dict key
    K2,
    /// 32 structs, 32 arrays, 32 dict entries; 64 containers in all, and variants count among them
    K3,
    /// only version 1, and no serial 0
    K5,
    /// names have a form, and 255 bytes at most
    K6,
    /// an array level counts only while `a` follows `a`
    L1,
    /// message types above 4 are taken, and need no fields
    L2,
    /// field 10 is known, and holds a path
    L3,
    /// the path and the interface that are reserved for libdbus itself are refused
    L4,
    /// a reply serial is not 0
    L5,
    /// file descriptors must come with the bytes, and none can
    L6,
}

use Row::*;

/// All differences between the crate and document 01.
pub const CRATE: &[Row] = &[S1, S2, S3, S4, R1, R16, G1, G2, G3, G4, G5, G6, P1, B1, W7, W10, W13, W23, W24];
/// All differences between libdbus and document 01.
pub const LIBDBUS: &[Row] = &[K1, K2, K3, K5, K6, L1, L2, L3, L4, L5, L6];

impl Row {
    /// The row's id in docs/DIFFERENCES.md.
    pub fn id(self) -> String {
        match self {
            R1 => "1".into(),
            R16 => "16".into(),
            other => format!("{other:?}"),
        }
    }
}

/// The rows that go the other side's way.
#[derive(Clone, Copy, PartialEq, Eq, PartialOrd, Ord, Default, Debug)]
pub struct Ways(u64);

impl Ways {
    /// Document 01 throughout.
    pub const DOCUMENT: Ways = Ways(0);

    pub fn all(rows: &[Row]) -> Ways {
        Ways(rows.iter().fold(0, |bits, row| bits | 1 << *row as u64))
    }

    pub fn has(self, row: Row) -> bool {
        self.0 >> row as u64 & 1 == 1
    }

    pub fn without(self, row: Row) -> Ways {
        Ways(self.0 & !(1 << row as u64))
    }

    pub fn rows(self, among: &[Row]) -> Vec<Row> {
        among.iter().copied().filter(|row| self.has(*row)).collect()
    }
}

/// A smallest set of rows that still explains: `explains` holds for `all`, and for no set with one row less than the answer.
pub fn fewest(all: &[Row], explains: impl Fn(Ways) -> bool) -> Ways {
    let mut ways = Ways::all(all);
    for row in all {
        if explains(ways.without(*row)) {
            ways = ways.without(*row);
        }
    }
    ways
}
