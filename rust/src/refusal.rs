// Why something was refused, and the words for it.
use std::error::Error;
use std::fmt;

/// A refusal: what is wrong (by number and by name), and at which byte.
///
/// The position counts from the buffer's first byte. For messages, faults before the body's values have position 0; for a write, it is the
/// place; for a bare signature, 0.
#[derive(Clone, Copy, Debug, PartialEq, Eq, Hash)]
pub struct Refusal {
    pub number: u8,
    pub name: &'static str,
    pub position: usize,
}

// The number, the name, and what it means.
#[rustfmt::skip]
const REFUSALS: &[(u8, &str, &str)] = &[ // written by tools/refusals from docs/refusals.txt
    (1, "BadOffset", "the offset or the writing place lies behind the end of the bytes"),
    (2, "NotEnoughBytes", "a value, a field or a padding runs past its end, or an array's length is not a whole number of elements"),
    (3, "NotEnoughBytesForCollection", "the contents of an array or a dict run past the end of the bytes that they stand in"),
    (4, "PaddingContainedData", "a byte that only fills up to an alignment is not zero"),
    (5, "InvalidBoolean", "a boolean is neither 0 nor 1"),
    (6, "InvalidUtf8", "a text is not UTF-8"),
    (7, "StringContainsNullByte", "a text has a zero byte inside"),
    (8, "MissingTerminator", "the byte after a text, which has to be zero, is not"),
    (9, "InvalidObjectPath", "an object path is neither / nor one or more names of A-Z a-z 0-9 _ with a / before each"),
    (10, "InvalidSignature", "a signature has a byte or a bracket that the grammar does not allow there"),
    (11, "EmptySignature", "a signature is empty where a type has to stand"),
    (12, "EmptyStruct", "a signature has a struct without fields"),
    (13, "SignatureTooLong", "a signature has more than 255 bytes"),
    (14, "NestingTooDeep", "a signature nests more than 31 arrays or more than 31 structs"),
    (15, "WrongSignature", "a variant's signature is not exactly one type, or a known header field has another type than its own"),
    (16, "VariantTooDeep", "a variant stands inside 16 others"),
    (17, "InvalidByteOrder", "the first byte is neither l nor B, so no message begins here"),
    (18, "InvalidMessageType", "the second byte, the message's type, is not 1 to 4"),
    (19, "NoSignature", "a header field's signature is not exactly one type"),
    (20, "InvalidHeaderField", "a header field has the code 0"),
    (21, "InvalidHeaderFields", "a header field that this type of message needs is absent, or a known one stands twice"),
    (22, "BodyLeft", "bytes of the body remain after the last value of its signature"),
    (23, "NoRoom", "there are fewer bytes after the place than the write needs"),
    (24, "BadAlignment", "the alignment asked for is not 1, 2, 4 or 8"),
    (25, "TextTooLong", "a string to write has more than 4,294,967,295 bytes"),
    (26, "BadArgument", "the signature asked about is not exactly one type, or not one that this call takes"),
];

// What these bindings do not know: a refusal's number, a message's type, a value's kind.
const MISFIT: (u8, &str, &str) = (
    0,
    "Misfit",
    "library and bindings do not fit: the one says what the other does not know",
);

fn entry(number: u8) -> (u8, &'static str, &'static str) {
    *REFUSALS
        .iter()
        .find(|entry| entry.0 == number)
        .unwrap_or(&MISFIT)
}

impl Refusal {
    /// The refusal with that number, as when a number out of a log is to be put in words.
    pub fn new(number: u8, position: usize) -> Refusal {
        let (_, name, _) = entry(number);
        Refusal {
            number,
            name,
            position,
        }
    }

    /// The answer to what the library says and these bindings do not know.
    pub(crate) fn misfit() -> Refusal {
        Refusal::new(MISFIT.0, 0)
    }

    /// What it means, in words.
    pub fn meaning(&self) -> &'static str {
        entry(self.number).2
    }

    /// Whether the bytes ended too early (2 and 3). That more of them help is not said: an array in a message that is all there may be too long
    /// for it. [`crate::next_message`] tells the two apart.
    pub fn is_too_short(&self) -> bool {
        matches!(self.number, 2 | 3)
    }
}

impl fmt::Display for Refusal {
    fn fmt(&self, f: &mut fmt::Formatter<'_>) -> fmt::Result {
        write!(
            f,
            "{} (refusal {}, {}) at byte {}",
            self.meaning(),
            self.number,
            self.name,
            self.position
        )
    }
}

impl Error for Refusal {}
