//! The questions that the program `answers` takes, and their words.
use std::fmt;

#[derive(Clone, PartialEq, Debug)]
pub enum Question {
    Value {
        big: bool,
        offset: usize,
        sig: Vec<u8>,
        bytes: Vec<u8>,
    },
    Sig {
        sig: Vec<u8>,
    },
    Fixed {
        big: bool,
        offset: usize,
        sig: Vec<u8>,
        bytes: Vec<u8>,
    },
    Message {
        bytes: Vec<u8>,
    },
    Header {
        bytes: Vec<u8>,
    },
    Field {
        code: u8,
        message: Vec<u8>,
        fallback: Vec<u8>,
    },
    Pad {
        place: usize,
        alignment: usize,
        buf: Vec<u8>,
    },
    /// `width` is 2, 4 or 8
    Write {
        width: usize,
        big: bool,
        place: usize,
        number: u64,
        buf: Vec<u8>,
    },
    WriteString {
        big: bool,
        place: usize,
        text: Vec<u8>,
        buf: Vec<u8>,
    },
    WriteSignature {
        place: usize,
        sig: Vec<u8>,
        buf: Vec<u8>,
    },
}

/// Bytes as the line protocol has them.
pub fn hex(bytes: &[u8]) -> String {
    if bytes.is_empty() {
        return "-".into();
    }
    const DIGITS: &[u8; 16] = b"0123456789abcdef";
    bytes.iter().flat_map(|b| [DIGITS[(b >> 4) as usize] as char, DIGITS[(b & 15) as usize] as char]).collect()
}

fn order(big: bool) -> char {
    if big {
        'B'
    } else {
        'l'
    }
}

impl fmt::Display for Question {
    fn fmt(&self, f: &mut fmt::Formatter) -> fmt::Result {
        match self {
            Question::Value { big, offset, sig, bytes } => write!(f, "value {} {offset} {} {}", order(*big), hex(sig), hex(bytes)),
            Question::Sig { sig } => write!(f, "sig {}", hex(sig)),
            Question::Fixed { big, offset, sig, bytes } => write!(f, "fixed {} {offset} {} {}", order(*big), hex(sig), hex(bytes)),
            Question::Message { bytes } => write!(f, "message {}", hex(bytes)),
            Question::Header { bytes } => write!(f, "header {}", hex(bytes)),
            Question::Field { code, message, fallback } => write!(f, "field {code} {} {}", hex(message), hex(fallback)),
            Question::Pad { place, alignment, buf } => write!(f, "pad {place} {alignment} {}", hex(buf)),
            Question::Write { width, big, place, number, buf } => {
                write!(f, "w{} {} {place} {number} {}", width * 8, order(*big), hex(buf))
            }
            Question::WriteString { big, place, text, buf } => write!(f, "wstr {} {place} {} {}", order(*big), hex(text), hex(buf)),
            Question::WriteSignature { place, sig, buf } => write!(f, "wsig {place} {} {}", hex(sig), hex(buf)),
        }
    }
}

impl Question {
    /// The first word of its line.
    pub fn kind(&self) -> &'static str {
        match self {
            Question::Value { .. } => "value",
            Question::Sig { .. } => "sig",
            Question::Fixed { .. } => "fixed",
            Question::Message { .. } => "message",
            Question::Header { .. } => "header",
            Question::Field { .. } => "field",
            Question::Pad { .. } => "pad",
            Question::Write { width: 2, .. } => "w16",
            Question::Write { width: 4, .. } => "w32",
            Question::Write { .. } => "w64",
            Question::WriteString { .. } => "wstr",
            Question::WriteSignature { .. } => "wsig",
        }
    }

    /// Whether it is about big-endian bytes.
    pub fn is_big(&self) -> bool {
        match self {
            Question::Value { big, .. } | Question::Fixed { big, .. } | Question::Write { big, .. } | Question::WriteString { big, .. } => *big,
            Question::Message { bytes } | Question::Header { bytes } | Question::Field { message: bytes, .. } => bytes.first() == Some(&b'B'),
            Question::Sig { .. } | Question::Pad { .. } | Question::WriteSignature { .. } => false,
        }
    }
}
