// A message's header, and its fields' texts.
use crate::{ffi, ByteOrder, Refusal};
use std::ops::Range;

#[derive(Clone, Copy, Debug, PartialEq, Eq, Hash)]
pub enum MessageType {
    Call,
    Reply,
    Error,
    Signal,
}

/// The nine known header fields: numbers, or where in the message their texts lie. None is a field that the message does not have.
#[derive(Clone, Debug, PartialEq, Eq)]
pub struct Fields {
    pub object: Option<Range<usize>>,
    pub interface: Option<Range<usize>>,
    pub member: Option<Range<usize>>,
    pub error_name: Option<Range<usize>>,
    pub response_serial: Option<u32>,
    pub destination: Option<Range<usize>>,
    pub sender: Option<Range<usize>>,
    pub signature: Option<Range<usize>>,
    pub num_fds: Option<u32>,
}

/// The header of a message that was checked whole. It borrows the message.
#[derive(Clone, Debug, PartialEq, Eq)]
pub struct Header<'a> {
    message: &'a [u8],
    pub byteorder: ByteOrder,
    pub typ: MessageType,
    pub flags: u8,
    pub version: u8,
    pub serial: u32,
    /// All bytes of the message: the next one begins right behind them.
    pub length: usize,
    pub body: Range<usize>,
    pub fields: Fields,
}

/// Reads the header of the message at the start of `buf`, once all of that message is checked: refused as `check_message` refuses.
pub fn unmarshal_header(buf: &[u8]) -> Result<Header<'_>, Refusal> {
    let read = ffi::read_header(buf);
    let length = crate::accepted(read.answer)?;
    Ok(Header {
        message: &buf[..length],
        byteorder: if read.big {
            ByteOrder::BigEndian
        } else {
            ByteOrder::LittleEndian
        },
        typ: message_type(read.typ)?,
        flags: read.flags,
        version: read.version,
        serial: read.serial,
        length,
        body: range(read.body_place, read.body_length),
        fields: fields(&read.fields)?,
    })
}

/// The text of the header field with that code, inside of the message; or the fallback where there is none: no such field, a refused message,
/// or a code that is not 1 2 3 4 6 7 or 8.
pub fn lookup<'a>(message: &'a [u8], code: u8, fallback: &'a [u8]) -> &'a [u8] {
    let part = ffi::lookup(message, code, fallback);
    if part.in_message {
        &message[range(part.place, part.length)]
    } else {
        fallback
    }
}

impl<'a> Header<'a> {
    /// The message itself, without what follows it in the buffer.
    pub fn message(&self) -> &'a [u8] {
        self.message
    }

    pub fn body(&self) -> &'a [u8] {
        self.at(&self.body)
    }

    pub fn object(&self) -> Option<&'a [u8]> {
        self.text(&self.fields.object)
    }

    pub fn interface(&self) -> Option<&'a [u8]> {
        self.text(&self.fields.interface)
    }

    pub fn member(&self) -> Option<&'a [u8]> {
        self.text(&self.fields.member)
    }

    pub fn error_name(&self) -> Option<&'a [u8]> {
        self.text(&self.fields.error_name)
    }

    pub fn response_serial(&self) -> Option<u32> {
        self.fields.response_serial
    }

    pub fn destination(&self) -> Option<&'a [u8]> {
        self.text(&self.fields.destination)
    }

    pub fn sender(&self) -> Option<&'a [u8]> {
        self.text(&self.fields.sender)
    }

    /// The body's types; a message without this field has no body.
    pub fn signature(&self) -> Option<&'a [u8]> {
        self.text(&self.fields.signature)
    }

    pub fn num_fds(&self) -> Option<u32> {
        self.fields.num_fds
    }

    fn text(&self, place: &Option<Range<usize>>) -> Option<&'a [u8]> {
        place.as_ref().map(|range| self.at(range))
    }

    fn at(&self, range: &Range<usize>) -> &'a [u8] {
        &self.message[range.clone()]
    }
}

fn message_type(number: u8) -> Result<MessageType, Refusal> {
    match number {
        1 => Ok(MessageType::Call),
        2 => Ok(MessageType::Reply),
        3 => Ok(MessageType::Error),
        4 => Ok(MessageType::Signal),
        _ => Err(Refusal::misfit()),
    }
}

fn range(place: u64, length: u64) -> Range<usize> {
    place as usize..(place + length) as usize
}

// A field's type is fixed by its code: a number never stands where a text is asked for.
fn fields(entries: &[ffi::Entry; 9]) -> Result<Fields, Refusal> {
    const ABSENT: u64 = 0;
    const NUMBER: u64 = 1;
    const TEXT: u64 = 2;
    let present = |code: usize, kind| match &entries[code - 1] {
        entry if entry.kind == ABSENT => Ok(None),
        entry if entry.kind == kind => Ok(Some(entry)),
        _ => Err(Refusal::misfit()),
    };
    let text = |code| Ok(present(code, TEXT)?.map(|entry| range(entry.value, entry.length)));
    let number = |code| Ok(present(code, NUMBER)?.map(|entry| entry.value as u32));
    Ok(Fields {
        object: text(1)?,
        interface: text(2)?,
        member: text(3)?,
        error_name: text(4)?,
        response_serial: number(5)?,
        destination: text(6)?,
        sender: text(7)?,
        signature: text(8)?,
        num_fds: number(9)?,
    })
}
