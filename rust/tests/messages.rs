//! Messages: their ends, their headers, and the lookup of a field's text.
mod common;
use common::{hex, no};
use millettie::{
    check_message, library_fits, lookup, next_message, unmarshal_header, ByteOrder, MessageType, Next,
    Refusal,
};

const CALL: &str = "6c 01 00 01 00 00 00 00 01 00 00 00 1a 00 00 00
    01 01 6f 00 01 00 00 00 2f 00 00 00 00 00 00 00 03 01 73 00 01 00 00 00 4b 00 00 00 00 00 00 00";

// A signal of 2 numbers from `:1.5`, with 2 file descriptors, a field 10 that nobody knows, and no padding behind the table.
const SIGNAL: &str = "42 04 01 02 00 00 00 06 00 00 00 63 00 00 00 58
    01 01 6f 00 00 00 00 02 2f 61 00 00 00 00 00 00
    02 01 73 00 00 00 00 03 69 2e 6a 00 00 00 00 00
    03 01 73 00 00 00 00 01 4d 00 00 00 00 00 00 00
    07 01 73 00 00 00 00 04 3a 31 2e 35 00 00 00 00
    08 01 67 00 02 75 71 00
    0a 01 79 00 ff 00 00 00 09 01 75 00 00 00 00 02
    00 00 00 07 00 08";

#[test]
fn the_message_of_48_bytes() {
    assert_eq!(check_message(&hex(CALL)), Ok(48));
    let mut shorter_table = hex(CALL);
    shorter_table[12] = 0x19;
    assert_eq!(check_message(&shorter_table), no(0, 2));
}

#[test]
fn a_message_ends_at_its_own_length() {
    let both = [hex(SIGNAL), hex(CALL)].concat();
    let first = check_message(&both).unwrap();
    assert_eq!(first, hex(SIGNAL).len());
    assert_eq!(check_message(&both[first..]), Ok(48));
    assert_eq!(unmarshal_header(&both).unwrap().message(), &hex(SIGNAL)[..]);
}

#[test]
fn every_cut_is_too_short() {
    for message in [hex(CALL), hex(SIGNAL)] {
        for length in 0..message.len() {
            assert!(
                check_message(&message[..length])
                    .unwrap_err()
                    .is_too_short(),
                "{}",
                length
            );
        }
    }
}

#[test]
fn the_library_is_the_one_for_these_bindings() {
    assert!(library_fits());
}

#[test]
fn what_stands_next() {
    let both = [hex(SIGNAL), hex(CALL)].concat();
    let whole = hex(SIGNAL).len();
    for length in 0..both.len() {
        let expected = match length {
            0..=15 => Next::Cut(16),
            _ if length < whole => Next::Cut(whole),
            _ => Next::Whole(whole),
        };
        assert_eq!(next_message(&both[..length]), expected, "{}", length);
    }
}

// 2 and 3 of a message that is all there are final: its table ends inside its last field, and stays so, whatever follows.
#[test]
fn too_short_inside_a_whole_message_is_refused() {
    let mut shorter_table = hex(CALL);
    shorter_table[12] = 0x19;
    for length in 16..48 {
        assert_eq!(next_message(&shorter_table[..length]), Next::Cut(48));
    }
    let longer = [shorter_table, hex(CALL)].concat();
    for length in 48..=longer.len() {
        let next = next_message(&longer[..length]);
        assert_eq!(next, Next::Refused(Refusal::new(2, 0)), "{}", length);
    }
}

#[test]
fn header_of_the_call() {
    let message = hex(CALL);
    let header = unmarshal_header(&message).unwrap();
    assert_eq!(header.byteorder, ByteOrder::LittleEndian);
    assert_eq!(header.typ, MessageType::Call);
    assert_eq!((header.flags, header.version, header.serial), (0, 1, 1));
    assert_eq!((header.length, header.body.clone()), (48, 48..48));
    assert_eq!(header.body(), b"");
    assert_eq!(header.fields.object, Some(24..25));
    assert_eq!(header.fields.member, Some(40..41));
    assert_eq!(header.object(), Some(&b"/"[..]));
    assert_eq!(header.member(), Some(&b"K"[..]));
    let others = [
        header.interface(),
        header.error_name(),
        header.destination(),
        header.sender(),
        header.signature(),
    ];
    assert_eq!(others, [None; 5]);
    assert_eq!((header.response_serial(), header.num_fds()), (None, None));
}

#[test]
fn header_of_the_signal() {
    let message = hex(SIGNAL);
    let header = unmarshal_header(&message).unwrap();
    assert_eq!(header.byteorder, ByteOrder::BigEndian);
    assert_eq!(header.typ, MessageType::Signal);
    assert_eq!((header.flags, header.version, header.serial), (1, 2, 99));
    assert_eq!(header.body, 104..110);
    assert_eq!(header.body(), &[0, 0, 0, 7, 0, 8]);
    assert_eq!(header.interface(), Some(&b"i.j"[..]));
    assert_eq!(header.sender(), Some(&b":1.5"[..]));
    assert_eq!(header.signature(), Some(&b"uq"[..]));
    assert_eq!(header.fields.signature, Some(85..87));
    assert_eq!(header.num_fds(), Some(2));
    assert_eq!(header.destination(), None);
}

#[test]
fn header_of_an_error() {
    let message = hex("6c 03 00 01 00 00 00 00 05 00 00 00 16 00 00 00
        05 01 75 00 63 00 00 00 04 01 73 00 05 00 00 00 61 2e 62 2e 63 00 00 00");
    let header = unmarshal_header(&message).unwrap();
    assert_eq!(header.typ, MessageType::Error);
    assert_eq!(header.response_serial(), Some(99));
    assert_eq!(header.error_name(), Some(&b"a.b.c"[..]));
}

#[test]
fn refused_headers() {
    assert_eq!(unmarshal_header(&[]), no(0, 2));
    let with = |at: usize, byte: u8| {
        let mut message = hex(SIGNAL);
        message[at] = byte;
        check_message(&message)
    };
    assert_eq!(with(0, b'x'), no(0, 17));
    assert_eq!(with(1, 5), no(0, 18));
    assert_eq!(with(16, 0), no(0, 20));
    assert_eq!(with(32, 7), no(0, 21));
    assert_eq!(with(18, b's'), no(0, 15));
    assert_eq!(with(18, b'z'), no(0, 19));
    assert_eq!(with(31, 1), no(0, 4));
    assert_eq!(with(86, b'y'), no(109, 22));
    assert_eq!(with(86, b's'), no(108, 2));
}

#[test]
fn lookup_of_texts() {
    let message = hex(SIGNAL);
    let found = |code| lookup(&message, code, b"none");
    assert_eq!(found(1), b"/a");
    assert_eq!(found(2), b"i.j");
    assert_eq!(found(3), b"M");
    assert_eq!(found(7), b":1.5");
    assert_eq!(found(8), b"uq");
    assert_eq!(found(3).as_ptr(), message[56..].as_ptr());
}

#[test]
fn lookup_falls_back() {
    let message = hex(SIGNAL);
    let fallback = *b"none";
    for code in [0, 4, 5, 6, 9, 10, 255] {
        let found = lookup(&message, code, &fallback);
        assert_eq!(found.as_ptr(), fallback.as_ptr());
        assert_eq!(found, &fallback);
    }
    let cut = &message[..message.len() - 1];
    assert_eq!(lookup(cut, 3, &fallback), &fallback);
    assert_eq!(lookup(cut, 3, b""), b"");
}
