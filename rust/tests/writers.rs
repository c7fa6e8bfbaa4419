//! Writers: the bytes they put, and that a refused write changes nothing.
mod common;
use common::{hex, no};
use millettie::ByteOrder::{BigEndian, LittleEndian};
use millettie::{
    pad_to_align, write_signature, write_string, write_u16, write_u32, write_u64, Refusal,
};

#[test]
fn writes_in_turn() -> Result<(), Refusal> {
    let mut buf = [0xaa; 40];
    let mut place = write_u16(0x0102, LittleEndian, &mut buf, 1)?;
    assert_eq!(place, 3);
    place = pad_to_align(4, &mut buf, place)?;
    place = write_u32(0x0102_0304, BigEndian, &mut buf, place)?;
    assert_eq!(place, 8);
    place = write_u64(0x0102_0304_0506_0708, LittleEndian, &mut buf, place)?;
    place = write_string(b"k1", BigEndian, &mut buf, place)?;
    assert_eq!(place, 23);
    place = write_signature(b"a(qqn)", &mut buf, place)?;
    assert_eq!(place, 31);
    let written = "aa 0201 00 01020304 0807060504030201 00000002 6b31 00 06 612871716e29 00";
    assert_eq!(buf[..31], hex(written));
    assert_eq!(buf[31..], [0xaa; 9]);
    Ok(())
}

#[test]
fn other_orders_and_empty_texts() {
    let mut buf = [0xaa; 8];
    assert_eq!(write_u16(0x0102, BigEndian, &mut buf, 0), Ok(2));
    assert_eq!(write_u32(0x0102_0304, LittleEndian, &mut buf, 2), Ok(6));
    assert_eq!(buf, [1, 2, 4, 3, 2, 1, 0xaa, 0xaa]);
    assert_eq!(
        write_u64(0x0102_0304_0506_0708, BigEndian, &mut buf, 0),
        Ok(8)
    );
    assert_eq!(buf, [1, 2, 3, 4, 5, 6, 7, 8]);
    assert_eq!(write_string(b"", LittleEndian, &mut buf, 1), Ok(6));
    assert_eq!(write_signature(b"", &mut buf, 6), Ok(8));
    assert_eq!(buf, [1, 0, 0, 0, 0, 0, 0, 0]);
}

#[test]
fn padding_reaches_the_next_multiple() {
    for place in 0..9usize {
        for align in [1, 2, 4, 8] {
            let mut buf = [0xaa; 16];
            let next = place.next_multiple_of(align);
            assert_eq!(pad_to_align(align, &mut buf, place), Ok(next));
            let padded = |i| (place..next).contains(&i);
            assert!(
                (0..16).all(|i| buf[i] == if padded(i) { 0 } else { 0xaa }),
                "{} {}",
                place,
                align
            );
        }
    }
}

// Tries a write at every place from `from` on, which is to be refused with that number there; no byte changes.
fn refused(number: u8, from: usize, write: impl Fn(&mut [u8], usize) -> Result<usize, Refusal>) {
    let before: Vec<u8> = (0x40..0x48).collect();
    for place in from..=8 {
        let mut buf = before.clone();
        assert_eq!(write(&mut buf, place), no(place, number));
        assert_eq!(buf, before, "{} at {}", number, place);
    }
}

#[test]
fn refused_writes_change_no_byte() {
    refused(23, 7, |buf, place| write_u16(1, LittleEndian, buf, place));
    refused(23, 5, |buf, place| write_u32(1, LittleEndian, buf, place));
    refused(23, 1, |buf, place| write_u64(1, BigEndian, buf, place));
    refused(23, 2, |buf, place| {
        write_string(b"k1", BigEndian, buf, place)
    });
    refused(23, 5, |buf, place| write_signature(b"qq", buf, place));
    refused(24, 0, |buf, place| pad_to_align(3, buf, place));
    refused(24, 0, |buf, place| pad_to_align(0, buf, place));
    refused(6, 0, |buf, place| {
        write_string(b"\xff", BigEndian, buf, place)
    });
    refused(7, 0, |buf, place| {
        write_string(b"\0", BigEndian, buf, place)
    });
    refused(10, 0, |buf, place| write_signature(b"z", buf, place));
    refused(12, 0, |buf, place| write_signature(b"()", buf, place));
    refused(13, 0, |buf, place| {
        write_signature(&[b'y'; 256], buf, place)
    });
    refused(14, 0, |buf, place| {
        write_signature(&[vec![b'a'; 32], vec![b'y']].concat(), buf, place)
    });
}

#[test]
fn padding_without_room() {
    let mut buf = [0xaa; 5];
    assert_eq!(pad_to_align(8, &mut buf, 3), no(3, 23));
    assert_eq!(buf, [0xaa; 5]);
    assert_eq!(pad_to_align(8, &mut buf, 0), Ok(0));
}

#[test]
fn a_place_behind_the_buffer() {
    let mut buf = [0xaa; 4];
    for place in [5, usize::MAX] {
        assert_eq!(write_u16(1, LittleEndian, &mut buf, place), no(place, 1));
        assert_eq!(
            write_string(b"\xff", LittleEndian, &mut buf, place),
            no(place, 1)
        );
        assert_eq!(write_signature(b"z", &mut buf, place), no(place, 1));
        assert_eq!(pad_to_align(3, &mut buf, place), no(place, 1));
    }
    assert_eq!(buf, [0xaa; 4]);
}

#[test]
fn a_refused_write_does_not_move_the_place() {
    let mut buf = [0; 6];
    let mut place = write_u32(7, LittleEndian, &mut buf, 0).unwrap();
    for text in [&b"too long"[..], b"\xff"] {
        if let Ok(next) = write_string(text, LittleEndian, &mut buf, place) {
            place = next;
        }
    }
    assert_eq!(place, 4);
    assert_eq!(write_u16(8, LittleEndian, &mut buf, place), Ok(6));
    assert_eq!(buf, [7, 0, 0, 0, 8, 0]);
}
