//! Document 01's "Bytes to try" for values and signatures, and values of fixed width.
mod common;
use common::{hex, no};
use millettie::ByteOrder::{BigEndian, LittleEndian};
use millettie::{unmarshal_fixed, validate_marshalled, validate_signature, FixedValue, Refusal};

fn check(sig: &str, bytes: &str) -> Result<usize, Refusal> {
    validate_marshalled(LittleEndian, 0, &hex(bytes), sig.as_bytes())
}

#[test]
fn ends_too_early() {
    assert_eq!(check("y", ""), no(0, 2));
    assert_eq!(
        validate_marshalled(LittleEndian, 1, &[0; 4], b"u"),
        no(4, 2)
    );
}

#[test]
fn booleans() {
    assert_eq!(check("b", "01 00 00 00"), Ok(4));
    assert_eq!(check("b", "02 00 00 00"), no(0, 5));
    assert_eq!(
        validate_marshalled(BigEndian, 0, &[0, 0, 0, 1], b"b"),
        Ok(4)
    );
    assert_eq!(
        validate_marshalled(BigEndian, 0, &[1, 0, 0, 0], b"b"),
        no(0, 5)
    );
}

#[test]
fn strings() {
    assert_eq!(check("s", "02 00 00 00 6b 31 00"), Ok(7));
    assert_eq!(check("s", "02 00 00 00 6b 31 01"), no(0, 8));
    assert_eq!(check("s", "01 00 00 00 00 00"), no(0, 7));
    assert_eq!(check("s", "01 00 00 00 ff 00"), no(0, 6));
    assert_eq!(check("o", "02 00 00 00 2f 2f 00"), no(0, 9));
}

#[test]
fn arrays() {
    assert_eq!(check("au", "06 00 00 00 00 00 00 00 00 00"), no(4, 2));
    assert_eq!(check("ai", "06 00 00 00 00 00 00 00 00 00"), no(8, 2));
    assert_eq!(check("a(y)", "00 00 00 00"), no(4, 2));
    assert_eq!(check("a(y)", "00 00 00 00 64 00 00 00"), no(4, 4));
    assert_eq!(check("a(y)", "01 00 00 00 00 00 00 00"), no(8, 3));
}

#[test]
fn kerning_pairs() {
    let pairs = "0e 00 00 00 00 00 00 00 01 00 02 00 ff ff 00 00 03 00 04 00 14 00";
    assert_eq!(check("a(qqn)", pairs), Ok(22));
    let kern = unmarshal_fixed(LittleEndian, 12, &hex(pairs), b"n");
    assert_eq!(kern, Ok((FixedValue::Int16(-1), 2)));
    let longer = "10 00 00 00 00 00 00 00 01 00 02 00 ff ff 00 00 03 00 04 00 14 00 00 00";
    assert_eq!(check("a(qqn)", longer), no(24, 2));
}

#[test]
fn variants() {
    assert_eq!(check("v", "01 79 00 ff"), Ok(4));
    assert_eq!(check("v", "00 00"), no(0, 11));
    assert_eq!(check("v", "02 79 79 00 01 02"), no(0, 15));
    let nested = |n: usize| "01 76 00".repeat(n) + "01 79 00 05";
    assert_eq!(check("v", &nested(15)), Ok(49));
    assert_eq!(check("v", &nested(16)), no(48, 16));
}

#[test]
fn the_callers_mistakes_come_first() {
    assert_eq!(check("yy", "00 00"), no(0, 26));
    assert_eq!(check("", "00 00"), no(0, 26));
    assert_eq!(
        validate_marshalled(LittleEndian, 5, &[0; 4], b"y"),
        no(5, 1)
    );
    assert_eq!(
        validate_marshalled(LittleEndian, usize::MAX, &[], b"y"),
        no(usize::MAX, 1)
    );
}

#[test]
fn signatures() {
    let arrays = |n: usize| [vec![b'a'; n], vec![b'y']].concat();
    assert_eq!(validate_signature(&arrays(31)), Ok(1));
    assert_eq!(validate_signature(&arrays(32)), no(0, 14));
    assert_eq!(validate_signature(b"()z"), no(0, 12));
    assert_eq!(validate_signature(b"z()"), no(0, 10));
    assert_eq!(validate_signature(b"{sv}"), Ok(1));
    assert_eq!(validate_signature(b"a{bs}"), no(0, 10));
    assert_eq!(validate_signature(b"ya(qqn)v"), Ok(3));
    assert_eq!(validate_signature(b""), no(0, 11));
    assert_eq!(validate_signature(&[b'y'; 255]), Ok(255));
    assert_eq!(validate_signature(&[b'y'; 256]), no(0, 13));
}

#[test]
fn every_kind_of_fixed_width() {
    let bytes = hex("ff ff ff ff ff ff ff fe");
    let read = |sig: &[u8]| unmarshal_fixed(BigEndian, 0, &bytes, sig).unwrap();
    assert_eq!(read(b"y"), (FixedValue::Byte(255), 1));
    assert_eq!(read(b"n"), (FixedValue::Int16(-1), 2));
    assert_eq!(read(b"q"), (FixedValue::Uint16(65535), 2));
    assert_eq!(read(b"i"), (FixedValue::Int32(-1), 4));
    assert_eq!(read(b"u"), (FixedValue::Uint32(u32::MAX), 4));
    assert_eq!(read(b"h"), (FixedValue::UnixFd(u32::MAX), 4));
    assert_eq!(read(b"x"), (FixedValue::Int64(-2), 8));
    assert_eq!(read(b"t"), (FixedValue::Uint64(u64::MAX - 1), 8));
    assert_eq!(read(b"d"), (FixedValue::Nan(u64::MAX - 1), 8));
    assert_eq!(
        unmarshal_fixed(LittleEndian, 0, &[1, 0, 0, 0], b"b"),
        Ok((FixedValue::Boolean(true), 4))
    );
    assert_eq!(
        unmarshal_fixed(LittleEndian, 0, &[0; 4], b"b"),
        Ok((FixedValue::Boolean(false), 4))
    );
}

#[test]
fn the_smallest_numbers() {
    let bytes = hex("80 00 00 00 00 00 00 00");
    let read = |sig: &[u8]| unmarshal_fixed(BigEndian, 0, &bytes, sig).unwrap().0;
    assert_eq!(read(b"n"), FixedValue::Int16(i16::MIN));
    assert_eq!(read(b"i"), FixedValue::Int32(i32::MIN));
    assert_eq!(read(b"x"), FixedValue::Int64(i64::MIN));
}

#[test]
fn doubles() {
    for x in [0.0, -0.5, 1e300, f64::INFINITY, f64::MIN_POSITIVE / 4.0] {
        let read = unmarshal_fixed(LittleEndian, 0, &x.to_le_bytes(), b"d");
        assert_eq!(read, Ok((FixedValue::Double(x), 8)));
    }
    match unmarshal_fixed(BigEndian, 0, &(-0.0f64).to_be_bytes(), b"d") {
        Ok((FixedValue::Double(x), 8)) => assert_eq!(x.to_bits(), 1 << 63),
        other => panic!("{:?}", other),
    }
}

#[test]
fn padding_before_a_fixed_value_counts() {
    let bytes = hex("00 00 00 00 07 00 00 00");
    assert_eq!(
        unmarshal_fixed(LittleEndian, 1, &bytes, b"u"),
        Ok((FixedValue::Uint32(7), 7))
    );
    assert_eq!(unmarshal_fixed(LittleEndian, 0, &bytes, b"s"), no(0, 26));
    assert_eq!(unmarshal_fixed(LittleEndian, 9, &bytes, b"u"), no(9, 1));
    assert_eq!(unmarshal_fixed(LittleEndian, 8, &bytes, b"u"), no(8, 2));
    assert_eq!(unmarshal_fixed(LittleEndian, 4, &bytes, b"b"), no(4, 5));
}
