//! Document 01's "Bytes to try", asked of the model.
use model::answer::answer;
use model::question::Question;
use model::ways::{Ways, CRATE};

fn unhex(text: &str) -> Vec<u8> {
    let digits: Vec<u32> = text.chars().filter_map(|c| c.to_digit(16)).collect();
    digits.chunks(2).map(|pair| (pair[0] * 16 + pair[1]) as u8).collect()
}

fn value(offset: usize, sig: &str, bytes: &str) -> String {
    let question = Question::Value { big: false, offset, sig: sig.into(), bytes: unhex(bytes) };
    answer(&question, Ways::DOCUMENT)
}

fn sig(text: &str) -> String {
    answer(&Question::Sig { sig: text.into() }, Ways::DOCUMENT)
}

#[test]
fn values() {
    assert_eq!(value(0, "y", ""), "no 0 2");
    assert_eq!(value(1, "u", "00 00 00 00"), "no 4 2");
    assert_eq!(value(0, "b", "01 00 00 00"), "ok 4");
    assert_eq!(value(0, "b", "02 00 00 00"), "no 0 5");
    assert_eq!(value(0, "s", "02 00 00 00 6b 31 00"), "ok 7");
    assert_eq!(value(0, "s", "02 00 00 00 6b 31 01"), "no 0 8");
    assert_eq!(value(0, "s", "01 00 00 00 00 00"), "no 0 7");
}

#[test]
fn arrays() {
    assert_eq!(value(0, "au", "06 00 00 00 00 00 00 00 00 00"), "no 4 2");
    assert_eq!(value(0, "ai", "06 00 00 00 00 00 00 00 00 00"), "no 8 2");
    assert_eq!(value(0, "a(y)", "00 00 00 00"), "no 4 2");
    assert_eq!(value(0, "a(y)", "00 00 00 00 64 00 00 00"), "no 4 4");
    assert_eq!(value(0, "a(y)", "01 00 00 00 00 00 00 00"), "no 8 3");
    let kerns = "00 00 00 00 00 00 00 01 00 02 00 ff ff 00 00 03 00 04 00 14 00";
    assert_eq!(value(0, "a(qqn)", &format!("0e {kerns}")), "ok 22");
    assert_eq!(value(0, "a(qqn)", &format!("10 {kerns} 00 00")), "no 24 2");
}

#[test]
fn variants() {
    assert_eq!(value(0, "v", "01 79 00 ff"), "ok 4");
    assert_eq!(value(0, "v", "00 00"), "no 0 11");
    assert_eq!(value(0, "v", "02 79 79 00 01 02"), "no 0 15");
    assert_eq!(value(0, "v", &("01 76 00".repeat(15) + "01 79 00 05")), "ok 49");
    assert_eq!(value(0, "v", &("01 76 00".repeat(16) + "01 79 00 05")), "no 48 16");
}

#[test]
fn signatures() {
    assert_eq!(sig(&("a".repeat(31) + "y")), "ok 1");
    assert_eq!(sig(&("a".repeat(32) + "y")), "no 0 14");
    assert_eq!(sig("()z"), "no 0 12");
    assert_eq!(sig("z()"), "no 0 10");
    assert_eq!(sig("{sv}"), "ok 1");
    assert_eq!(sig("a{bs}"), "no 0 10");
}

#[test]
fn messages() {
    let message = |table: &str, ways| {
        let head = "6c 01 00 01 00 00 00 00 01 00 00 00";
        let path = "01 01 6f 00 01 00 00 00 2f 00 00 00 00 00 00 00";
        let member = "03 01 73 00 01 00 00 00 4b 00 00 00 00 00 00 00";
        let bytes = unhex(&format!("{head} {table} 00 00 00 {path} {member}"));
        answer(&Question::Message { bytes }, ways)
    };
    assert_eq!(message("1a", Ways::DOCUMENT), "ok 48");
    assert_eq!(message("19", Ways::DOCUMENT), "no 0 2");
    assert_eq!(message("19", Ways::all(CRATE)), "ok 48");
}
