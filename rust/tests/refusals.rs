//! Refusals in words.
use millettie::Refusal;
use std::collections::{BTreeMap, HashSet};

// The table that the bindings' words are made from, and the names of the refusals in it by their numbers.
const TABLE: &str = include_str!("../../docs/refusals.txt");

fn names() -> BTreeMap<u8, &'static str> {
    let rows = TABLE.lines().filter(|line| !line.starts_with('#'));
    rows.map(|row| {
        let mut parts = row.split(" | ");
        let number = parts.next().unwrap().parse().unwrap();
        (number, parts.next().unwrap())
    })
    .collect()
}

#[test]
fn every_number_prints_in_words() {
    let mut meanings = HashSet::new();
    for (number, name) in names() {
        let refusal = Refusal::new(number, 1000);
        assert_eq!(
            (refusal.number, refusal.name, refusal.position),
            (number, name, 1000)
        );
        let words = refusal.to_string();
        assert!(
            words.contains(&format!("refusal {}, {}", number, name)),
            "{}",
            words
        );
        assert!(words.ends_with("at byte 1000"), "{}", words);
        assert!(
            words.starts_with(refusal.meaning()) && refusal.meaning().split(' ').count() >= 5,
            "{}",
            words
        );
        assert!(meanings.insert(refusal.meaning()), "said twice: {}", words);
    }
}

#[test]
fn other_numbers_are_unknown() {
    let names = names();
    assert!(names.len() >= 26);
    for number in (0..=255).filter(|number| !names.contains_key(number)) {
        assert_eq!(Refusal::new(number, 0).name, "Misfit");
    }
}

#[test]
fn two_and_three_are_too_short() {
    let too_short: Vec<u8> = (0..=255)
        .filter(|n| Refusal::new(*n, 0).is_too_short())
        .collect();
    assert_eq!(too_short, [2, 3]);
}

#[test]
fn goes_where_errors_go() {
    fn signature(sig: &[u8]) -> Result<usize, Box<dyn std::error::Error + Send + Sync>> {
        Ok(millettie::validate_signature(sig)?)
    }
    assert_eq!(signature(b"a(qqn)").unwrap(), 1);
    let words = signature(b"()").unwrap_err().to_string();
    assert_eq!(
        words,
        "a signature has a struct without fields (refusal 12, EmptyStruct) at byte 0"
    );
}
