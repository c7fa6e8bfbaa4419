//! Signatures.
use crate::encode::signature_text;
use crate::question::Question;
use crate::random::Random;

const LETTERS: &[u8] = b"a(){}bysvz";

/// All texts of up to `longest` of ten letters, each as a bare signature and as a `g` value.
pub fn exhaustive(longest: u32) -> impl Iterator<Item = Question> {
    (0..=longest).flat_map(|length| (0..10usize.pow(length)).map(move |n| spelled(n, length))).flat_map(both)
}

fn spelled(n: usize, length: u32) -> Vec<u8> {
    (0..length).map(|i| LETTERS[n / 10usize.pow(i) % 10]).collect()
}

fn both(sig: Vec<u8>) -> [Question; 2] {
    let bytes = [&[sig.len() as u8], &sig[..], &[0]].concat();
    [Question::Sig { sig }, Question::Value { big: false, offset: 0, sig: b"g".to_vec(), bytes }]
}

/// A longer one, of any bytes at times.
pub fn random_sig(random: &mut Random) -> Question {
    let mut sig = signature_text(random, 60);
    if random.percent(10) {
        sig = sig.repeat(1 + random.below(20));
    }
    if random.percent(20) {
        let at = random.below(sig.len() + 1);
        sig.insert(at, random.byte());
    }
    if random.percent(50) {
        return Question::Sig { sig };
    }
    sig.truncate(255);
    both(sig)[1].clone()
}
