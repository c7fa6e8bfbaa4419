//! A relay loop: takes messages out of a stream, however the reads cut it, and hands each on whole.
//!
//! `main` tries it on a small stream that is cut at every place, and on streams with a fault.
use millettie::{next_message, Next, Refusal};
use std::fmt;
use std::io::{self, Read};

/// The Specification's limit for a message. The library itself has none, so a relay that holds bytes for a peer must.
const LONGEST: usize = 128 << 20;

/// Why the relay stopped before the end of the stream.
#[derive(Debug)]
enum Why {
    Refused(Refusal),
    TooLong(usize),
    EndsInside(usize),
    Read(io::Error),
}

#[derive(Debug)]
struct Stop {
    passed: usize,
    why: Why,
}

impl fmt::Display for Stop {
    fn fmt(&self, f: &mut fmt::Formatter<'_>) -> fmt::Result {
        write!(f, "after {} good bytes: ", self.passed)?;
        match &self.why {
            Why::Refused(refusal) => write!(f, "{} of the message", refusal),
            Why::TooLong(length) => write!(
                f,
                "a message states {} bytes, more than are allowed",
                length
            ),
            Why::EndsInside(held) => write!(
                f,
                "the stream ends inside a message, of which it has {} bytes",
                held
            ),
            Why::Read(error) => write!(f, "{}", error),
        }
    }
}

/// Reads until at least `wanted` bytes are held; false if the stream ends before.
fn fill(from: &mut impl Read, held: &mut Vec<u8>, wanted: usize) -> io::Result<bool> {
    let mut read = [0; 4096];
    while held.len() < wanted {
        match from.read(&mut read) {
            Ok(0) => return Ok(false),
            Ok(n) => held.extend_from_slice(&read[..n]),
            Err(error) if error.kind() == io::ErrorKind::Interrupted => {}
            Err(error) => return Err(error),
        }
    }
    Ok(true)
}

/// Hands on every whole message that is held: how many bytes they took, and what stands behind them.
fn hand_on_held(held: &[u8], hand_on: &mut impl FnMut(&[u8])) -> (usize, Next) {
    let mut taken = 0;
    loop {
        match next_message(&held[taken..]) {
            Next::Whole(length) => {
                hand_on(&held[taken..taken + length]);
                taken += length;
            }
            next => return (taken, next),
        }
    }
}

/// Hands on all messages of a stream, and answers how many bytes they took.
fn relay(mut from: impl Read, mut hand_on: impl FnMut(&[u8])) -> Result<usize, Stop> {
    let mut held = Vec::new();
    let mut passed = 0;
    loop {
        let (taken, next) = hand_on_held(&held, &mut hand_on);
        passed += taken;
        held.drain(..taken);
        let stop = |why| Err(Stop { passed, why });
        let wanted = match next {
            Next::Cut(wanted) if wanted <= LONGEST => wanted,
            Next::Cut(wanted) => return stop(Why::TooLong(wanted)),
            Next::Refused(refusal) => return stop(Why::Refused(refusal)),
            Next::Whole(_) => continue,
        };
        match fill(&mut from, &mut held, wanted) {
            Ok(true) => {}
            Ok(false) if held.is_empty() => return Ok(passed),
            Ok(false) => return stop(Why::EndsInside(held.len())),
            Err(error) => return stop(Why::Read(error)),
        }
    }
}

mod trial;

fn main() {
    trial::run();
}
