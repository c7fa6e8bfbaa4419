//! agree questions N SEED: N random questions, one a line; the same seed gives the same questions.
//! agree compare QUESTIONS FILE FILE ..: whether all files give the same answers to them, and how the answers fall.
mod compare;
mod message;
mod questions;
mod random;
mod types;
mod value;

use std::io::{self, Write};

fn number(word: &str) -> u64 {
    word.parse().unwrap_or_else(|_| usage())
}

fn usage() -> ! {
    eprintln!("usage: agree questions N SEED | agree compare QUESTIONS FILE FILE ..");
    std::process::exit(2)
}

fn main() -> io::Result<()> {
    let args: Vec<String> = std::env::args().skip(1).collect();
    let words: Vec<&str> = args.iter().map(String::as_str).collect();
    match words[..] {
        ["questions", n, seed] => {
            let mut random = random::Random::new(number(seed));
            let mut out = io::BufWriter::new(io::stdout());
            for _ in 0..number(n) {
                out.write_all(&questions::question(&mut random))?;
                out.write_all(b"\n")?;
            }
            out.flush()
        }
        ["compare", questions, ref files @ ..] if files.len() >= 2 => {
            if compare::compare(questions, files)? {
                Ok(())
            } else {
                std::process::exit(1)
            }
        }
        _ => usage(),
    }
}
