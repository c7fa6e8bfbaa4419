//! Asks the original crate and the program `answers` the same questions, and holds both against a model of document 01 with a switch for each
//! row of docs/DIFFERENCES.md. With no switch turned the model must answer as `answers` does; with all turned, as the crate does; and where
//! the two differ, the fewest switches that give the crate's answer are the rows that explain it.
//! usage: beside [--seed N] [--rounds N] [--sample FOLDER] PROGRAM [ARGUMENT ..]
mod crate_side;
mod sample;

use crate_side::Crate;
use model::question::Question;
use model::random::Random;
use model::{make, report};
use sample::Sample;

struct Settings {
    seed: u64,
    rounds: usize,
    sample: Option<String>,
    program: Vec<String>,
}

fn settings() -> Option<Settings> {
    let mut settings = Settings { seed: 1, rounds: 1, sample: None, program: Vec::new() };
    let mut words = std::env::args().skip(1);
    while let Some(word) = words.next() {
        match word.as_str() {
            "--seed" => settings.seed = words.next()?.parse().ok()?,
            "--rounds" => settings.rounds = words.next()?.parse().ok()?,
            "--sample" => settings.sample = Some(words.next()?),
            _ => settings.program = std::iter::once(word).chain(words.by_ref()).collect(),
        }
    }
    (!settings.program.is_empty()).then_some(settings)
}

/// What a round makes: how many, and by what.
const ROUND: &[(usize, fn(&mut Random) -> Question)] = &[
    (40_000, make::random_sig),
    (330_000, make::value),
    (120_000, make::short),
    (12_000, make::deep),
    (8_000, make::in_variants),
    (1_000, make::long),
    (60_000, make::fixed),
    (60_000, make::writer),
    (200_000, make::message),
    (1_000, make::long_message),
    (40_000, make::header),
    (40_000, make::field),
];

/// All questions: the exhaustive ones, and as many rounds of random ones as are asked for.
fn questions(seed: u64, rounds: usize) -> impl Iterator<Item = Question> {
    let mut random = Random::new(seed);
    let makers = (0..rounds).flat_map(|_| ROUND.iter()).flat_map(|(count, maker)| std::iter::repeat_n(*maker, *count));
    make::exhaustive(5).chain(makers.map(move |maker| maker(&mut random)))
}

fn run(settings: &Settings) -> std::io::Result<bool> {
    let mut sample = Sample::default();
    let asked = questions(settings.seed, settings.rounds);
    let tally = model::run::run(&settings.program, &Crate, asked, |question, ours, theirs, verdict| {
        sample.add(question, ours, theirs, verdict);
    })?;
    if let Some(folder) = &settings.sample {
        sample.write(folder)?;
    }
    println!("seed {}", settings.seed);
    report::print(&tally, &Crate, &settings.program)
}

fn main() {
    std::panic::set_hook(Box::new(|_| {}));
    let Some(settings) = settings() else {
        eprintln!("usage: beside [--seed N] [--rounds N] [--sample FOLDER] PROGRAM [ARGUMENT ..]");
        std::process::exit(2);
    };
    // the crate has no limit on variants: deep ones want a large stack
    let large = std::thread::Builder::new().stack_size(1 << 30);
    let done = large.spawn(move || run(&settings)).expect("a thread").join();
    match done {
        Ok(Ok(true)) => {}
        Ok(Ok(false)) => std::process::exit(1),
        Ok(Err(error)) => {
            eprintln!("beside: {error}");
            std::process::exit(2);
        }
        Err(_) => std::process::exit(2),
    }
}
