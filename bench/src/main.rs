//! Measures the proved library beside the original crate; bench/run puts the parts together.
mod figures;
mod hard;
mod inputs;
mod libdbus;
mod library;
mod measure;
mod plot;
mod random;
mod sides;
mod written;
use figures::Figures;
use sides::cases;

const USAGE: &str = "\
bench time ROUNDS             times of every case and side: lines `CASE SIDE LEAST MEDIAN`, in nanoseconds
bench list                    lines `CASE SIDE`
bench run CASE SIDE N         does the case N times, for a tool that counts a whole run; CASE `-` does nothing
bench count                   does each case once in the function `counted`; lines as of list, behind a first one for a call that does nothing
bench report TIMES COUNTS     the table, from files with the lines of `time` and with lines `CASE SIDE INSTRUCTIONS`
bench plot TIMES COUNTS       the plot, as SVG
bench worst ROUNDS            the cost a byte of hard inputs
bench stack KIB               checks the deepest values on that much stack";

fn main() {
    let words: Vec<String> = std::env::args().skip(1).collect();
    let words: Vec<&str> = words.iter().map(String::as_str).collect();
    match words[..] {
        ["time", rounds] => measure::time(&cases(), number(rounds)),
        ["list"] => cases().iter().for_each(|case| {
            case.names()
                .iter()
                .for_each(|side| println!("{} {side}", case.id()))
        }),
        ["run", id, side, times] => measure::run(&cases(), id, side, number(times) as u64),
        ["count"] => measure::count(&cases()),
        ["report", times, counts] => {
            figures::report(&cases(), &Figures::read(times), &Figures::read(counts))
        }
        ["plot", times, counts] => print!(
            "{}",
            plot::svg(&cases(), &Figures::read(times), &Figures::read(counts))
        ),
        ["worst", rounds] => hard::worst(number(rounds)),
        ["stack", kib] => hard::stack(number(kib)),
        _ => {
            eprintln!("{USAGE}");
            std::process::exit(2);
        }
    }
}

fn number(word: &str) -> usize {
    word.parse().expect("a number")
}
