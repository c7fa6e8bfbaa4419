//! The costs that were measured, read back from files, and the table of them.
use crate::sides::Case;
use std::collections::HashMap;

/// Lines `CASE SIDE NUMBER..`. Of several lines for a side, as several passes give, the least number of each column counts.
pub struct Figures(HashMap<(String, String), Vec<f64>>);

impl Figures {
    pub fn read(path: &str) -> Figures {
        let mut all: HashMap<_, Vec<f64>> = HashMap::new();
        for line in std::fs::read_to_string(path).expect(path).lines() {
            let mut words = line.split(' ').map(String::from);
            let mut word = || words.next().expect(path);
            let key = (word(), word());
            let numbers = words.map(|word| word.parse().expect(path)).collect();
            let least = all.entry(key).or_insert_with(|| Vec::clone(&numbers));
            for (least, number) in least.iter_mut().zip(numbers) {
                *least = least.min(number);
            }
        }
        Figures(all)
    }

    /// The number in that column, if there is one.
    pub fn of(&self, case: &Case, side: &str, column: usize) -> Option<f64> {
        self.0
            .get(&(case.id(), side.to_string()))?
            .get(column)
            .copied()
    }

    /// How much more than the crate the side costs.
    pub fn ratio(&self, case: &Case, side: &str, column: usize) -> Option<f64> {
        Some(self.of(case, side, column)? / self.of(case, "crate", column)?)
    }
}

fn cell(number: Option<f64>, width: usize, digits: usize) -> String {
    match number {
        Some(number) => format!("{number:width$.digits$}"),
        None => format!("{:>width$}", "-"),
    }
}

/// A row for each side of a case but the crate's, with its costs, the crate's, and how many times the crate's they are.
pub fn report(cases: &[Case], times: &Figures, counts: &Figures) {
    println!(
        "{:24} {:8} {:^39} {:^29}",
        "", "", "nanoseconds", "instructions"
    );
    println!(
        "{:17} {:>6} {:8} {:>10} {:>10} {:>8} {:>8} {:>10} {:>10} {:>7}",
        "case", "bytes", "by", "crate", "it", "ratio", "medians'", "crate", "it", "ratio"
    );
    for case in cases.iter().filter(|case| case.listed) {
        for side in &case.names()[1..] {
            let cells = [
                cell(times.of(case, "crate", 0), 10, 0),
                cell(times.of(case, side, 0), 10, 0),
                cell(times.ratio(case, side, 0), 8, 2),
                cell(times.ratio(case, side, 1), 8, 2),
                cell(counts.of(case, "crate", 0), 10, 0),
                cell(counts.of(case, side, 0), 10, 0),
                cell(counts.ratio(case, side, 0), 7, 2),
            ];
            let (group, bytes) = (&case.group, case.bytes);
            println!("{group:17} {bytes:6} {side:8} {}", cells.join(" "));
        }
    }
}
