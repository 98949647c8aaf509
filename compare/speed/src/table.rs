//! Tables on standard output, in Markdown, and that of the jobs. Times are those of the best round, and in parentheses of the middle one.
use crate::benchmarks::{Benchmark, List};
use crate::counting;
use crate::timing::{self, Timed, Times};

/// Thousands are parted by commas; small numbers have one decimal.
pub fn number(x: f64) -> String {
    if x < 100.0 {
        return format!("{x:.1}");
    }
    let digits = format!("{x:.0}");
    let mut text = String::new();
    for (i, digit) in digits.chars().enumerate() {
        if i > 0 && (digits.len() - i) % 3 == 0 {
            text.push(',');
        }
        text.push(digit);
    }
    text
}

pub fn nanoseconds(times: &Times) -> String {
    format!("{} ({})", number(times.best), number(times.median))
}

fn print_row(fields: &[String]) {
    println!("| {} |", fields.join(" | "));
}

/// The heads, the line below them, which puts all columns but the first to the right, and the rows.
pub fn print_table(heads: &[&str], rows: impl Iterator<Item = Vec<String>>) {
    print_row(&heads.iter().map(|&head| head.into()).collect::<Vec<_>>());
    print_row(&(0..heads.len()).map(|column| if column == 0 { "---" } else { "--:" }.into()).collect::<Vec<_>>());
    rows.for_each(|row| print_row(&row));
}

/// Whether there are instruction counts; where there are none, standard error says why.
pub fn counted() -> bool {
    let why_not = counting::unavailable();
    if let Some(reason) = &why_not {
        eprintln!("no instruction counts: {reason}");
    }
    why_not.is_none()
}

fn row(list: &List, index: usize, benchmark: &Benchmark, timed: &Timed, counted: bool) -> Vec<String> {
    let n = benchmark.n.map_or("-".into(), |n| n.to_string());
    let [ours, other] = &timed.times;
    let mut fields = vec![benchmark.name.clone(), n];
    fields.extend([ours, other].map(nanoseconds));
    fields.push(format!("{:.2}", other.best / ours.best));
    if counted {
        let counts = counting::count(list.word, index, benchmark.passes, timed.pair.calls());
        fields.extend(counts.map(number));
        fields.push(format!("{:.2}", counts[1] / counts[0]));
    } else {
        fields.extend(["-"; 3].map(String::from));
    }
    fields
}

pub fn print(list: &List) {
    let (counted, benchmarks, other) = (counted(), (list.benchmarks)(), list.other);
    let [time, count, ratio] = [format!("{other}, ns"), format!("{other}, instructions"), format!("{other} / ours")];
    let heads = ["job", "n", "ours, ns", &time, &ratio, "ours, instructions", &count, &ratio];
    let timed = benchmarks.iter().zip(timing::time(&benchmarks)).enumerate();
    print_table(&heads, timed.map(|(index, (benchmark, timed))| row(list, index, benchmark, &timed, counted)));
}
