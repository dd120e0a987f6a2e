//! A long run of a mixture of inputs of all operations, compared with the reference.
//!
//!     soak [SEED] [COUNT] [--from N] [--threads N]
//!
//! Each input is derived from the seed and its number, so that a run can be split and an
//! input repeated alone: `soak SEED 1 --from NUMBER`. Prints how often each operation gave
//! each answer; the exit status is 1 if anything differs.

use std::process::ExitCode;
use std::sync::atomic::{AtomicU64, Ordering};
use std::sync::Mutex;
use std::thread;
use std::time::{Duration, Instant};

use type_formula_tests::answer::{Counts, GREATEST_REFUSAL, NO_TYPE, OPERATIONS, RESULT};
use type_formula_tests::mixture::{operation_of, Mixture};

/// How many inputs are compared between two additions to the summary.
const BATCH: u64 = 1_000;
/// How many differences are printed.
const MOST_PRINTED: u64 = 10;
/// The time between two lines that show the progress.
const INTERVAL: Duration = Duration::from_secs(10);
/// The time between two looks at the summary.
const PAUSE: Duration = Duration::from_millis(20);

/// What to run: the inputs from `from` on, so many.
struct Run {
    seed: u64,
    count: u64,
    from: u64,
    threads: u64,
}

impl Run {
    /// The run that the arguments ask for.
    fn from_arguments(arguments: impl Iterator<Item = String>) -> Option<Self> {
        let mut run = Run {
            seed: 1,
            count: 10_000_000,
            from: 0,
            threads: 1,
        };
        let mut arguments = arguments;
        let mut numbers = 0;
        while let Some(argument) = arguments.next() {
            match argument.as_str() {
                "--from" => run.from = arguments.next()?.parse().ok()?,
                "--threads" => run.threads = arguments.next()?.parse().ok()?,
                number => {
                    let number = number.parse().ok()?;
                    match numbers {
                        0 => run.seed = number,
                        1 => run.count = number,
                        _ => return None,
                    }
                    numbers += 1;
                }
            }
        }
        (run.threads > 0).then_some(run)
    }

    fn end(&self) -> u64 {
        self.from.saturating_add(self.count)
    }
}

/// What was found so far.
#[derive(Default)]
struct Summary {
    counts: Counts,
    differences: u64,
    /// Accepted files of m 8 and n 64, given to Formula or a later operation.
    greatest: u64,
}

/// Compares the batch that starts with this input.
fn compare_batch(mixture: &mut Mixture, run: &Run, start: u64, summary: &Mutex<Summary>) {
    let (mut counts, greatest) = (Counts::default(), mixture.greatest);
    for number in start..run.end().min(start + BATCH) {
        let operation = operation_of(number);
        match mixture.compare(run.seed, number) {
            Ok(answer) => counts.count(operation, answer),
            Err(difference) => {
                let mut summary = summary.lock().expect("no thread panicked");
                summary.differences += 1;
                if summary.differences <= MOST_PRINTED {
                    println!("seed {}, input {number}: {difference}", run.seed);
                }
            }
        }
    }
    let mut summary = summary.lock().expect("no thread panicked");
    summary.counts.add(&counts);
    summary.greatest += mixture.greatest - greatest;
}

/// The line that shows the progress.
fn progress(summary: &Summary, elapsed: Duration) -> String {
    let of = |&operation| {
        let count = summary.counts.made_by(operation);
        format!("{} {count}", operation.name())
    };
    let all: Vec<String> = OPERATIONS.iter().map(of).collect();
    format!(
        "{} s: {} inputs, {} differences ({})",
        elapsed.as_secs(),
        summary.counts.made() + summary.differences,
        summary.differences,
        all.join(", ")
    )
}

/// Compares all inputs, with a line every some seconds.
fn compare_all(run: &Run) -> Summary {
    let (next, summary) = (AtomicU64::new(run.from), Mutex::new(Summary::default()));
    let work = || {
        let mut mixture = Mixture::new();
        loop {
            let start = next.fetch_add(BATCH, Ordering::Relaxed);
            if start >= run.end() {
                return;
            }
            compare_batch(&mut mixture, run, start, &summary);
        }
    };
    let start = Instant::now();
    thread::scope(|scope| {
        let threads: Vec<_> = (0..run.threads).map(|_| scope.spawn(work)).collect();
        let mut shown = start.elapsed();
        while threads.iter().any(|thread| !thread.is_finished()) {
            thread::sleep(PAUSE);
            if start.elapsed() >= shown + INTERVAL {
                shown = start.elapsed();
                let summary = summary.lock().expect("no thread panicked");
                println!("{}", progress(&summary, shown));
            }
        }
    });
    let summary = summary.into_inner().expect("no thread panicked");
    println!("{}", progress(&summary, start.elapsed()));
    summary
}

/// A row of the table: its name, the count of each operation, and their sum.
fn row(name: &str, counts: [u64; OPERATIONS.len()]) -> String {
    let cells: String = counts.iter().map(|count| format!(" {count} |")).collect();
    format!("| {name} |{cells} {} |", counts.iter().sum::<u64>())
}

/// How often each operation gave each answer.
fn table(counts: &Counts) -> String {
    let names: String = OPERATIONS
        .iter()
        .map(|each| format!(" {} |", each.name()))
        .collect();
    let mut lines = vec![format!("| Answer |{names} all |")];
    lines.push(format!("|---|{}", "---|".repeat(OPERATIONS.len() + 1)));
    let of = |answer| OPERATIONS.map(|operation| counts.of(operation, answer));
    lines.push(row("result", of(RESULT)));
    lines.push(row("untyped or untypable", of(NO_TYPE)));
    for refusal in 1..=GREATEST_REFUSAL {
        lines.push(row(&refusal.to_string(), of(refusal)));
    }
    let made = OPERATIONS.map(|operation| counts.made_by(operation));
    lines.push(row("inputs", made));
    lines.join("\n")
}

fn main() -> ExitCode {
    let Some(run) = Run::from_arguments(std::env::args().skip(1)) else {
        eprintln!("soak [SEED] [COUNT] [--from N] [--threads N]");
        return ExitCode::from(2);
    };
    let (seed, from, end) = (run.seed, run.from, run.end());
    println!("seed {seed}, inputs {from} up to {end}, the last not included");
    let summary = compare_all(&run);
    println!("\n{}\n", table(&summary.counts));
    println!("{} files of m 8 and n 64 from Formula on", summary.greatest);
    println!("{} differences", summary.differences);
    match summary.differences {
        0 => ExitCode::SUCCESS,
        _ => ExitCode::FAILURE,
    }
}
