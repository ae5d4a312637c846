//! Holds the library and an ordinary Rust analyser to the same answers, then times both.
//! With the argument `quick` nothing is timed.

mod analyser;
mod calls;
mod compare;
mod inputs;
mod timing;

use compare::{assert_same, ours, rust, Buffers};
use timing::{once, Times};

/// Room for 1,024 events of 16 tasks, and for more pairs than any of the recordings has.
const WORK: usize = 32_768;
const LIST: usize = 3 * 32_768;

/// How often all inputs are gone through for their times.
const SWEEPS: u32 = 4;

/// A call of both sides, with the best times so far.
struct Row {
    name: &'static str,
    file: Vec<u8>,
    budget: u32,
    passes: u64,
    times: Times,
}

/// Budgets 0, 1, 40 and N × N + 1, each once.
fn budgets(events: usize) -> Vec<u32> {
    let mut budgets = vec![0, 1, 40];
    let settled = (events * events + 1) as u32;
    if !budgets.contains(&settled) {
        budgets.push(settled);
    }
    budgets
}

/// Compares both sides on one input. The times are those of this first call.
fn compared(name: &'static str, file: &[u8], budget: u32) -> Row {
    let (mut a, mut b) = (Buffers::new(WORK, LIST), Buffers::new(WORK, LIST));
    let (answer, ours) = once(|| a.call(ours, file, budget));
    let (other, rust) = once(|| b.call(rust, file, budget));
    let what = format!("{name}, budget {budget}");
    assert_same(&what, (answer, &a), (other, &b));
    assert_eq!(answer, 0, "{what}: accepted, and its list has room");
    Row {
        name,
        file: file.to_vec(),
        budget,
        passes: a.passes(),
        times: Times { ours, rust },
    }
}

/// Times every row, in several sweeps, so that a busy spell of the machine does not stay in a row.
fn time(rows: &mut [Row]) {
    let (mut a, mut b) = (Buffers::new(WORK, LIST), Buffers::new(WORK, LIST));
    for _ in 0..SWEEPS {
        for row in rows.iter_mut() {
            let (file, budget) = (&row.file, row.budget);
            row.times = row
                .times
                .refined(|| a.call(ours, file, budget), || b.call(rust, file, budget));
        }
    }
}

fn print(rows: &[Row]) {
    println!("\n| input | budget | passes | ours | Rust | ratio |");
    println!("|---|---|---|---|---|---|");
    for row in rows {
        println!(
            "| {} | {} | {} | {} |",
            row.name, row.budget, row.passes, row.times
        );
    }
    let worst = rows.iter().map(|row| row.times.ratio()).fold(0.0, f64::max);
    println!("\nWorst ratio: {worst:.2}.");
}

fn main() {
    let quick = std::env::args().any(|a| a == "quick");
    compare::small_recordings(6_000);
    compare::large_recordings(40);
    let mut rows = Vec::new();
    for (name, recording) in inputs::timed() {
        let file = recording.file();
        for budget in budgets(recording.records.len()) {
            rows.push(compared(name, &file, budget));
        }
    }
    println!("{} calls on the timed inputs: equal.", rows.len());
    if !quick {
        time(&mut rows);
        print(&rows);
    }
}
