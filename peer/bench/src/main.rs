//! Times the proved controller against the peer, turn by turn in one run, and prints ratios: above
//! 1 the proved controller is the faster one. With a word, only the rows that have it in their name.

mod plain;
mod proved;
mod tables;

use std::hint::black_box;
use std::time::Instant;

use proved::Records;
use tables::Workload;

/// How often each row is timed on each side; the medians are compared.
const TURNS: usize = 21;

struct Row {
    name: String,
    /// What is counted: ticks or adoptions in one turn.
    count: u32,
    rule: u32,
    table: Workload,
    work: Work,
}

enum Work {
    Adoptions,
    Ticks { period: u32 },
}

fn tick_row(rule: u32, order: &str, tasks: u32) -> Row {
    Row {
        name: format!("ticks {order}, {tasks} tasks"),
        count: 400_000,
        rule,
        table: tables::contended(tasks),
        work: Work::Ticks {
            period: tables::tick_period(tasks),
        },
    }
}

fn adopt_row(rule: u32, name: &str, count: u32, table: Workload) -> Row {
    Row {
        name: format!("adoption by rule {rule}, {name}"),
        count,
        rule,
        table,
        work: Work::Adoptions,
    }
}

fn rows() -> Vec<Row> {
    let mut rows = Vec::new();
    for (rule, order) in [(1, "by rank"), (3, "by deadline")] {
        for tasks in [1, 8, 32] {
            rows.push(tick_row(rule, order, tasks));
        }
    }
    for rule in [1, 2, 3] {
        let name = "32 tasks with accesses";
        rows.push(adopt_row(rule, name, 400, tables::contended(32)));
    }
    for rule in [1, 2] {
        let name = "32 tasks, long witnesses";
        rows.push(adopt_row(rule, name, 1, tables::long_witnesses()));
    }
    let name = "32 tasks, hyperperiod 1,000,000";
    rows.push(adopt_row(3, name, 1, tables::long_hyperperiod()));
    rows
}

/// Seconds that a piece of work takes, and its sum.
fn timed(work: impl FnOnce() -> u64) -> (f64, u64) {
    let start = Instant::now();
    let sum = black_box(work());
    (start.elapsed().as_secs_f64(), sum)
}

fn time_proved(row: &Row) -> (f64, u64) {
    let mut records = Records::of(&row.table.tasks, &row.table.segments);
    let (rule, count) = (black_box(row.rule), black_box(row.count));
    match row.work {
        Work::Adoptions => timed(|| records.adoptions(rule, count)),
        Work::Ticks { period } => timed(|| records.ticks(rule, period, count)),
    }
}

fn time_plain(row: &Row) -> (f64, u64) {
    let mut tasks = row.table.tasks.clone();
    let segments = black_box(&row.table.segments);
    let (rule, count) = (black_box(row.rule), black_box(row.count));
    match row.work {
        Work::Adoptions => timed(|| plain::adoptions(rule, &mut tasks, segments, count)),
        Work::Ticks { period } => timed(|| plain::ticks(rule, &mut tasks, segments, period, count)),
    }
}

fn median(mut times: Vec<f64>) -> f64 {
    times.sort_by(f64::total_cmp);
    times[times.len() / 2]
}

/// The median seconds of a row, proved and plain.
fn measure(row: &Row) -> (f64, f64) {
    let (mut proved, mut plain) = (Vec::new(), Vec::new());
    for turn in 0..=TURNS {
        // Each side goes first on every other turn.
        let (a, b) = if turn % 2 == 0 {
            let a = time_proved(row);
            (a, time_plain(row))
        } else {
            let b = time_plain(row);
            (time_proved(row), b)
        };
        assert_eq!(a.1, b.1, "{}: the two sides answer differently", row.name);
        // The first turn only warms up.
        if turn > 0 {
            proved.push(a.0);
            plain.push(b.0);
        }
    }
    (median(proved), median(plain))
}

fn main() {
    println!("{:<48} {:>14} {:>14} {:>7}", "row", "proved/s", "peer/s", "ratio");
    let wanted = std::env::args().nth(1).unwrap_or_default();
    for row in rows().into_iter().filter(|row| row.name.contains(&wanted)) {
        let (proved, plain) = measure(&row);
        let count = f64::from(row.count);
        println!(
            "{:<48} {:>14.1} {:>14.1} {:>7.2}",
            row.name,
            count / proved,
            count / plain,
            plain / proved
        );
    }
    println!(
        "bytes of a controller over a cell and a queue: proved {}, peer {}",
        proved::controller_bytes(),
        plain::controller_bytes()
    );
}
