//! The tables that are timed.

use peer::{Segment, Task};

pub struct Workload {
    pub tasks: Vec<Task>,
    pub segments: Vec<Segment>,
}

fn task(period: u32, deadline: u32, first: u32, count: u32) -> Task {
    Task {
        period,
        deadline,
        first,
        count,
        rank: 0,
        witness: 0,
    }
}

fn segment(kind: u32, size: u32, object: u32, amount: u32) -> Segment {
    Segment {
        kind,
        size,
        object,
        amount,
    }
}

/// The common period of the tasks that are ticked.
pub fn tick_period(tasks: u32) -> u32 {
    5 * tasks
}

/// Tasks that compute for a tick and access an object in an attempt of two: they add to the cell,
/// put into the queue, add to the cell, take from the queue, in turns. Taken under every rule.
pub fn contended(tasks: u32) -> Workload {
    let period = tick_period(tasks);
    let accesses = [(2, 0, 1), (2, 1, 1), (2, 0, 1), (1, 1, 0)];
    Workload {
        tasks: (0..tasks)
            .map(|place| task(period, period - (tasks - 1 - place), place % 4 * 2, 2))
            .collect(),
        segments: accesses
            .iter()
            .flat_map(|&(kind, object, amount)| {
                [segment(0, 1, 0, 0), segment(kind, 3, object, amount)]
            })
            .collect(),
    }
}

/// A table of computing tasks, from periods, deadlines and costs.
fn computing(rows: &[(u32, u32, u32)]) -> Workload {
    Workload {
        tasks: rows
            .iter()
            .zip(0..)
            .map(|(&(period, deadline, _), place)| task(period, deadline, place, 1))
            .collect(),
        segments: rows.iter().map(|row| segment(0, row.2, 0, 0)).collect(),
    }
}

/// Eight tasks leave 1 tick in 5,000; 24 more share it, so that the least witnesses go up to
/// 983,696, in small steps.
pub fn long_witnesses() -> Workload {
    let busy = [
        (4, 4, 3),
        (8, 8, 1),
        (11, 11, 1),
        (39, 39, 1),
        (158, 158, 1),
        (12_782, 12_782, 21),
        (56_001, 56_001, 5),
        (59_440, 59_440, 11),
    ];
    let rest = [(1_000_000, 1_000_000, 8); 24];
    computing(&[&busy[..], &rest[..]].concat())
}

/// The hyperperiod is 1,000,000, and the demand changes at almost every time within it.
pub fn long_hyperperiod() -> Workload {
    let mut rows: Vec<_> = (1..32).map(|k| (64, 2 * k, 2)).collect();
    rows.push((15_625, 15_625, 1));
    computing(&rows)
}
