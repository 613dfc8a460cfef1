//! Tables with a field at, below or above its limit.

use super::Writer;
use crate::rng::Rng;
use crate::table::{Segment, Task};

/// Some tables of a few tasks, each with one or two fields turned to an edge.
pub fn adopt_at_limits(writer: &mut Writer) {
    for _ in 0..1 + writer.rng.below(5) {
        let rng = &mut writer.rng;
        let mut rule = rng.between(1, 3);
        let (mut tasks, mut segments) = roomy_table(rng);
        for _ in 0..1 + rng.below(2) {
            turn_field(rng, &mut rule, &mut tasks, &mut segments);
        }
        if writer.rng.chance(90) {
            writer.clear();
        }
        writer.adopt(rule, &tasks, &segments);
    }
}

/// A table with so much time that it passes.
fn roomy_table(rng: &mut Rng) -> (Vec<Task>, Vec<Segment>) {
    let count = 8 + rng.index(3);
    let segment = |_| Segment {
        kind: rng.between(0, 2),
        size: rng.between(1, 3),
        object: rng.between(0, 1),
        amount: rng.pick(&[0, 1, u32::MAX]),
    };
    let segments: Vec<Segment> = (0..count).map(segment).collect();
    let period = rng.pick(&[1000, 10_000, 1_000_000]);
    let wanted = 1 + rng.below(3);
    let task = |_| Task {
        period,
        deadline: rng.between(period / 2, period),
        first: rng.index(count) as u32,
        count: 1,
        ..Task::default()
    };
    let tasks = (0..wanted).map(task).collect();
    (tasks, segments)
}

fn turn_field(rng: &mut Rng, rule: &mut u32, tasks: &mut Vec<Task>, segments: &mut [Segment]) {
    match rng.below(10) {
        0 => *rule = rng.pick(&[0, 4, 5, u32::MAX]),
        1 => turn_count(rng, tasks),
        2..=5 => turn_task(rng, tasks, segments.len() as u32),
        _ => turn_segment(rng, tasks, segments),
    }
}

fn turn_count(rng: &mut Rng, tasks: &mut Vec<Task>) {
    let count = rng.pick(&[0, 31, 32, 33, 40]);
    if let Some(&task) = tasks.first() {
        tasks.resize(count, task);
    }
}

fn turn_task(rng: &mut Rng, tasks: &mut [Task], len: u32) {
    if tasks.is_empty() {
        return;
    }
    let place = rng.index(tasks.len());
    let task = &mut tasks[place];
    match rng.below(4) {
        0 => {
            task.period = rng.pick(&[0, 1, 999_999, 1_000_000, 1_000_001, u32::MAX]);
            if rng.chance(60) {
                task.deadline = task.period;
            }
        }
        1 => {
            let above = task.period.wrapping_add(1);
            task.deadline = rng.pick(&[0, 1, 2, task.period, above, u32::MAX]);
        }
        2 => {
            task.count = rng.pick(&[0, 1, 7, 8, 9, u32::MAX]);
            if rng.chance(70) {
                task.first = len.saturating_sub(task.count);
            }
        }
        _ => {
            let last = len.saturating_sub(task.count);
            task.first = rng.pick(&[0, last, last + 1, len, u32::MAX - 1, u32::MAX]);
        }
    }
}

/// Turns a segment that some task owns, or now and then any segment.
fn turn_segment(rng: &mut Rng, tasks: &[Task], segments: &mut [Segment]) {
    let mut index = rng.index(segments.len());
    if let Some(task) = tasks.first() {
        if rng.chance(80) {
            index = (task.first as usize).min(segments.len() - 1);
        }
    }
    let segment = &mut segments[index];
    match rng.below(4) {
        0 => segment.kind = rng.pick(&[0, 1, 2, 3, 4, u32::MAX]),
        1 => {
            segment.kind = 0;
            segment.size = rng.pick(&[0, 1, 99_999, 100_000, 100_001, u32::MAX]);
        }
        2 => {
            segment.kind = rng.between(1, 2);
            segment.size = rng.pick(&[0, 1, 4, 5, 254, 255, 256, u32::MAX]);
        }
        _ => {
            segment.kind = rng.pick(&[0, 1, 2]);
            segment.object = rng.pick(&[0, 1, 2, 3, 65_535, 65_536, 65_537, u32::MAX]);
        }
    }
}

/// Periods whose least common multiple is at, just below or above a million.
const PERIODS: [&[u32]; 20] = [
    &[1_000_000],
    &[1_000_000, 500_000],
    &[64, 15_625],
    &[1_000_000, 15_625, 64],
    &[999, 1001],
    &[1000, 1001],
    &[1000, 999],
    &[1_000_000, 999_999],
    &[1_000_000, 3],
    &[999_983, 2],
    &[999_983, 1],
    &[1024, 977],
    &[7, 11, 13, 999],
    &[7, 11, 13, 1000],
    &[101, 9900],
    &[101, 9901],
    &[17, 58_823],
    &[17, 58_824],
    &[73, 137, 99],
    &[73, 137, 100],
];

/// A table by deadline with one of those hyperperiods.
pub fn adopt_hyperperiod(writer: &mut Writer) {
    let rng = &mut writer.rng;
    let mut periods = rng.pick(&PERIODS).to_vec();
    if rng.chance(30) {
        periods.reverse();
    }
    let segments = vec![
        Segment {
            size: rng.between(1, 3),
            ..Segment::default()
        },
        Segment {
            kind: rng.between(1, 2),
            size: rng.pick(&[0, 0, 5]),
            object: rng.between(0, 1),
            amount: 1,
        },
    ];
    let task = |&period: &u32| {
        let any = rng.between(1, period);
        Task {
            period,
            deadline: rng.pick(&[period, period, 1 + period / 2, any]),
            first: rng.between(0, 1),
            count: 1,
            ..Task::default()
        }
    };
    let tasks: Vec<Task> = periods.iter().map(task).collect();
    let rule = if rng.chance(85) { 3 } else { rng.between(1, 2) };
    writer.clear();
    writer.adopt(rule, &tasks, &segments);
}
