//! Tables at the edge of acceptance.

use super::Writer;
use crate::refusal::Refusal;
use crate::rng::Rng;
use crate::session::script_shelf;
use crate::table::{attempt_ticks, Segment, Table, Task};

#[derive(Clone, Debug)]
pub struct Plan {
    pub rule: u32,
    pub tasks: Vec<Task>,
    pub segments: Vec<Segment>,
}

impl Plan {
    pub fn decide(&self) -> Result<u32, Refusal> {
        let mut tasks = self.tasks.clone();
        let adopted = Table::adopt(self.rule, &mut tasks, &self.segments, &script_shelf());
        adopted.map(|(_, answer)| answer)
    }

    fn passes(&self) -> bool {
        self.decide().is_ok()
    }

    fn cost(&self, task: &Task) -> u32 {
        let owned = &self.segments[task.first as usize..][..task.count as usize];
        owned.iter().map(ticks).sum()
    }

    fn longest(&self) -> u32 {
        let accesses = self.segments.iter().filter(|segment| segment.kind != 0);
        accesses.map(ticks).max().unwrap_or(0)
    }
}

fn ticks(segment: &Segment) -> u32 {
    match segment.kind {
        0 => segment.size,
        _ => attempt_ticks(segment.size),
    }
}

/// Numbers with many divisors, so that hyperperiods stay short.
const MULTIPLES: [u32; 14] = [
    12, 60, 120, 240, 360, 720, 840, 1000, 1024, 2520, 5040, 10_000, 27_720, 65_536,
];

const AMOUNTS: [u32; 6] = [0, 1, 1, 7, u32::MAX, 1_000_000_000];

/// Adopts a table at the edge, and one step beyond it, in any order.
pub fn adopt_at_edge(writer: &mut Writer) {
    let mut plan = passing_plan(&mut writer.rng);
    for _ in 0..writer.rng.pick(&[0, 0, 1, 3]) {
        plan = edge_of(&mut writer.rng, plan).0;
    }
    let (inside, beyond) = edge_of(&mut writer.rng, plan);
    let mut plans = vec![inside];
    if let Some(beyond) = beyond {
        let position = writer.rng.index(2);
        plans.insert(position, beyond);
    }
    for plan in plans {
        if writer.rng.chance(95) {
            writer.clear();
        }
        writer.adopt(plan.rule, &plan.tasks, &plan.segments);
        ask_demand(writer);
    }
}

/// A table whose most urgent task feeds the queue as often as it can.
pub fn adopt_for_queue(writer: &mut Writer) {
    let rng = &mut writer.rng;
    let period = rng.between(1, 3);
    let access = |rng: &mut Rng, amounts: &[u32]| Segment {
        kind: rng.between(1, 2),
        size: rng.pick(&[0, 0, 1, 4]),
        object: 1,
        amount: rng.pick(amounts),
    };
    let mut segments = vec![access(rng, &[1, 7, u32::MAX])];
    segments[0].size = 0;
    let mut tasks = vec![task_of(period, 0, 1)];
    for first in 1..=rng.between(0, 3) {
        segments.push(access(rng, &[0, 0, 1, 7]));
        tasks.push(task_of(period * rng.between(8, 40), first, 1));
    }
    let rule = rng.between(1, 3);
    let mut plan = Plan {
        rule,
        tasks,
        segments,
    };
    // A period of 1 leaves no tick for anybody else.
    while !plan.passes() && plan.tasks.len() > 1 {
        plan.tasks.pop();
    }
    writer.clear();
    writer.adopt(plan.rule, &plan.tasks, &plan.segments);
}

fn task_of(period: u32, first: u32, count: u32) -> Task {
    Task {
        period,
        deadline: period,
        first,
        count,
        ..Task::default()
    }
}

fn ask_demand(writer: &mut Writer) {
    for _ in 0..writer.rng.below(3) {
        let places = writer.places();
        let place = writer.rng.between(0, places);
        let time = match writer.rng.below(4) {
            0 if place < places => writer.time_of(place),
            1 => writer.rng.between(1, 1_000_000),
            2 => writer.rng.between(1, 100),
            _ => writer.rng.pick(&[0, 1, 2, 1_000_000, 1_000_001, u32::MAX]),
        };
        writer.say("demand", &[place, time]);
    }
}

/// A random table that is taken.
pub fn passing_plan(rng: &mut Rng) -> Plan {
    loop {
        let mut plan = random_plan(rng);
        for _ in 0..8 {
            if plan.passes() {
                return plan;
            }
            if !stretch(rng, &mut plan) {
                break;
            }
        }
    }
}

/// Doubles periods and deadlines; false if a period gets too long.
fn stretch(rng: &mut Rng, plan: &mut Plan) -> bool {
    let loose = rng.chance(50);
    for task in &mut plan.tasks {
        let implicit = task.deadline == task.period;
        task.period *= 2;
        task.deadline *= 2;
        if implicit || loose {
            task.deadline = task.period;
        }
    }
    plan.tasks.iter().all(|task| task.period <= 1_000_000)
}

fn random_plan(rng: &mut Rng) -> Plan {
    match rng.below(100) {
        0..=9 => full_plan(rng),
        10..=64 => contended_plan(rng),
        _ => mixed_plan(rng),
    }
}

/// Equal periods that the costs fill to the last tick.
fn full_plan(rng: &mut Rng) -> Plan {
    let count = rng.between(2, 4);
    let mut plan = Plan {
        rule: rng.between(1, 3),
        tasks: Vec::new(),
        segments: Vec::new(),
    };
    for first in 0..count {
        let size = rng.between(1, 6);
        plan.segments.push(Segment {
            size,
            ..Segment::default()
        });
        plan.tasks.push(task_of(1, first, 1));
    }
    let period = plan.segments.iter().map(|segment| segment.size).sum();
    for task in &mut plan.tasks {
        task.period = period;
        task.deadline = period;
    }
    plan
}

/// Short tasks that come often, and long attempts on the same object that they can spoil.
fn contended_plan(rng: &mut Rng) -> Plan {
    let object = rng.between(0, 1);
    let (short, long) = (1 + rng.index(3), 1 + rng.index(3));
    let size = rng.between(1, 48);
    let mut plan = Plan {
        rule: rng.between(1, 3),
        tasks: Vec::new(),
        segments: Vec::new(),
    };
    let between = attempt_ticks(size) * (short as u32) + rng.between(1, 8);
    for _ in 0..short {
        let period = between + rng.between(0, 6);
        own_accesses(rng, &mut plan, period, object, 0);
    }
    for _ in 0..long {
        let period = between * rng.between(4, 16);
        own_accesses(rng, &mut plan, period, object, size);
    }
    if rng.chance(50) {
        let turns = rng.index(plan.tasks.len());
        plan.tasks.rotate_left(turns);
    }
    if plan.rule == 3 {
        let multiple = rng.pick(&[60, 240, 720, 2520]);
        for task in &mut plan.tasks {
            task.period = divisor_from(task.period, multiple);
        }
    }
    choose_deadlines(rng, &mut plan);
    plan
}

/// A task with up to three accesses, and computing in between now and then.
fn own_accesses(rng: &mut Rng, plan: &mut Plan, period: u32, object: u32, size: u32) {
    let first = plan.segments.len();
    for _ in 0..rng.pick(&[1, 1, 2, 3]) {
        if rng.chance(30) {
            plan.segments.push(Segment {
                size: rng.between(1, 3),
                ..Segment::default()
            });
        }
        let mut access = random_access(rng, &[object], 0);
        access.size = rng.between(size / 2, size);
        plan.segments.push(access);
    }
    let count = plan.segments.len() - first;
    plan.tasks.push(task_of(period, first as u32, count as u32));
}

fn mixed_plan(rng: &mut Rng) -> Plan {
    let count = task_count(rng);
    let segments = random_segments(rng, count);
    let tasks = random_ranges(rng, count, segments.len());
    let mut plan = Plan {
        rule: rng.between(1, 3),
        tasks,
        segments,
    };
    choose_periods(rng, &mut plan);
    choose_deadlines(rng, &mut plan);
    plan
}

fn task_count(rng: &mut Rng) -> usize {
    match rng.below(20) {
        0 => 1,
        1..=5 => 2,
        6..=9 => 3,
        10..=12 => 4 + rng.index(3),
        13..=15 => 7 + rng.index(9),
        16..=18 => 16 + rng.index(16),
        _ => 32,
    }
}

/// Segments that mostly go for the same object.
fn random_segments(rng: &mut Rng, tasks: usize) -> Vec<Segment> {
    let most = if rng.chance(10) { 8 } else { 3 };
    let count = tasks * (1 + rng.index(most)) + rng.index(3);
    let objects: &[u32] = rng.pick(&[&[0][..], &[0], &[1], &[0, 1]]);
    let largest = rng.pick(&[0, 4, 8, 20, 60, 255]);
    let longest = rng.pick(&[1, 2, 4, 9, 1000]);
    let accesses = rng.pick(&[30, 60, 60, 90]);
    let segment = |_| {
        if rng.chance(accesses) {
            random_access(rng, objects, largest)
        } else {
            Segment {
                kind: 0,
                size: rng.between(1, longest),
                object: rng.pick(&[0, 1, 2, u32::MAX]),
                amount: rng.pick(&AMOUNTS),
            }
        }
    };
    (0..count.max(8)).map(segment).collect()
}

/// Sums are mostly small: a cell at the greatest number never reads otherwise again.
fn random_access(rng: &mut Rng, objects: &[u32], largest: u32) -> Segment {
    let kind = rng.between(1, 2);
    let amount = match rng.below(4) {
        0 => rng.pick(&AMOUNTS),
        1 if kind == 1 => rng.draw() as u32,
        _ => rng.between(0, 9),
    };
    Segment {
        kind,
        size: rng.between(0, largest),
        object: rng.pick(objects),
        amount,
    }
}

/// Ranges of segments side by side, or anywhere, so that some are shared and some nobody's.
fn random_ranges(rng: &mut Rng, tasks: usize, segments: usize) -> Vec<Task> {
    let apart = rng.chance(60);
    let share = (segments / tasks).clamp(1, 8);
    let range = |i: usize| {
        let most = if apart { share } else { segments.min(8) };
        let count = if apart && rng.chance(70) {
            most
        } else {
            1 + rng.index(most.min(4))
        };
        let first = if apart {
            (i * share).min(segments - count)
        } else {
            rng.index(segments - count + 1)
        };
        task_of(1, first as u32, count as u32)
    };
    (0..tasks).map(range).collect()
}

/// Periods for a use of the processor around the whole of it.
fn choose_periods(rng: &mut Rng, plan: &mut Plan) {
    let longest = plan.longest();
    let percent = rng.between(40, 110);
    let multiple = rng.pick(&MULTIPLES);
    let equal = rng.chance(15);
    let mut last = None;
    for i in 0..plan.tasks.len() {
        let need = u64::from(plan.cost(&plan.tasks[i]) + longest);
        let even = need * plan.tasks.len() as u64 * 100 / u64::from(percent);
        let wished = (even * u64::from(rng.between(4, 40)) / 10).clamp(1, 200_000) as u32;
        let period = match last {
            Some(period) if equal || rng.chance(15) => period,
            _ if plan.rule == 3 && rng.chance(97) => divisor_from(wished, multiple),
            _ => wished,
        };
        plan.tasks[i].period = period;
        last = Some(period);
    }
}

/// The least divisor of a multiple of the number that is not below the wish.
fn divisor_from(wished: u32, multiple: u32) -> u32 {
    let whole = multiple * wished.div_ceil(multiple).next_power_of_two();
    let divides = |d: &u32| whole.is_multiple_of(*d);
    (wished..=whole).find(divides).unwrap_or(whole)
}

fn choose_deadlines(rng: &mut Rng, plan: &mut Plan) {
    let implicit = rng.pick(&[0, 50, 100]);
    for i in 0..plan.tasks.len() {
        let period = plan.tasks[i].period;
        let cost = plan.cost(&plan.tasks[i]);
        let deadline = match rng.below(8) {
            _ if rng.chance(implicit) => period,
            0 if i > 0 => plan.tasks[i - 1].deadline.min(period),
            _ => rng.between(cost.min(period), period),
        };
        plan.tasks[i].deadline = deadline.max(1);
    }
}

/// A table that passes with a knob at its last good setting, and the setting after it.
fn edge_of(rng: &mut Rng, plan: Plan) -> (Plan, Option<Plan>) {
    let task = rng.index(plan.tasks.len());
    let first = plan.tasks[task].first as usize;
    let segment = first + rng.index(plan.tasks[task].count as usize);
    let Task {
        period, deadline, ..
    } = plan.tasks[task];
    let set_deadline = |deadline| {
        let mut turned = plan.clone();
        turned.tasks[task].deadline = deadline;
        turned
    };
    let set_period = |period| {
        let mut turned = plan.clone();
        turned.tasks[task].period = period;
        turned.tasks[task].deadline = deadline.min(period);
        turned
    };
    let set_size = |size| {
        let mut turned = plan.clone();
        turned.segments[segment].size = size;
        turned
    };
    let size = plan.segments[segment].size;
    match rng.below(10) {
        0 => (plan, None),
        1 | 2 if plan.rule != 3 => turn(set_period, period, 0),
        1..=5 => turn(set_deadline, deadline, 0),
        _ if plan.segments[segment].kind == 0 => turn(set_size, size, 100_001),
        _ => turn(set_size, size, 256),
    }
}

/// Halves the way between a setting that passes and one that does not.
fn turn(set: impl Fn(u32) -> Plan, mut good: u32, mut bad: u32) -> (Plan, Option<Plan>) {
    while good.abs_diff(bad) > 1 {
        let middle = good.min(bad) + good.abs_diff(bad) / 2;
        if set(middle).passes() {
            good = middle;
        } else {
            bad = middle;
        }
    }
    (set(good), Some(set(bad)))
}
