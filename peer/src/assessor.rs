//! The decision on a table by its definitions: every time in turn, nothing jumped over.
//!
//! It shares no code with `admission`, so that the two can be held against each other. It leaves
//! a question open where going through every time would take too long.

use crate::print::Answer;
use crate::refusal::Refusal;
use crate::table::{Segment, Task};

/// So many shares of a demand are worked out before a question is left open.
const PATIENCE: u64 = 100_000;

/// A task with its segments, as the lists handed in make it.
#[derive(Clone, Debug)]
pub struct Member {
    pub period: u32,
    pub deadline: u32,
    pub rank: u32,
    pub segments: Vec<Segment>,
}

impl Member {
    fn cost(&self) -> u64 {
        self.segments.iter().map(ticks).sum()
    }
}

/// The table that a book-keeper writes down.
#[derive(Clone, Debug, Default)]
pub struct Roster {
    pub rule: u32,
    pub members: Vec<Member>,
}

/// What the definitions come to.
#[derive(Clone, Debug, PartialEq, Eq)]
pub enum Assessment {
    Taken(u32, Vec<(u32, u32)>),
    Refused(Refusal),
    LeftOpen,
}

impl Roster {
    /// The lists are those of an adoption that was granted.
    pub fn of(rule: u32, tasks: &[Task], segments: &[Segment]) -> Roster {
        let members = tasks.iter().enumerate().map(|(place, task)| Member {
            period: task.period,
            deadline: task.deadline,
            rank: rank(rule, tasks, place),
            segments: owned(task, segments).to_vec(),
        });
        Roster {
            rule,
            members: members.collect(),
        }
    }

    fn longest(&self) -> u64 {
        let segments = self.members.iter().flat_map(|member| &member.segments);
        let accesses = segments.filter(|segment| segment.kind != 0);
        accesses.map(ticks).max().unwrap_or(0)
    }

    /// Work and retry charge of W for a place, or of D.
    pub fn demand(&self, place: usize, t: u32) -> (u64, u64) {
        if self.rule == 3 {
            self.demand_by_deadline(t)
        } else {
            self.demand_by_rank(place, t)
        }
    }

    fn demand_by_rank(&self, place: usize, t: u32) -> (u64, u64) {
        let own = &self.members[place];
        let before = || self.members.iter().filter(|m| m.rank < own.rank);
        let begun = |t: u32, m: &Member| u64::from(t.div_ceil(m.period));
        let others: u64 = before().map(|m| begun(t, m) * m.cost()).sum();
        let charge: u64 = before().map(|m| begun(t - 1, m)).sum();
        (others + begun(t, own) * own.cost(), charge * self.longest())
    }

    fn demand_by_deadline(&self, t: u32) -> (u64, u64) {
        let due = |t: i64, m: &Member| {
            let (period, deadline) = (i64::from(m.period), i64::from(m.deadline));
            (t - deadline + period).div_euclid(period).max(0) as u64
        };
        let t = i64::from(t);
        let work = self.members.iter().map(|m| due(t, m) * m.cost()).sum();
        let jobs: u64 = self.members.iter().map(|m| due(t - 1, m)).sum();
        (work, jobs * self.longest())
    }

    fn meets(&self, place: usize, t: u32) -> bool {
        let (work, charge) = self.demand(place, t);
        work + charge <= u64::from(t)
    }

    fn least_witness(&self, place: usize) -> Option<u32> {
        (1..=self.members[place].deadline).find(|&t| self.meets(place, t))
    }

    fn assess_by_rank(&self) -> Assessment {
        let times: u64 = self.members.iter().map(|m| u64::from(m.deadline)).sum();
        if times * self.members.len() as u64 > PATIENCE {
            return Assessment::LeftOpen;
        }
        let witnesses: Vec<_> = (0..self.members.len())
            .map(|place| (self.members[place].rank, place, self.least_witness(place)))
            .collect();
        let unmet = witnesses.iter().filter(|(_, _, witness)| witness.is_none());
        if let Some((_, place, _)) = unmet.min() {
            return Assessment::Refused(Refusal::Unschedulable {
                detail: *place as u32,
            });
        }
        let stamps = witnesses.iter().map(|&(rank, _, w)| (rank, w.unwrap_or(0)));
        let greatest = stamps.clone().map(|(_, witness)| witness).max();
        Assessment::Taken(greatest.unwrap_or(0), stamps.collect())
    }

    fn hyperperiod(&self) -> Option<u32> {
        let longest = self.members.iter().map(|m| m.period).max()?;
        let common = |p: &u32| self.members.iter().all(|m| p.is_multiple_of(m.period));
        (1..=1_000_000 / longest).map(|k| k * longest).find(common)
    }

    fn load(&self, hyperperiod: u32) -> u64 {
        let longest = self.longest();
        let share = |m: &Member| u64::from(hyperperiod / m.period) * (m.cost() + longest);
        self.members.iter().map(share).sum()
    }

    fn assess_by_deadline(&self) -> Assessment {
        let Some(hyperperiod) = self.hyperperiod() else {
            return Assessment::Refused(Refusal::LongHyperperiod);
        };
        if self.load(hyperperiod) > u64::from(hyperperiod) {
            return Assessment::Refused(Refusal::Overload);
        }
        if u64::from(hyperperiod) * self.members.len() as u64 > PATIENCE {
            return Assessment::LeftOpen;
        }
        match (1..=hyperperiod).find(|&t| !self.meets(0, t)) {
            Some(detail) => Assessment::Refused(Refusal::Unschedulable { detail }),
            None => Assessment::Taken(hyperperiod, vec![(0, 0); self.members.len()]),
        }
    }

    /// What can be said of a granted answer without going through every time.
    pub fn bears(&self, answer: u32, tasks: &[Task]) -> bool {
        if self.rule == 3 {
            return self.hyperperiod() == Some(answer)
                && tasks.iter().all(|task| (task.rank, task.witness) == (0, 0));
        }
        let least =
            |place: usize, t: u32| self.meets(place, t) && (t == 1 || !self.meets(place, t - 1));
        let stamped = |(place, task): (usize, &Task)| {
            task.rank == self.members[place].rank
                && (1..=task.deadline).contains(&task.witness)
                && least(place, task.witness)
        };
        tasks.iter().enumerate().all(stamped)
            && tasks.iter().map(|task| task.witness).max() == Some(answer)
    }
}

/// The whole decision on a table.
pub fn assess(
    rule: u32,
    tasks: &[Task],
    segments: &[Segment],
    exists: impl Fn(u32) -> bool,
) -> Assessment {
    if tasks.is_empty() || tasks.len() > 32 {
        return Assessment::Refused(Refusal::TaskCount);
    }
    if !(1..=3).contains(&rule) {
        return Assessment::Refused(Refusal::UnknownRule);
    }
    for (place, task) in tasks.iter().enumerate() {
        if let Some(no) = limit_broken(place as u32, task, segments, &exists) {
            return Assessment::Refused(no);
        }
    }
    let roster = Roster::of(rule, tasks, segments);
    if rule == 3 {
        roster.assess_by_deadline()
    } else {
        roster.assess_by_rank()
    }
}

/// Whether an answer is what the definitions come to, as far as they were followed.
pub fn agrees(assessment: &Assessment, roster: impl Fn() -> Roster, answer: &Answer) -> bool {
    match (assessment, answer) {
        (Assessment::Refused(due), Answer::Refused(no)) => due == no,
        (Assessment::Taken(due, stamps), Answer::Taken(answer, tasks)) => {
            let written = tasks.iter().map(|task| (task.rank, task.witness));
            due == answer && written.eq(stamps.iter().copied())
        }
        (Assessment::LeftOpen, Answer::Taken(answer, tasks)) => roster().bears(*answer, tasks),
        (Assessment::LeftOpen, Answer::Refused(Refusal::Unschedulable { .. })) => true,
        _ => false,
    }
}

fn limit_broken(
    place: u32,
    task: &Task,
    segments: &[Segment],
    exists: impl Fn(u32) -> bool,
) -> Option<Refusal> {
    let (period, deadline) = (task.period, task.deadline);
    if period == 0 || period > 1_000_000 || deadline == 0 || deadline > period {
        return Some(Refusal::PeriodOrDeadline { place });
    }
    let end = u64::from(task.first) + u64::from(task.count);
    if task.count == 0 || task.count > 8 || end > segments.len() as u64 {
        return Some(Refusal::SegmentRange { place });
    }
    for segment in owned(task, segments) {
        let fits = match segment.kind {
            0 => segment.size >= 1 && segment.size <= 100_000,
            1 | 2 => segment.size <= 255,
            _ => false,
        };
        if !fits {
            return Some(Refusal::KindOrSize { place });
        }
        if segment.kind != 0 && !exists(segment.object) {
            return Some(Refusal::AccessObject { place });
        }
    }
    None
}

fn owned<'a>(task: &Task, segments: &'a [Segment]) -> &'a [Segment] {
    &segments[task.first as usize..][..task.count as usize]
}

fn ticks(segment: &Segment) -> u64 {
    if segment.kind == 0 {
        u64::from(segment.size)
    } else {
        1 + u64::from(segment.size).div_ceil(4)
    }
}

/// How many tasks go before the one at a place.
fn rank(rule: u32, tasks: &[Task], place: usize) -> u32 {
    let key = |i: usize| match rule {
        1 => tasks[i].period,
        _ => tasks[i].deadline,
    };
    if rule == 3 {
        return 0;
    }
    let before = |&i: &usize| key(i) < key(place) || (key(i) == key(place) && i < place);
    (0..tasks.len()).filter(before).count() as u32
}
