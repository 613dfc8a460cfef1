//! The tests that decide whether a table is taken, and the question demand.

use crate::refusal::Refusal;
use crate::shelf::Shelf;
use crate::table::{Entry, Rule, Segment, Table, Task};

/// The longest time that a demand can be asked for, and the longest hyperperiod.
pub const MAX_TIME: u32 = 1_000_000;

/// What jobs can ask for within a time.
#[derive(Clone, Copy, Debug, Default, PartialEq, Eq)]
pub struct Demand {
    pub work: u64,
    pub charge: u64,
}

impl Demand {
    pub fn total(self) -> u64 {
        self.work + self.charge
    }
}

impl Table {
    /// Decides on a table; stamps the caller's records if it is taken.
    pub fn adopt<S: Shelf>(
        rule: u32,
        tasks: &mut [Task],
        segments: &[Segment],
        shelf: &S,
    ) -> Result<(Table, u32), Refusal> {
        let mut table = Table::within_limits(rule, tasks, segments, shelf)?;
        let answer = match table.rule {
            Rule::EarliestDeadlineFirst => table.pass_by_deadline()?,
            _ => table.pass_by_rank()?,
        };
        for (task, entry) in tasks.iter_mut().zip(table.entries()) {
            task.rank = entry.rank;
            task.witness = entry.witness;
        }
        Ok((table, answer))
    }

    /// The question demand about the table that is held.
    pub fn demand(&self, place: u32, t: u32) -> Result<Demand, Refusal> {
        let entry = self.entries().get(place as usize).ok_or(Refusal::NoPlace)?;
        if !(1..=MAX_TIME).contains(&t) {
            return Err(Refusal::TimeRange);
        }
        Ok(match self.rule {
            Rule::EarliestDeadlineFirst => self.demand_by_deadline(u64::from(t)).0,
            _ => self.demand_by_rank(entry.rank as usize, u64::from(t)),
        })
    }

    /// Writes every least witness and answers the greatest.
    fn pass_by_rank(&mut self) -> Result<u32, Refusal> {
        let mut greatest = 0;
        for rank in 0..self.count {
            let place = self.order[rank];
            let witness = self.least_witness(rank).ok_or(Refusal::Unschedulable {
                detail: u32::from(place),
            })?;
            self.entries[place as usize].witness = witness;
            greatest = greatest.max(witness);
        }
        Ok(greatest)
    }

    /// A time that fails rules out all times below its demand, so the search goes on there.
    fn least_witness(&self, rank: usize) -> Option<u32> {
        let deadline = u64::from(self.entries[self.order[rank] as usize].deadline);
        let mut t = 1;
        loop {
            let demand = self.demand_by_rank(rank, t).total();
            if demand <= t {
                return Some(t as u32);
            }
            if demand > deadline {
                return None;
            }
            t = demand;
        }
    }

    fn demand_by_rank(&self, rank: usize, t: u64) -> Demand {
        let (before, own) = self.order[..=rank].split_at(rank);
        let own = &self.entries[own[0] as usize];
        let mut demand = Demand {
            work: jobs_begun(t, own) * u64::from(own.cost),
            charge: 0,
        };
        for &place in before {
            let entry = &self.entries[place as usize];
            demand.work += jobs_begun(t, entry) * u64::from(entry.cost);
            demand.charge += jobs_begun(t - 1, entry) * u64::from(self.longest);
        }
        demand
    }

    /// Answers the hyperperiod.
    fn pass_by_deadline(&self) -> Result<u32, Refusal> {
        let hyperperiod = self.hyperperiod().ok_or(Refusal::LongHyperperiod)?;
        if self.load(hyperperiod) > hyperperiod {
            return Err(Refusal::Overload);
        }
        match self.first_overrun(hyperperiod) {
            Some(t) => Err(Refusal::Unschedulable { detail: t as u32 }),
            None => Ok(hyperperiod as u32),
        }
    }

    fn hyperperiod(&self) -> Option<u64> {
        self.entries().iter().try_fold(1, |multiple, entry| {
            let period = u64::from(entry.period);
            let next = multiple / gcd(multiple, period) * period;
            (next <= u64::from(MAX_TIME)).then_some(next)
        })
    }

    fn load(&self, hyperperiod: u64) -> u64 {
        let ticks = |entry: &Entry| u64::from(entry.cost) + u64::from(self.longest);
        self.entries()
            .iter()
            .map(|entry| hyperperiod / u64::from(entry.period) * ticks(entry))
            .sum()
    }

    /// The least time up to the end at which the demand is above the time.
    fn first_overrun(&self, end: u64) -> Option<u64> {
        let mut t = 1;
        while t <= end {
            let (demand, next) = self.demand_by_deadline(t);
            if demand.total() > t {
                return Some(t);
            }
            t = next;
        }
        None
    }

    /// D(t), and the next time at which it can change.
    fn demand_by_deadline(&self, t: u64) -> (Demand, u64) {
        let mut demand = Demand::default();
        let mut next = u64::MAX;
        for entry in self.entries() {
            let (period, deadline) = (u64::from(entry.period), u64::from(entry.deadline));
            // Deadlines are at most periods and t is at least 1, so nothing here is negative.
            let due = (t + period - deadline) / period;
            let charged = (t + period - deadline - 1) / period;
            demand.work += due * u64::from(entry.cost);
            demand.charge += charged * u64::from(self.longest);
            next = next
                .min(deadline + due * period)
                .min(deadline + charged * period + 1);
        }
        (demand, next)
    }
}

fn jobs_begun(t: u64, entry: &Entry) -> u64 {
    t.div_ceil(u64::from(entry.period))
}

fn gcd(a: u64, b: u64) -> u64 {
    if b == 0 {
        a
    } else {
        gcd(b, a % b)
    }
}
