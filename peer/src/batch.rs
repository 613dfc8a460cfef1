//! A batch: jobs of the table that is held, run tick by tick on one processor.

use crate::refusal::Refusal;
use crate::shelf::Shelf;
use crate::table::{Access, Entry, Rule, Step, Table, MAX_TASKS};

/// No tick is made from this clock on.
pub const CLOCK_END: u32 = 1_000_000_000;

/// What a tick did.
#[derive(Clone, Copy, Debug, PartialEq, Eq)]
pub enum Event {
    Computed,
    Attempted,
    Committed { object: u32, word: u32 },
    Retried { object: u32 },
    Idle,
}

impl Event {
    pub fn number(self) -> u32 {
        match self {
            Event::Computed => 0,
            Event::Attempted => 1,
            Event::Committed { .. } => 2,
            Event::Retried { .. } => 3,
            Event::Idle => 4,
        }
    }

    pub fn object(self) -> u32 {
        match self {
            Event::Committed { object, .. } | Event::Retried { object } => object,
            _ => 0,
        }
    }

    pub fn word(self) -> u32 {
        match self {
            Event::Committed { word, .. } => word,
            _ => 0,
        }
    }
}

/// The answer of a tick.
#[derive(Clone, Copy, Debug, PartialEq, Eq)]
pub struct Ticked {
    pub place: u32,
    pub event: Event,
    pub finished: bool,
}

/// What a batch comes to; all count from its opening.
#[derive(Clone, Copy, Debug, Default, PartialEq, Eq)]
pub struct Sums {
    pub ticks: u32,
    pub releases: u64,
    pub finished: u32,
    pub pending: u32,
    pub retries: u32,
    pub preemptions: u32,
}

/// What `open` gives and `close` takes by value; void if `open` was refused.
#[derive(Debug)]
#[must_use = "every token has to be handed to close"]
pub struct Token {
    good: bool,
}

impl Token {
    pub(crate) fn new(good: bool) -> Token {
        Token { good }
    }

    pub fn is_good(&self) -> bool {
        self.good
    }
}

#[derive(Clone, Copy, Debug)]
enum JobState {
    AtRest,
    Computing {
        left: u32,
    },
    /// The next tick of the job begins an attempt and looks.
    Looking,
    Copying {
        left: u32,
        reading: u32,
    },
}

/// The record of a place: its latest job.
#[derive(Clone, Copy, Debug)]
struct Job {
    released: Option<u32>,
    due: u32,
    step: usize,
    state: JobState,
}

impl Job {
    const NONE: Job = Job {
        released: None,
        due: 0,
        step: 0,
        state: JobState::AtRest,
    };

    fn is_pending(&self) -> bool {
        !matches!(self.state, JobState::AtRest)
    }

    /// Stands the job before a step; past the last it has finished.
    fn begin(&mut self, entry: &Entry, step: usize) {
        self.step = step;
        self.state = match entry.steps().get(step) {
            None => JobState::AtRest,
            Some(&Step::Compute(left)) => JobState::Computing { left },
            Some(Step::Access(_)) => JobState::Looking,
        };
    }

    /// One tick of work.
    fn work<S: Shelf>(&mut self, entry: &Entry, shelf: &mut S) -> Event {
        match (entry.steps().get(self.step), self.state) {
            (Some(Step::Compute(_)), JobState::Computing { left }) => self.compute(entry, left),
            (Some(Step::Access(access)), JobState::Looking) => {
                let reading = shelf.look(access.object);
                self.attempt(entry, access, access.ticks, reading, shelf)
            }
            (Some(Step::Access(access)), JobState::Copying { left, reading }) => {
                self.attempt(entry, access, left, reading, shelf)
            }
            _ => unreachable!("only a pending job works, and its state goes with its step"),
        }
    }

    fn compute(&mut self, entry: &Entry, left: u32) -> Event {
        if left > 1 {
            self.state = JobState::Computing { left: left - 1 };
        } else {
            self.begin(entry, self.step + 1);
        }
        Event::Computed
    }

    /// One tick of an attempt that has so many left, this one included.
    fn attempt<S: Shelf>(
        &mut self,
        entry: &Entry,
        access: &Access,
        left: u32,
        reading: u32,
        shelf: &mut S,
    ) -> Event {
        if left > 1 {
            let left = left - 1;
            self.state = JobState::Copying { left, reading };
            return Event::Attempted;
        }
        let object = access.object;
        let word = access.word.after(reading);
        if shelf.commit(object, reading, word) {
            self.begin(entry, self.step + 1);
            Event::Committed { object, word }
        } else {
            self.state = JobState::Looking;
            Event::Retried { object }
        }
    }
}

/// An open batch.
#[derive(Clone, Debug)]
pub(crate) struct Batch {
    clock: u32,
    jobs: [Job; MAX_TASKS],
    /// The place that worked on the tick before, unless its job finished then.
    last: Option<usize>,
    releases: u64,
    finished: u32,
    retries: u32,
    preemptions: u32,
}

impl Batch {
    pub(crate) fn new() -> Batch {
        Batch {
            clock: 0,
            jobs: [Job::NONE; MAX_TASKS],
            last: None,
            releases: 0,
            finished: 0,
            retries: 0,
            preemptions: 0,
        }
    }

    pub(crate) fn clock(&self) -> u32 {
        self.clock
    }

    /// Starts a job and answers its absolute deadline.
    pub(crate) fn release(&mut self, table: &Table, place: u32) -> Result<u32, Refusal> {
        let place = place as usize;
        let entry = table.entries().get(place).ok_or(Refusal::NoPlace)?;
        let job = &mut self.jobs[place];
        if let Some(released) = job.released {
            if self.clock - released < entry.period {
                return Err(Refusal::TooSoon);
            }
        }
        if job.is_pending() {
            return Err(Refusal::Unfinished);
        }
        job.released = Some(self.clock);
        job.due = self.clock + entry.deadline;
        job.begin(entry, 0);
        self.releases += 1;
        Ok(job.due)
    }

    pub(crate) fn tick<S: Shelf>(
        &mut self,
        table: &Table,
        shelf: &mut S,
    ) -> Result<Ticked, Refusal> {
        if self.clock >= CLOCK_END {
            return Err(Refusal::ClockEnd);
        }
        self.clock += 1;
        let Some(place) = self.most_urgent(table) else {
            self.last = None;
            return Ok(Ticked {
                place: 0,
                event: Event::Idle,
                finished: false,
            });
        };
        let job = &mut self.jobs[place];
        let event = job.work(&table.entries()[place], shelf);
        let finished = !job.is_pending();
        self.count(place, event, finished);
        Ok(Ticked {
            place: place as u32,
            event,
            finished,
        })
    }

    fn most_urgent(&self, table: &Table) -> Option<usize> {
        match table.rule() {
            Rule::EarliestDeadlineFirst => (0..table.entries().len())
                .filter(|&place| self.jobs[place].is_pending())
                .min_by_key(|&place| {
                    let job = &self.jobs[place];
                    (job.due, job.released, place)
                }),
            _ => table
                .by_rank()
                .iter()
                .map(|&place| usize::from(place))
                .find(|&place| self.jobs[place].is_pending()),
        }
    }

    fn count(&mut self, place: usize, event: Event, finished: bool) {
        if self.last.is_some_and(|last| last != place) {
            self.preemptions += 1;
        }
        if let Event::Retried { .. } = event {
            self.retries += 1;
        }
        if finished {
            self.finished += 1;
        }
        self.last = (!finished).then_some(place);
    }

    pub(crate) fn sums(&self) -> Sums {
        Sums {
            ticks: self.clock,
            releases: self.releases,
            finished: self.finished,
            pending: self.jobs.iter().filter(|job| job.is_pending()).count() as u32,
            retries: self.retries,
            preemptions: self.preemptions,
        }
    }
}
