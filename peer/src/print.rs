//! Answers, and their text.

use std::fmt;

use crate::admission::Demand;
use crate::batch::{Sums, Ticked};
use crate::refusal::Refusal;
use crate::table::Task;

/// What a call of a script answers.
#[derive(Clone, Debug, PartialEq, Eq)]
pub enum Answer {
    /// The answer, and the task records with ranks and witnesses.
    Taken(u32, Vec<Task>),
    Opened,
    Released(u32),
    /// The clock after the tick, and what the tick did.
    Worked(u32, Ticked),
    Closed(Sums),
    NoToken,
    Reading(u32),
    Demanded(Demand),
    Refused(Refusal),
}

impl Answer {
    /// Whether the call was granted.
    pub fn granted(&self) -> bool {
        !matches!(self, Answer::NoToken | Answer::Refused(_))
    }
}

impl fmt::Display for Answer {
    fn fmt(&self, f: &mut fmt::Formatter<'_>) -> fmt::Result {
        match self {
            Answer::Taken(answer, tasks) => write_taken(f, *answer, tasks),
            Answer::Opened => write!(f, "opened"),
            Answer::Released(deadline) => write!(f, "released {deadline}"),
            Answer::Worked(clock, ticked) => write_worked(f, *clock, ticked),
            Answer::Closed(sums) => write!(f, "{sums}"),
            Answer::NoToken => write!(f, "no token"),
            Answer::Reading(reading) => write!(f, "reading {reading}"),
            Answer::Demanded(demand) => write!(f, "demand {} {}", demand.work, demand.charge),
            Answer::Refused(no) => write!(f, "refused {} {}", no.number(), no.detail()),
        }
    }
}

fn write_taken(f: &mut fmt::Formatter<'_>, answer: u32, tasks: &[Task]) -> fmt::Result {
    write!(f, "taken {answer}")?;
    for (place, task) in tasks.iter().enumerate() {
        write!(
            f,
            "\ntask {place} rank {} witness {}",
            task.rank, task.witness
        )?;
    }
    Ok(())
}

fn write_worked(f: &mut fmt::Formatter<'_>, clock: u32, ticked: &Ticked) -> fmt::Result {
    write!(
        f,
        "tick {clock} place {} event {} object {} word {} finished {}",
        ticked.place,
        ticked.event.number(),
        ticked.event.object(),
        ticked.event.word(),
        if ticked.finished { "yes" } else { "no" }
    )
}

impl fmt::Display for Sums {
    fn fmt(&self, f: &mut fmt::Formatter<'_>) -> fmt::Result {
        write!(
            f,
            "closed ticks {} releases {} finished {} pending {} retries {} overtakings {}",
            self.ticks, self.releases, self.finished, self.pending, self.retries, self.preemptions
        )
    }
}
