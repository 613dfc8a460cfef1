//! A book-keeper beside the calls.
//!
//! The ledger is fed each call with its arguments, whether it was granted, and of each tick the
//! place and the event. From these alone it works out what every answer has to be, and what has
//! to hold after every call.

use std::collections::VecDeque;

use crate::assessor::{agrees, assess, Roster};
use crate::batch::{Event, Sums, Ticked, CLOCK_END};
use crate::print::Answer;
use crate::refusal::Refusal;
use crate::shelf::Contents;
use crate::table::{Segment, Task};
use crate::Demand;

/// A call as it was made.
#[derive(Clone, Copy, Debug)]
pub enum Call<'a> {
    Adopt {
        rule: u32,
        tasks: &'a [Task],
        segments: &'a [Segment],
    },
    Open,
    Release {
        place: u32,
    },
    Tick,
    /// The position of the token among those held, oldest first.
    Close {
        which: usize,
    },
    Read {
        object: u32,
    },
    Demand {
        place: u32,
        t: u32,
    },
}

/// How an object reads and changes.
#[derive(Clone, Copy, Debug)]
pub enum Kind {
    Cell,
    Queue,
}

#[derive(Clone, Debug)]
struct Object {
    number: u32,
    kind: Kind,
    content: Vec<u32>,
}

impl Object {
    fn reading(&self) -> u32 {
        match self.kind {
            Kind::Cell => self.content[0],
            Kind::Queue => self.content.len() as u32 - 1,
        }
    }

    fn apply(&mut self, word: u32) {
        match self.kind {
            Kind::Cell => self.content = vec![word],
            Kind::Queue if word == 0 => {
                if self.content.len() > 1 {
                    self.content.remove(1);
                }
            }
            Kind::Queue if self.content.len() <= 64 => self.content.push(word),
            Kind::Queue => self.content[0] = self.content[0].saturating_add(1),
        }
    }
}

/// The latest job of a place.
#[derive(Clone, Debug)]
struct Booked {
    release: u32,
    left: VecDeque<Segment>,
}

/// The page of an open batch. A release is granted only after the last job of its place has
/// finished, so of older jobs the counts are enough.
#[derive(Clone, Debug, Default)]
struct Book {
    clock: u32,
    latest: Vec<Option<Booked>>,
    released: u64,
    finished: u32,
    /// Place and release of the job that worked on the tick before.
    worked: Option<(u32, u32)>,
    retries: u32,
    preemptions: u32,
}

impl Book {
    fn job(&self, place: u32) -> Option<&Booked> {
        self.latest.get(place as usize)?.as_ref()
    }

    fn unfinished(&self) -> impl Iterator<Item = (u32, &Booked)> {
        let jobs = self.latest.iter().enumerate();
        jobs.filter_map(|(place, job)| Some((place as u32, job.as_ref()?)))
            .filter(|(_, job)| !job.left.is_empty())
    }

    fn sums(&self) -> Sums {
        Sums {
            ticks: self.clock,
            releases: self.released,
            finished: self.finished,
            pending: self.unfinished().count() as u32,
            retries: self.retries,
            preemptions: self.preemptions,
        }
    }

    /// Whether the job that worked on the tick before is another one and is unfinished.
    fn preempts(&self, place: u32) -> bool {
        self.unfinished()
            .any(|(other, job)| other != place && self.worked == Some((other, job.release)))
    }
}

#[derive(Clone, Debug)]
pub struct Ledger {
    objects: Vec<Object>,
    table: Roster,
    book: Option<Book>,
    held: Vec<bool>,
}

type Checked = Result<(), String>;

fn demand_that(holds: bool, otherwise: impl FnOnce() -> String) -> Checked {
    if holds {
        Ok(())
    } else {
        Err(otherwise())
    }
}

impl Ledger {
    /// The contents at the start are those of the shelf.
    pub fn new(shelf: &impl Contents, objects: &[(u32, Kind)]) -> Ledger {
        let object = |&(number, kind): &(u32, Kind)| Object {
            number,
            kind,
            content: shelf.content(number),
        };
        Ledger {
            objects: objects.iter().map(object).collect(),
            table: Roster::default(),
            book: None,
            held: Vec::new(),
        }
    }

    /// Checks an answer, writes the call down, and checks what holds afterwards.
    pub fn record(&mut self, call: &Call, answer: &Answer) -> Checked {
        self.fits(call, answer)?;
        match answer {
            Answer::Worked(_, ticked) => self.feed_tick(ticked.place, ticked.event.number()),
            _ => self.feed(call, answer.granted()),
        }
        self.kept()
    }

    /// Compares the contents with those of the shelf, and the tokens with those held.
    pub fn compare(&self, shelf: &impl Contents, held: impl Iterator<Item = bool>) -> Checked {
        for object in &self.objects {
            let content = shelf.content(object.number);
            demand_that(content == object.content, || {
                format!(
                    "object {} holds {content:?}, by the ledger {:?}",
                    object.number, object.content
                )
            })?;
        }
        let held: Vec<bool> = held.collect();
        let good = held.iter().filter(|&&good| good).count();
        demand_that(held == self.held, || {
            format!("tokens {held:?} are held, by the ledger {:?}", self.held)
        })?;
        demand_that(good == usize::from(self.book.is_some()), || {
            format!("{good} good tokens, batch open: {}", self.book.is_some())
        })
    }

    fn object(&self, number: u32) -> Option<&Object> {
        self.objects.iter().find(|object| object.number == number)
    }

    // What each answer has to be.

    fn fits(&self, call: &Call, answer: &Answer) -> Checked {
        let due = match *call {
            Call::Adopt {
                rule,
                tasks,
                segments,
            } => return self.adopt_fits(rule, tasks, segments, answer),
            Call::Tick => return self.tick_fits(answer),
            Call::Open => self.open_due(),
            Call::Release { place } => self.release_due(place),
            Call::Close { which } => self.close_due(which),
            Call::Read { object } => self.read_due(object),
            Call::Demand { place, t } => self.demand_due(place, t),
        };
        demand_that(due == *answer, || {
            format!("{call:?} answered {answer:?}, by the ledger {due:?}")
        })
    }

    fn adopt_fits(
        &self,
        rule: u32,
        tasks: &[Task],
        segments: &[Segment],
        answer: &Answer,
    ) -> Checked {
        if self.book.is_some() {
            return demand_that(*answer == Answer::Refused(Refusal::BatchOpen), || {
                format!("adopt in a batch answered {answer:?}")
            });
        }
        let assessment = assess(rule, tasks, segments, |k| self.object(k).is_some());
        let roster = || Roster::of(rule, tasks, segments);
        demand_that(agrees(&assessment, roster, answer), || {
            format!("adopt answered {answer:?}, by the definitions {assessment:?}")
        })
    }

    fn open_due(&self) -> Answer {
        match self.book {
            Some(_) => Answer::Refused(Refusal::AlreadyOpen),
            None => Answer::Opened,
        }
    }

    fn release_due(&self, place: u32) -> Answer {
        let Some(book) = &self.book else {
            return Answer::Refused(Refusal::NoBatch);
        };
        let Some(member) = self.table.members.get(place as usize) else {
            return Answer::Refused(Refusal::NoPlace);
        };
        match book.job(place) {
            Some(job) if book.clock - job.release < member.period => {
                Answer::Refused(Refusal::TooSoon)
            }
            Some(job) if !job.left.is_empty() => Answer::Refused(Refusal::Unfinished),
            _ => Answer::Released(book.clock + member.deadline),
        }
    }

    fn close_due(&self, which: usize) -> Answer {
        match (self.held.get(which), &self.book) {
            (None, _) => Answer::NoToken,
            (Some(false), _) => Answer::Refused(Refusal::VoidToken),
            (Some(true), None) => Answer::Refused(Refusal::NoBatch),
            (Some(true), Some(book)) => Answer::Closed(book.sums()),
        }
    }

    fn read_due(&self, object: u32) -> Answer {
        match self.object(object) {
            Some(object) => Answer::Reading(object.reading()),
            None => Answer::Refused(Refusal::NoObject),
        }
    }

    fn demand_due(&self, place: u32, t: u32) -> Answer {
        if place as usize >= self.table.members.len() {
            return Answer::Refused(Refusal::NoPlace);
        }
        if t == 0 || t > 1_000_000 {
            return Answer::Refused(Refusal::TimeRange);
        }
        let (work, charge) = self.table.demand(place as usize, t);
        Answer::Demanded(Demand { work, charge })
    }

    fn tick_fits(&self, answer: &Answer) -> Checked {
        let Some(book) = &self.book else {
            return demand_that(*answer == Answer::Refused(Refusal::NoBatch), || {
                format!("tick without a batch answered {answer:?}")
            });
        };
        let Answer::Worked(clock, ticked) = answer else {
            let ended = *answer == Answer::Refused(Refusal::ClockEnd);
            return demand_that(ended && book.clock >= CLOCK_END, || {
                format!("tick at clock {} answered {answer:?}", book.clock)
            });
        };
        demand_that(book.clock < CLOCK_END && *clock == book.clock + 1, || {
            format!("tick {clock} after clock {}", book.clock)
        })?;
        match ticked.event {
            Event::Idle => self.idle_fits(book, ticked),
            _ => self.work_fits(book, ticked),
        }
    }

    fn idle_fits(&self, book: &Book, ticked: &Ticked) -> Checked {
        let nobody = book.unfinished().next().is_none();
        demand_that(nobody && ticked.place == 0 && !ticked.finished, || {
            format!("idle tick does not fit: {ticked:?}, {book:?}")
        })
    }

    fn work_fits(&self, book: &Book, ticked: &Ticked) -> Checked {
        let place = ticked.place;
        let job = book.job(place);
        let segment = job.and_then(|job| job.left.front());
        let (Some(job), Some(segment)) = (job, segment) else {
            return Err(format!("{ticked:?}, but place {place} has no job"));
        };
        let (kind_fits, ends) = match ticked.event {
            Event::Computed => (segment.kind == 0, segment.size == 1),
            Event::Committed { .. } => (segment.kind != 0, true),
            _ => (segment.kind != 0, false),
        };
        let (object, word) = match ticked.event {
            Event::Committed { .. } => (segment.object, self.word_of(segment)),
            Event::Retried { .. } => (segment.object, 0),
            _ => (0, 0),
        };
        let told = (ticked.event.object(), ticked.event.word());
        let finishes = ends && job.left.len() == 1;
        demand_that(kind_fits && told == (object, word), || {
            format!("{ticked:?}, by the ledger object {object} word {word}, {segment:?}")
        })?;
        demand_that(ticked.finished == finishes, || {
            format!("{ticked:?}, by the ledger finished {finishes}")
        })?;
        self.urgent(book, place)
    }

    /// Whether the job that worked is the most urgent one that is pending.
    fn urgent(&self, book: &Book, place: u32) -> Checked {
        let urgency = |(place, job): (u32, &Booked)| {
            let member = &self.table.members[place as usize];
            match self.table.rule {
                3 => (job.release + member.deadline, job.release, place),
                _ => (member.rank, 0, place),
            }
        };
        let most = book.unfinished().map(urgency).min();
        demand_that(most.is_some_and(|(_, _, first)| first == place), || {
            format!("place {place} worked, most urgent is {most:?}")
        })
    }

    fn word_of(&self, segment: &Segment) -> u32 {
        let reading = self.object(segment.object).map_or(0, Object::reading);
        match segment.kind {
            1 => segment.amount,
            _ => reading.saturating_add(segment.amount),
        }
    }

    // What is written down.

    fn feed(&mut self, call: &Call, granted: bool) {
        match *call {
            Call::Adopt {
                rule,
                tasks,
                segments,
            } if granted => self.table = Roster::of(rule, tasks, segments),
            Call::Open => {
                self.held.push(granted);
                if granted {
                    self.book = Some(Book {
                        latest: vec![None; self.table.members.len()],
                        ..Book::default()
                    });
                }
            }
            Call::Release { place } if granted => self.feed_release(place),
            Call::Close { which } => {
                if which < self.held.len() {
                    self.held.remove(which);
                }
                if granted {
                    self.book = None;
                }
            }
            _ => {}
        }
    }

    fn feed_release(&mut self, place: u32) {
        if let Some(book) = &mut self.book {
            let segments = &self.table.members[place as usize].segments;
            book.released += 1;
            book.latest[place as usize] = Some(Booked {
                release: book.clock,
                left: segments.iter().copied().collect(),
            });
        }
    }

    /// Object and word come from the ledger's own segment and contents.
    fn feed_tick(&mut self, place: u32, event: u32) {
        let Some(book) = &mut self.book else { return };
        book.clock += 1;
        if event == 4 {
            book.worked = None;
            return;
        }
        book.preemptions += u32::from(book.preempts(place));
        book.retries += u32::from(event == 3);
        let job = book.latest[place as usize].as_mut();
        let Some(job) = job.filter(|job| !job.left.is_empty()) else {
            return;
        };
        book.worked = Some((place, job.release));
        let done = match event {
            0 => {
                job.left[0].size -= 1;
                (job.left[0].size == 0).then(|| job.left.pop_front())
            }
            2 => Some(job.left.pop_front()),
            _ => None,
        };
        book.finished += u32::from(job.left.is_empty());
        if let (2, Some(Some(segment))) = (event, done) {
            self.apply(&segment);
        }
    }

    fn apply(&mut self, segment: &Segment) {
        let word = self.word_of(segment);
        let number = segment.object;
        if let Some(object) = self.objects.iter_mut().find(|o| o.number == number) {
            object.apply(word);
        }
    }

    // What holds at every point.

    fn kept(&self) -> Checked {
        let Some(book) = &self.book else {
            return Ok(());
        };
        for (place, job) in book.unfinished() {
            let due = job.release + self.table.members[place as usize].deadline;
            demand_that(due > book.clock, || {
                format!("place {place} is late: due {due}, clock {}", book.clock)
            })?;
        }
        let (retries, preemptions) = (book.retries, book.preemptions);
        demand_that(retries <= preemptions, || {
            format!("{retries} retries, {preemptions} preemptions")
        })?;
        demand_that(u64::from(preemptions) <= book.released, || {
            format!("{preemptions} preemptions, {} releases", book.released)
        })
    }
}
