//! The timeline of a batch.

use std::fmt::{self, Write};

use crate::batch::{Event, Sums, Ticked};

const LEGEND: &str = "\
jobs: > released before this tick, < last tick in time, x both
work: = computes, a attempt under way, C commits, R retries, p preempted, - waits, . no job";

/// What happened in a batch so far.
#[derive(Clone, Debug)]
pub struct History {
    /// The relative deadline of each place.
    deadlines: Vec<u32>,
    /// The clocks of the releases of each place.
    releases: Vec<Vec<u32>>,
    ticks: Vec<Ticked>,
    sums: Option<Sums>,
}

impl History {
    pub fn new(deadlines: Vec<u32>) -> History {
        History {
            releases: vec![Vec::new(); deadlines.len()],
            deadlines,
            ticks: Vec::new(),
            sums: None,
        }
    }

    pub fn released(&mut self, place: u32) {
        let clock = self.ticks.len() as u32;
        self.releases[place as usize].push(clock);
    }

    pub fn ticked(&mut self, ticked: Ticked) {
        self.ticks.push(ticked);
    }

    pub fn closed(&mut self, sums: Sums) {
        self.sums = Some(sums);
    }

    /// Column k stands for tick k + 1, so a job released at clock r can first have column r.
    fn jobs_row(&self, place: usize) -> String {
        let mut row = vec![' '; self.ticks.len()];
        for &release in &self.releases[place] {
            let first = release as usize;
            let last = first + self.deadlines[place] as usize - 1;
            if let Some(mark) = row.get_mut(first) {
                *mark = '>';
            }
            if let Some(mark) = row.get_mut(last) {
                *mark = if last == first { 'x' } else { '<' };
            }
        }
        row.into_iter().collect()
    }

    fn work_row(&self, place: usize) -> String {
        let mut releases = self.releases[place].iter().peekable();
        let mut pending = false;
        let mut worked = false;
        let mut row = String::with_capacity(self.ticks.len());
        for (clock, ticked) in self.ticks.iter().enumerate() {
            if releases.next_if_eq(&&(clock as u32)).is_some() {
                pending = true;
            }
            let works = ticked.event != Event::Idle && ticked.place as usize == place;
            row.push(match (works, pending, worked) {
                (true, _, _) => mark(ticked.event),
                (false, true, true) => 'p',
                (false, true, false) => '-',
                (false, false, _) => '.',
            });
            if works && ticked.finished {
                pending = false;
            }
            worked = works && pending;
        }
        row
    }
}

fn mark(event: Event) -> char {
    match event {
        Event::Computed => '=',
        Event::Attempted => 'a',
        Event::Committed { .. } => 'C',
        Event::Retried { .. } => 'R',
        Event::Idle => '.',
    }
}

fn digit(number: usize) -> char {
    char::from(b'0' + (number % 10) as u8)
}

impl fmt::Display for History {
    fn fmt(&self, f: &mut fmt::Formatter<'_>) -> fmt::Result {
        write!(f, "{:14}", "tick")?;
        for tick in 1..=self.ticks.len() {
            f.write_char(if tick % 10 == 0 {
                digit(tick / 10)
            } else {
                ' '
            })?;
        }
        write!(f, "\n{:14}", "")?;
        for tick in 1..=self.ticks.len() {
            f.write_char(digit(tick))?;
        }
        for place in 0..self.deadlines.len() {
            write!(f, "\ntask {place:>2} jobs  {}", self.jobs_row(place))?;
            write!(f, "\n        work  {}", self.work_row(place))?;
        }
        write!(f, "\n{LEGEND}")?;
        match &self.sums {
            Some(sums) => write!(f, "\n{sums}"),
            None => Ok(()),
        }
    }
}
