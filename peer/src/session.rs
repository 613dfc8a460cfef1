//! A script, run on a new controller with a ledger beside it.

use std::fmt;
use std::io::{self, Write};

use crate::chart::History;
use crate::controller::Controller;
use crate::ledger::{Call, Kind, Ledger};
use crate::print::Answer;
use crate::script::{parse_line, BadLine, Line, MAX_CALLS};
use crate::shelf::{Cell, Pair, Queue};
use crate::table::{Segment, Task};
use crate::Token;

/// The shelf of a script: a cell at 0 and an empty queue.
pub type ScriptShelf = Pair<Cell, Queue>;

pub fn script_shelf() -> ScriptShelf {
    Pair::new(Cell::new(0), Queue::new())
}

/// How a script ended.
#[derive(Debug)]
pub enum Ending {
    Whole,
    Bad { line: usize, what: BadLine },
    LawBroken(String),
    Unwritten(io::Error),
}

impl Ending {
    pub fn status(&self) -> u8 {
        match self {
            Ending::Whole => 0,
            Ending::Bad { .. } | Ending::Unwritten(_) => 1,
            Ending::LawBroken(_) => 2,
        }
    }
}

impl fmt::Display for Ending {
    fn fmt(&self, f: &mut fmt::Formatter<'_>) -> fmt::Result {
        match self {
            Ending::Whole => Ok(()),
            Ending::Bad { line, what } => writeln!(f, "line {line}: {what}"),
            Ending::LawBroken(law) => writeln!(f, "peer: law broken: {law}"),
            Ending::Unwritten(error) => writeln!(f, "Error: {error:?}"),
        }
    }
}

/// Runs a script whole, or up to its first bad line.
pub fn run_script<W: Write>(script: &[u8], out: W) -> Ending {
    let mut session = Session::new(out);
    for (index, bytes) in lines_of(script).enumerate() {
        match parse_bytes(bytes).and_then(|line| session.admit(line)) {
            Ok(None) => {}
            Ok(Some(line)) => {
                if let Err(ending) = session.run(line) {
                    return ending;
                }
            }
            Err(what) => {
                let line = index + 1;
                return Ending::Bad { line, what };
            }
        }
    }
    Ending::Whole
}

/// A last line may lack its line feed; after a line feed there is no empty line.
fn lines_of(script: &[u8]) -> impl Iterator<Item = &[u8]> {
    let script = script.strip_suffix(b"\n").unwrap_or(script);
    let lines = script.split(|&byte| byte == b'\n');
    lines.take_while(move |line| !(script.is_empty() && line.is_empty()))
}

fn parse_bytes(bytes: &[u8]) -> Result<Option<Line>, BadLine> {
    let text = std::str::from_utf8(bytes).map_err(|_| BadLine::NotText)?;
    parse_line(text)
}

impl From<io::Error> for Ending {
    fn from(error: io::Error) -> Ending {
        Ending::Unwritten(error)
    }
}

struct Session<W> {
    out: W,
    controller: Controller<ScriptShelf>,
    ledger: Ledger,
    rule: u32,
    tasks: Vec<Task>,
    segments: Vec<Segment>,
    tokens: Vec<Token>,
    history: Option<History>,
    calls: u64,
}

impl<W: Write> Session<W> {
    fn new(out: W) -> Session<W> {
        let shelf = script_shelf();
        let ledger = Ledger::new(&shelf, &[(0, Kind::Cell), (1, Kind::Queue)]);
        Session {
            out,
            controller: Controller::new(shelf),
            ledger,
            rule: 0,
            tasks: Vec::new(),
            segments: Vec::new(),
            tokens: Vec::new(),
            history: None,
            calls: 0,
        }
    }

    /// Counts the calls of a line; a line with too many is bad, and nothing of it is done.
    fn admit(&mut self, line: Option<Line>) -> Result<Option<Line>, BadLine> {
        let calls = line.as_ref().map_or(0, Line::calls);
        if calls > MAX_CALLS - self.calls {
            return Err(BadLine::TooManyCalls);
        }
        self.calls += calls;
        Ok(line)
    }

    fn run(&mut self, line: Line) -> Result<(), Ending> {
        match line {
            Line::Rule(rule) => self.rule = rule,
            Line::Task(task) => self.tasks.push(task),
            Line::Segment(segment) => self.segments.push(segment),
            Line::Clear => {
                self.tasks.clear();
                self.segments.clear();
            }
            Line::Adopt => self.adopt()?,
            Line::Open => self.open()?,
            Line::Release(place) => self.release(place)?,
            Line::Tick(count) => (0..count).try_for_each(|_| self.tick())?,
            Line::Close => self.close()?,
            Line::Read(object) => {
                let read = self.controller.read(object);
                self.told(&Call::Read { object }, read.map(Answer::Reading))?;
            }
            Line::Demand(place, t) => {
                let demand = self.controller.demand(place, t);
                self.told(&Call::Demand { place, t }, demand.map(Answer::Demanded))?;
            }
            Line::Chart => self.chart()?,
        }
        Ok(())
    }

    /// Has the ledger check an answer, and prints it.
    fn told(&mut self, call: &Call, answer: Result<Answer, crate::Refusal>) -> Result<(), Ending> {
        let answer = answer.unwrap_or_else(Answer::Refused);
        let held = self.tokens.iter().map(Token::is_good);
        let checked = self.ledger.record(call, &answer);
        let checked = checked.and_then(|()| self.ledger.compare(self.controller.shelf(), held));
        writeln!(self.out, "{answer}")?;
        checked.map_err(Ending::LawBroken)
    }

    fn adopt(&mut self) -> Result<(), Ending> {
        let (tasks, segments) = (self.tasks.clone(), self.segments.clone());
        let mut stamped = tasks.clone();
        let adopted = self.controller.adopt(self.rule, &mut stamped, &segments);
        let call = Call::Adopt {
            rule: self.rule,
            tasks: &tasks,
            segments: &segments,
        };
        self.told(&call, adopted.map(|answer| Answer::Taken(answer, stamped)))
    }

    fn open(&mut self) -> Result<(), Ending> {
        let (opened, token) = self.controller.open();
        self.tokens.push(token);
        if opened.is_ok() {
            let entries = self.controller.table().entries();
            let deadlines = entries.iter().map(|entry| entry.deadline).collect();
            self.history = Some(History::new(deadlines));
        }
        self.told(&Call::Open, opened.map(|()| Answer::Opened))
    }

    fn release(&mut self, place: u32) -> Result<(), Ending> {
        let released = self.controller.release(place);
        if let (Ok(_), Some(history)) = (&released, &mut self.history) {
            history.released(place);
        }
        self.told(&Call::Release { place }, released.map(Answer::Released))
    }

    fn tick(&mut self) -> Result<(), Ending> {
        let ticked = self.controller.tick();
        if let (&Ok(ticked), Some(history)) = (&ticked, &mut self.history) {
            history.ticked(ticked);
        }
        let clock = self.controller.clock().unwrap_or(0);
        self.told(
            &Call::Tick,
            ticked.map(|ticked| Answer::Worked(clock, ticked)),
        )
    }

    /// Hands in the good token if it is held, else the oldest void one.
    fn close(&mut self) -> Result<(), Ending> {
        let good = self.tokens.iter().position(Token::is_good);
        let which = good.unwrap_or(0);
        let call = Call::Close { which };
        if self.tokens.is_empty() {
            return self.told(&call, Ok(Answer::NoToken));
        }
        let closed = self.controller.close(self.tokens.remove(which));
        if let (&Ok(sums), Some(history)) = (&closed, &mut self.history) {
            history.closed(sums);
        }
        self.told(&call, closed.map(Answer::Closed))
    }

    fn chart(&mut self) -> Result<(), Ending> {
        match &self.history {
            Some(history) => writeln!(self.out, "{history}")?,
            None => writeln!(self.out, "no batch")?,
        }
        Ok(())
    }
}
