//! Writes the lines of a script and makes their calls on a controller of its own, so that what
//! is written next can go by what has happened.

use crate::controller::Controller;
use crate::rng::Rng;
use crate::script::{parse_line, Line};
use crate::session::{script_shelf, ScriptShelf};
use crate::table::{Segment, Task};
use crate::{Ticked, Token};

/// How oddly lines are written.
#[derive(Clone, Copy, Debug, Default)]
struct Style {
    spaces: bool,
    comments: bool,
    numbers: bool,
    carriage_returns: bool,
}

#[derive(Debug)]
pub struct Writer {
    pub rng: Rng,
    text: Vec<u8>,
    style: Style,
    controller: Controller<ScriptShelf>,
    rule: u32,
    tasks: Vec<Task>,
    segments: Vec<Segment>,
    tokens: Vec<Token>,
    /// The clock from which each place of the batch can be released again.
    free_at: [u32; 32],
    latest: Option<Ticked>,
    calls: u64,
}

const SPACES: [&str; 8] = [
    " ", "  ", "\t", " \t ", "\u{b}", "\u{c}", "\u{a0}", "\u{3000}",
];
const COMMENTS: [&str; 6] = ["#", "# tick 5", "#open", "#\"x\"", "# ü ✓", "##"];
const BLANKS: [&str; 5] = ["", "   ", "\t", "# nothing", " # 1 2 3"];

impl Writer {
    pub fn new(rng: Rng) -> Writer {
        Writer {
            rng,
            text: Vec::new(),
            style: Style::default(),
            controller: Controller::new(script_shelf()),
            rule: 0,
            tasks: Vec::new(),
            segments: Vec::new(),
            tokens: Vec::new(),
            free_at: [0; 32],
            latest: None,
            calls: 0,
        }
    }

    /// Most scripts are written plainly, some with everything that a line may have.
    pub fn choose_style(&mut self) {
        if self.rng.chance(30) {
            self.style = Style {
                spaces: self.rng.chance(60),
                comments: self.rng.chance(60),
                numbers: self.rng.chance(60),
                carriage_returns: self.rng.chance(40),
            };
        }
    }

    pub fn finish(mut self) -> Vec<u8> {
        if self.rng.chance(10) && self.text.last() == Some(&b'\n') {
            self.text.pop();
        }
        self.text
    }

    /// The text as it stands.
    pub fn text(&self) -> &[u8] {
        &self.text
    }

    /// Writes text as it is; its lines have to be good.
    pub fn copy(&mut self, text: &str) {
        self.text.extend_from_slice(text.as_bytes());
        for line in text.lines() {
            if let Ok(Some(line)) = parse_line(line) {
                self.make(line);
            }
        }
    }

    /// Writes text and makes no calls.
    pub fn append(&mut self, text: &[u8]) {
        self.text.extend_from_slice(text);
    }

    pub fn say(&mut self, word: &str, numbers: &[u32]) {
        let line = self.write(word, numbers);
        if let Ok(Some(line)) = parse_line(&line) {
            self.make(line);
        }
    }

    fn write(&mut self, word: &str, numbers: &[u32]) -> String {
        let mut line = String::new();
        if self.style.spaces && self.rng.chance(20) {
            line += self.rng.pick(&SPACES);
        }
        line += word;
        for &number in numbers {
            line += self.space();
            line += &self.number(number);
        }
        if self.style.spaces && self.rng.chance(20) {
            line += self.rng.pick(&SPACES);
        }
        if self.style.comments && self.rng.chance(20) {
            line += self.rng.pick(&COMMENTS);
        }
        self.end_line(&line);
        if self.style.comments && self.rng.chance(10) {
            let blank = self.rng.pick(&BLANKS);
            self.end_line(blank);
        }
        line
    }

    fn end_line(&mut self, line: &str) {
        self.text.extend_from_slice(line.as_bytes());
        if self.style.carriage_returns {
            self.text.push(b'\r');
        }
        self.text.push(b'\n');
    }

    fn space(&mut self) -> &'static str {
        if self.style.spaces {
            self.rng.pick(&SPACES)
        } else {
            " "
        }
    }

    fn number(&mut self, number: u32) -> String {
        match self.rng.below(8) {
            0 if self.style.numbers => format!("+{number}"),
            1 if self.style.numbers => format!("{number:03}"),
            2 if self.style.numbers => format!("+{number:012}"),
            _ => number.to_string(),
        }
    }

    fn make(&mut self, line: Line) {
        self.calls += line.calls();
        match line {
            Line::Rule(rule) => self.rule = rule,
            Line::Task(task) => self.tasks.push(task),
            Line::Segment(segment) => self.segments.push(segment),
            Line::Clear => {
                self.tasks.clear();
                self.segments.clear();
            }
            Line::Adopt => {
                let mut tasks = self.tasks.clone();
                let _ = self.controller.adopt(self.rule, &mut tasks, &self.segments);
            }
            Line::Open => self.make_open(),
            Line::Release(place) => self.make_release(place),
            Line::Tick(count) => {
                for _ in 0..count {
                    self.latest = self.controller.tick().ok();
                }
            }
            Line::Close => self.make_close(),
            Line::Read(_) | Line::Demand(..) | Line::Chart => {}
        }
    }

    fn make_open(&mut self) {
        let (opened, token) = self.controller.open();
        self.tokens.push(token);
        if opened.is_ok() {
            self.free_at = [0; 32];
            self.latest = None;
        }
    }

    fn make_release(&mut self, place: u32) {
        if self.controller.release(place).is_ok() {
            let period = self.controller.table().entries()[place as usize].period;
            self.free_at[place as usize] = self.clock() + period;
        }
    }

    fn make_close(&mut self) {
        if !self.tokens.is_empty() {
            let good = self.tokens.iter().position(Token::is_good);
            let token = self.tokens.remove(good.unwrap_or(0));
            let _ = self.controller.close(token);
        }
    }

    pub fn clear(&mut self) {
        self.say("clear", &[]);
    }

    pub fn adopt(&mut self, rule: u32, tasks: &[Task], segments: &[Segment]) {
        if self.rule != rule || self.rng.chance(10) {
            self.say("rule", &[rule]);
        }
        for s in segments {
            self.say("segment", &[s.kind, s.size, s.object, s.amount]);
        }
        for t in tasks {
            self.say("task", &[t.period, t.deadline, t.first, t.count]);
        }
        self.say("adopt", &[]);
    }

    pub fn calls(&self) -> u64 {
        self.calls
    }

    pub fn clock(&self) -> u32 {
        self.controller.clock().unwrap_or(0)
    }

    pub fn is_open(&self) -> bool {
        self.controller.clock().is_some()
    }

    pub fn tokens(&self) -> usize {
        self.tokens.len()
    }

    /// What the latest tick did.
    pub fn latest(&self) -> Option<Ticked> {
        self.latest
    }

    /// How many tasks the table has that is held.
    pub fn places(&self) -> u32 {
        self.controller.table().entries().len() as u32
    }

    /// The witness or, by deadline, the relative deadline of a place.
    pub fn time_of(&self, place: u32) -> u32 {
        let entry = &self.controller.table().entries()[place as usize];
        entry.witness.max(entry.deadline)
    }

    pub fn deadline_of(&self, place: u32) -> u32 {
        self.controller.table().entries()[place as usize].deadline
    }

    pub fn is_free(&self, place: u32) -> bool {
        self.free_at[place as usize] <= self.clock()
    }

    pub fn free_places(&self) -> Vec<u32> {
        (0..self.places()).filter(|&i| self.is_free(i)).collect()
    }

    /// Ticks until the next place can be released; 1 if one can be now.
    pub fn ticks_to_free(&self) -> u32 {
        let places = self.places() as usize;
        let next = self.free_at[..places].iter().min().copied().unwrap_or(0);
        next.saturating_sub(self.clock()).max(1)
    }
}
