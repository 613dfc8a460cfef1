//! The lines of a script.

use std::fmt;

use crate::table::{Segment, Task};

/// Every tick is a call.
pub const MAX_CALLS: u64 = 1_000_000;

#[derive(Clone, Copy, Debug, PartialEq, Eq)]
pub enum Line {
    Rule(u32),
    Task(Task),
    Segment(Segment),
    Clear,
    Adopt,
    Open,
    Release(u32),
    Tick(u32),
    Close,
    Read(u32),
    Demand(u32, u32),
    Chart,
}

impl Line {
    /// How many calls the line makes.
    pub fn calls(&self) -> u64 {
        match self {
            Line::Tick(count) => u64::from(*count),
            Line::Adopt
            | Line::Open
            | Line::Release(_)
            | Line::Close
            | Line::Read(_)
            | Line::Demand(..) => 1,
            Line::Rule(_) | Line::Task(_) | Line::Segment(_) | Line::Clear | Line::Chart => 0,
        }
    }
}

/// What is wrong with a line.
#[derive(Clone, Debug, PartialEq, Eq)]
pub enum BadLine {
    UnknownWord(String),
    TooFew {
        word: String,
        given: usize,
        wanted: usize,
    },
    TooMuch {
        word: String,
        left: String,
    },
    NotNumber(String),
    TooManyCalls,
    NotText,
}

impl fmt::Display for BadLine {
    fn fmt(&self, f: &mut fmt::Formatter<'_>) -> fmt::Result {
        match self {
            BadLine::UnknownWord(word) => {
                write!(f, "{word:?} is no word that a line begins with")
            }
            BadLine::TooFew {
                word,
                given,
                wanted,
            } => write!(f, "too few numbers after {word:?}: {given} of {wanted}"),
            BadLine::TooMuch { word, left } => {
                write!(f, "too much after {word:?}: {left:?} is left over")
            }
            BadLine::NotNumber(word) => {
                write!(f, "{word:?} is not a number from 0 to {}", u32::MAX)
            }
            BadLine::TooManyCalls => write!(f, "a script makes at most {MAX_CALLS} calls"),
            BadLine::NotText => write!(f, "stream did not contain valid UTF-8"),
        }
    }
}

/// What a line says; nothing if it is blank.
pub fn parse_line(text: &str) -> Result<Option<Line>, BadLine> {
    let text = text.split('#').next().unwrap_or("");
    let mut words = text.split_whitespace();
    let Some(word) = words.next() else {
        return Ok(None);
    };
    let (least, most) = numbers_of(word).ok_or_else(|| BadLine::UnknownWord(word.into()))?;
    let mut numbers = [0; 4];
    let mut given = 0;
    for argument in words {
        if given == most {
            return Err(BadLine::TooMuch {
                word: word.into(),
                left: argument.into(),
            });
        }
        numbers[given] = number(argument)?;
        given += 1;
    }
    if given < least {
        return Err(BadLine::TooFew {
            word: word.into(),
            given,
            wanted: least,
        });
    }
    Ok(Some(line_of(word, numbers, given)))
}

/// The least and the greatest count of numbers after a word.
fn numbers_of(word: &str) -> Option<(usize, usize)> {
    match word {
        "task" | "segment" => Some((4, 4)),
        "demand" => Some((2, 2)),
        "rule" | "release" | "read" => Some((1, 1)),
        "tick" => Some((0, 1)),
        "clear" | "adopt" | "open" | "close" | "chart" => Some((0, 0)),
        _ => None,
    }
}

fn number(word: &str) -> Result<u32, BadLine> {
    let digits = word.strip_prefix('+').unwrap_or(word);
    let not_number = || BadLine::NotNumber(word.into());
    if digits.is_empty() || !digits.bytes().all(|byte| byte.is_ascii_digit()) {
        return Err(not_number());
    }
    digits.parse().map_err(|_| not_number())
}

fn line_of(word: &str, [a, b, c, d]: [u32; 4], given: usize) -> Line {
    match word {
        "rule" => Line::Rule(a),
        "task" => Line::Task(Task {
            period: a,
            deadline: b,
            first: c,
            count: d,
            ..Task::default()
        }),
        "segment" => Line::Segment(Segment {
            kind: a,
            size: b,
            object: c,
            amount: d,
        }),
        "clear" => Line::Clear,
        "adopt" => Line::Adopt,
        "open" => Line::Open,
        "release" => Line::Release(a),
        "tick" => Line::Tick(if given == 0 { 1 } else { a }),
        "close" => Line::Close,
        "read" => Line::Read(a),
        "demand" => Line::Demand(a, b),
        _ => Line::Chart,
    }
}

#[cfg(test)]
mod tests {
    use super::*;

    #[test]
    fn lines_that_are_good() {
        assert_eq!(parse_line("  # only a comment"), Ok(None));
        assert_eq!(parse_line("read 007#x"), Ok(Some(Line::Read(7))));
        assert_eq!(
            parse_line("\tdemand +1  15\r"),
            Ok(Some(Line::Demand(1, 15)))
        );
        assert_eq!(parse_line("tick"), Ok(Some(Line::Tick(1))));
        assert_eq!(parse_line("tick 0"), Ok(Some(Line::Tick(0))));
    }

    #[test]
    fn lines_that_are_bad() {
        let said = |text| parse_line(text).unwrap_err().to_string();
        let pairs = [
            ("tusk 5", "\"tusk\" is no word that a line begins with"),
            ("task 5 5", "too few numbers after \"task\": 2 of 4"),
            ("read 0 x", "too much after \"read\": \"x\" is left over"),
            ("read x 1", "\"x\" is not a number from 0 to 4294967295"),
            ("read +", "\"+\" is not a number from 0 to 4294967295"),
            ("read -1", "\"-1\" is not a number from 0 to 4294967295"),
            (
                "read 4294967296",
                "\"4294967296\" is not a number from 0 to 4294967295",
            ),
        ];
        for (text, expected) in pairs {
            assert_eq!(said(text), expected);
        }
    }
}
