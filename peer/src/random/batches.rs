//! Batches: releases early, late and all at once, and calls that are refused in between.

use super::Writer;
use crate::batch::Event;

/// When jobs are released.
#[derive(Clone, Copy, Debug)]
enum Pace {
    /// Each place as soon as it can be.
    Early,
    /// Everything that can be at once, then ticks for a while.
    Together,
    /// Another place while an attempt is under way.
    IntoAttempts,
    /// Any place at any time.
    Anyhow,
    /// A free place now and then.
    Late,
}

const PACES: [Pace; 7] = [
    Pace::Early,
    Pace::Early,
    Pace::Together,
    Pace::IntoAttempts,
    Pace::IntoAttempts,
    Pace::Anyhow,
    Pace::Late,
];

/// Opens a batch and makes about so many calls in it; leaves it open now and then.
pub fn run_batch(writer: &mut Writer, calls: u64) {
    if writer.rng.chance(5) {
        refused_call(writer);
    }
    if !writer.is_open() || writer.rng.chance(30) {
        writer.say("open", &[]);
    }
    // Without a table all ticks are idle.
    let most = if writer.places() == 0 { 8 } else { calls };
    let end = writer.calls() + most;
    let mut pace = writer.rng.pick(&PACES);
    let disturbance = writer.rng.pick(&[0, 3, 10]);
    while writer.calls() < end {
        if writer.rng.chance(2) {
            pace = writer.rng.pick(&PACES);
        }
        if !writer.is_open() && writer.rng.chance(40) {
            writer.say("open", &[]);
        }
        if writer.rng.chance(disturbance) {
            refused_call(writer);
        }
        step(writer, pace);
        if is_dull(writer) && writer.rng.chance(50) {
            break;
        }
    }
    leave_batch(writer);
}

/// Whether nothing is pending and nothing can be released for long.
fn is_dull(writer: &Writer) -> bool {
    is_idle(writer) && (writer.places() == 0 || writer.ticks_to_free() > 40)
}

fn is_idle(writer: &Writer) -> bool {
    let latest = writer.latest();
    latest.is_some_and(|ticked| ticked.event == Event::Idle)
}

fn leave_batch(writer: &mut Writer) {
    for object in 0..2 {
        if writer.rng.chance(40) {
            writer.say("read", &[object]);
        }
    }
    if writer.rng.chance(15) {
        writer.say("chart", &[]);
    }
    if writer.rng.chance(85) {
        writer.say("close", &[]);
        if writer.rng.chance(25) {
            writer.say("chart", &[]);
        }
    }
}

/// Hands in all tokens, and sometimes asks for one more.
pub fn hand_in_all(writer: &mut Writer) {
    while writer.tokens() > 0 {
        writer.say("close", &[]);
    }
    if writer.rng.chance(30) {
        writer.say("close", &[]);
    }
}

fn step(writer: &mut Writer, pace: Pace) {
    match pace {
        Pace::Early => early(writer),
        Pace::Together => together(writer),
        Pace::IntoAttempts => into_attempts(writer),
        Pace::Anyhow => anyhow(writer),
        Pace::Late => late(writer),
    }
}

fn early(writer: &mut Writer) {
    let mut free = writer.free_places();
    if writer.rng.chance(20) {
        free.reverse();
    }
    for place in free {
        writer.say("release", &[place]);
    }
    let ticks = writer.ticks_to_free().min(20);
    tick(writer, ticks);
}

fn together(writer: &mut Writer) {
    for place in writer.free_places() {
        writer.say("release", &[place]);
    }
    let ticks = writer.rng.between(1, 40);
    tick(writer, ticks);
}

/// Short deadlines wait until an attempt is under way that they can spoil.
fn into_attempts(writer: &mut Writer) {
    let under_way = matches!(
        writer.latest().map(|ticked| ticked.event),
        Some(Event::Attempted)
    );
    let mut free = writer.free_places();
    free.sort_by_key(|&place| writer.deadline_of(place));
    let (wish, extreme) = if under_way {
        (60, free.first().copied())
    } else {
        (35, free.last().copied())
    };
    if let (Some(extreme), true) = (extreme, writer.rng.chance(wish)) {
        let any = writer.rng.pick(&free);
        let place = writer.rng.pick(&[extreme, extreme, any]);
        writer.say("release", &[place]);
    }
    tick(writer, 1);
}

fn anyhow(writer: &mut Writer) {
    let places = writer.places();
    if places > 0 && writer.rng.chance(40) {
        let place = writer.rng.between(0, places - 1);
        writer.say("release", &[place]);
    } else {
        let ticks = writer.rng.pick(&[1, 1, 1, 2, 3, 7]);
        tick(writer, ticks);
    }
}

fn late(writer: &mut Writer) {
    let free = writer.free_places();
    if !free.is_empty() && writer.rng.chance(30) {
        let place = writer.rng.pick(&free);
        writer.say("release", &[place]);
    }
    let ticks = writer.rng.between(1, 6);
    tick(writer, ticks);
}

/// Fewer ticks if nothing would happen in them.
fn tick(writer: &mut Writer, ticks: u32) {
    let ticks = if is_idle(writer) && writer.places() > 0 && writer.rng.chance(60) {
        writer.ticks_to_free().min(ticks)
    } else {
        ticks
    };
    if ticks == 1 && writer.rng.chance(80) {
        writer.say("tick", &[]);
    } else {
        writer.say("tick", &[ticks]);
    }
}

/// A call that is mostly refused, whether or not a batch is open.
fn refused_call(writer: &mut Writer) {
    let places = writer.places();
    match writer.rng.below(12) {
        0 => writer.say("adopt", &[]),
        1 => writer.say("open", &[]),
        2 => {
            let place = writer.rng.pick(&[places, places + 1, 32, u32::MAX]);
            writer.say("release", &[place]);
        }
        3 | 4 => release_too_soon(writer),
        5 => {
            let object = writer.rng.pick(&[2, 3, 65_535, 65_536, u32::MAX]);
            writer.say("read", &[object]);
        }
        6 => {
            let time = writer.rng.pick(&[0, 1, 1_000_000, 1_000_001, u32::MAX]);
            let place = writer.rng.pick(&[0, places.saturating_sub(1), places]);
            writer.say("demand", &[place, time]);
        }
        7 => writer.say("close", &[]),
        8 => writer.say("tick", &[0]),
        9 => writer.say("tick", &[1]),
        10 => writer.say("chart", &[]),
        _ => {
            let object = writer.rng.between(0, 1);
            writer.say("read", &[object]);
        }
    }
}

fn release_too_soon(writer: &mut Writer) {
    let busy: Vec<u32> = (0..writer.places())
        .filter(|&place| !writer.is_free(place))
        .collect();
    if !busy.is_empty() {
        let place = writer.rng.pick(&busy);
        writer.say("release", &[place]);
    }
}
