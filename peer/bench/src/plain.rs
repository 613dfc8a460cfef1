//! The same loops of calls on the peer.

use peer::{Cell, Controller, Pair, Queue, Refusal, Segment, Task, Ticked};

type Plain = Controller<Pair<Cell, Queue>>;

fn new_controller() -> Plain {
    Controller::new(Pair::new(Cell::new(0), Queue::new()))
}

pub fn controller_bytes() -> usize {
    std::mem::size_of::<Plain>()
}

#[inline(never)]
pub fn adoptions(rule: u32, tasks: &mut [Task], segments: &[Segment], rounds: u32) -> u64 {
    let mut controller = new_controller();
    let mut sum: u64 = 0;
    for _ in 0..rounds {
        let answer = match controller.adopt(rule, tasks, segments) {
            Ok(answer) => answer,
            Err(refusal) => refusal.number(),
        };
        sum = sum.wrapping_add(u64::from(answer));
    }
    sum
}

fn with_tick(sum: u64, tick: Result<Ticked, Refusal>) -> u64 {
    let told = match tick {
        Ok(tick) => {
            u64::from(tick.event.number()) + u64::from(tick.event.word()) + u64::from(tick.place)
        }
        Err(refusal) => u64::from(refusal.number()),
    };
    sum.wrapping_mul(31).wrapping_add(told)
}

#[inline(never)]
pub fn ticks(
    rule: u32,
    tasks: &mut [Task],
    segments: &[Segment],
    period: u32,
    ticks: u32,
) -> u64 {
    let mut controller = new_controller();
    let _ = controller.adopt(rule, tasks, segments);
    let (_opened, token) = controller.open();
    let places = tasks.len().min(32) as u32;
    let mut due = 0;
    let mut left: u32 = 0;
    let mut sum: u64 = 0;
    for _ in 0..ticks {
        if left == 0 {
            left = period;
            due = places;
        }
        left = left.saturating_sub(1);
        if due > 0 {
            due -= 1;
            let _ = controller.release(due);
        }
        sum = with_tick(sum, controller.tick());
    }
    match controller.close(token) {
        Ok(sums) => sum.wrapping_add(u64::from(sums.retries)),
        Err(refusal) => u64::from(refusal.number()),
    }
}
