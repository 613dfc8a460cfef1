//! The proved controller, by the functions that its crate `bench` exports.

use peer::{Segment, Task};

/// The task record as the library has it.
#[repr(C)]
#[derive(Clone, Copy)]
struct TaskRecord {
    period: u32,
    deadline: u32,
    first: u32,
    count: u32,
    rank: u32,
    witness: u32,
}

#[repr(C)]
#[derive(Clone, Copy)]
struct SegmentRecord {
    kind: u32,
    size: u32,
    object: u32,
    amount: u32,
}

// A slice is a pointer and then a length.
extern "C" {
    fn bench_controller_bytes() -> usize;
    fn bench_adoptions(
        rule: u32,
        tasks: *mut TaskRecord,
        task_count: usize,
        segments: *const SegmentRecord,
        segment_count: usize,
        rounds: u32,
    ) -> u64;
    fn bench_ticks(
        rule: u32,
        tasks: *mut TaskRecord,
        task_count: usize,
        segments: *const SegmentRecord,
        segment_count: usize,
        period: u32,
        ticks: u32,
    ) -> u64;
}

/// A table in the library's records.
pub struct Records {
    tasks: Vec<TaskRecord>,
    segments: Vec<SegmentRecord>,
}

impl Records {
    pub fn of(tasks: &[Task], segments: &[Segment]) -> Records {
        Records {
            tasks: tasks.iter().map(task_record).collect(),
            segments: segments.iter().map(segment_record).collect(),
        }
    }

    pub fn adoptions(&mut self, rule: u32, rounds: u32) -> u64 {
        let (tasks, segments) = (&mut self.tasks, &self.segments);
        // SAFETY: both pointers go with the lengths of live vectors, and the call keeps neither.
        unsafe {
            bench_adoptions(
                rule,
                tasks.as_mut_ptr(),
                tasks.len(),
                segments.as_ptr(),
                segments.len(),
                rounds,
            )
        }
    }

    pub fn ticks(&mut self, rule: u32, period: u32, ticks: u32) -> u64 {
        let (tasks, segments) = (&mut self.tasks, &self.segments);
        // SAFETY: as above.
        unsafe {
            bench_ticks(
                rule,
                tasks.as_mut_ptr(),
                tasks.len(),
                segments.as_ptr(),
                segments.len(),
                period,
                ticks,
            )
        }
    }
}

pub fn controller_bytes() -> usize {
    // SAFETY: the function takes and touches nothing.
    unsafe { bench_controller_bytes() }
}

fn task_record(task: &Task) -> TaskRecord {
    TaskRecord {
        period: task.period,
        deadline: task.deadline,
        first: task.first,
        count: task.count,
        rank: task.rank,
        witness: task.witness,
    }
}

fn segment_record(segment: &Segment) -> SegmentRecord {
    SegmentRecord {
        kind: segment.kind,
        size: segment.size,
        object: segment.object,
        amount: segment.amount,
    }
}
