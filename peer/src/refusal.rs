//! The "no" that a call can be answered with.

/// The first question of a call that was answered "no".
#[derive(Clone, Copy, Debug, PartialEq, Eq)]
pub enum Refusal {
    BatchOpen,
    TaskCount,
    UnknownRule,
    PeriodOrDeadline {
        place: u32,
    },
    SegmentRange {
        place: u32,
    },
    KindOrSize {
        place: u32,
    },
    AccessObject {
        place: u32,
    },
    LongHyperperiod,
    Overload,
    /// By rank the place of the task that fails, by deadline the time.
    Unschedulable {
        detail: u32,
    },
    AlreadyOpen,
    NoBatch,
    NoPlace,
    TooSoon,
    Unfinished,
    ClockEnd,
    VoidToken,
    TimeRange,
    NoObject,
}

impl Refusal {
    pub fn number(self) -> u32 {
        match self {
            Refusal::BatchOpen => 11,
            Refusal::TaskCount => 12,
            Refusal::UnknownRule => 13,
            Refusal::PeriodOrDeadline { .. } => 14,
            Refusal::SegmentRange { .. } => 15,
            Refusal::KindOrSize { .. } => 16,
            Refusal::AccessObject { .. } => 17,
            Refusal::LongHyperperiod => 18,
            Refusal::Overload => 19,
            Refusal::Unschedulable { .. } => 20,
            Refusal::AlreadyOpen => 21,
            Refusal::NoBatch => 31,
            Refusal::NoPlace => 32,
            Refusal::TooSoon => 33,
            Refusal::Unfinished => 34,
            Refusal::ClockEnd => 35,
            Refusal::VoidToken => 36,
            Refusal::TimeRange => 37,
            Refusal::NoObject => 38,
        }
    }

    /// A place or a time where the refusal has one, else 0.
    pub fn detail(self) -> u32 {
        match self {
            Refusal::PeriodOrDeadline { place }
            | Refusal::SegmentRange { place }
            | Refusal::KindOrSize { place }
            | Refusal::AccessObject { place } => place,
            Refusal::Unschedulable { detail } => detail,
            _ => 0,
        }
    }
}
