//! The controller: one table, one shelf, and at most one open batch.

use crate::admission::Demand;
use crate::batch::{Batch, Sums, Ticked, Token};
use crate::refusal::Refusal;
use crate::shelf::Shelf;
use crate::table::{Segment, Table, Task};

#[derive(Clone, Debug)]
pub struct Controller<S: Shelf> {
    shelf: S,
    table: Table,
    batch: Option<Batch>,
}

impl<S: Shelf> Controller<S> {
    pub fn new(shelf: S) -> Self {
        Controller {
            shelf,
            table: Table::empty(),
            batch: None,
        }
    }

    /// Takes a table if it passes: answers the greatest witness, or the hyperperiod by deadline.
    pub fn adopt(
        &mut self,
        rule: u32,
        tasks: &mut [Task],
        segments: &[Segment],
    ) -> Result<u32, Refusal> {
        if self.batch.is_some() {
            return Err(Refusal::BatchOpen);
        }
        let (table, answer) = Table::adopt(rule, tasks, segments, &self.shelf)?;
        self.table = table;
        Ok(answer)
    }

    /// Opens a batch. The token has to be handed in, good or void.
    pub fn open(&mut self) -> (Result<(), Refusal>, Token) {
        if self.batch.is_some() {
            return (Err(Refusal::AlreadyOpen), Token::new(false));
        }
        self.batch = Some(Batch::new());
        (Ok(()), Token::new(true))
    }

    /// Releases a job and answers its absolute deadline.
    pub fn release(&mut self, place: u32) -> Result<u32, Refusal> {
        let batch = self.batch.as_mut().ok_or(Refusal::NoBatch)?;
        batch.release(&self.table, place)
    }

    /// Lets the most urgent pending job work for a tick.
    pub fn tick(&mut self) -> Result<Ticked, Refusal> {
        let batch = self.batch.as_mut().ok_or(Refusal::NoBatch)?;
        batch.tick(&self.table, &mut self.shelf)
    }

    /// Ends the batch; pending jobs are dropped. The token is spent either way.
    pub fn close(&mut self, token: Token) -> Result<Sums, Refusal> {
        if !token.is_good() {
            return Err(Refusal::VoidToken);
        }
        let batch = self.batch.take().ok_or(Refusal::NoBatch)?;
        Ok(batch.sums())
    }

    pub fn read(&self, object: u32) -> Result<u32, Refusal> {
        if self.shelf.has(object) {
            Ok(self.shelf.look(object))
        } else {
            Err(Refusal::NoObject)
        }
    }

    pub fn demand(&self, place: u32, t: u32) -> Result<Demand, Refusal> {
        self.table.demand(place, t)
    }

    pub fn shelf(&self) -> &S {
        &self.shelf
    }

    pub fn table(&self) -> &Table {
        &self.table
    }

    /// The clock of the open batch.
    pub fn clock(&self) -> Option<u32> {
        self.batch.as_ref().map(Batch::clock)
    }
}

#[cfg(test)]
mod tests {
    use super::*;
    use crate::batch::Event;
    use crate::shelf::{Cell, Pair, Queue};

    fn task(period: u32, deadline: u32, first: u32, count: u32) -> Task {
        Task {
            period,
            deadline,
            first,
            count,
            ..Task::default()
        }
    }

    fn segment(kind: u32, size: u32, object: u32, amount: u32) -> Segment {
        Segment {
            kind,
            size,
            object,
            amount,
        }
    }

    fn segments_of_a() -> [Segment; 4] {
        [
            segment(2, 0, 0, 1),
            segment(0, 1, 0, 0),
            segment(0, 1, 0, 0),
            segment(2, 3, 0, 10),
        ]
    }

    /// The answer of a new controller, and ranks and witnesses.
    fn decide(
        rule: u32,
        tasks: &[Task],
        segments: &[Segment],
    ) -> (Result<u32, Refusal>, Vec<(u32, u32)>) {
        let mut tasks = tasks.to_vec();
        let answer = Controller::new(Cell::new(0)).adopt(rule, &mut tasks, segments);
        (answer, tasks.iter().map(|t| (t.rank, t.witness)).collect())
    }

    #[test]
    fn table_a_by_rank() {
        let tasks = [task(5, 5, 0, 2), task(20, 15, 2, 2)];
        let taken = decide(1, &tasks, &segments_of_a());
        assert_eq!(taken, (Ok(15), vec![(0, 2), (1, 15)]));

        let tasks = [task(5, 5, 0, 2), task(20, 14, 2, 2)];
        let (answer, stamps) = decide(1, &tasks, &segments_of_a());
        assert_eq!(answer, Err(Refusal::Unschedulable { detail: 1 }));
        assert_eq!(stamps, [(0, 0), (0, 0)]);
    }

    #[test]
    fn table_a_by_deadline() {
        let tasks = [task(5, 5, 0, 2), task(25, 25, 2, 2)];
        assert_eq!(decide(3, &tasks, &segments_of_a()).0, Ok(25));
        let tasks = [task(5, 5, 0, 2), task(20, 20, 2, 2)];
        let refused = decide(3, &tasks, &segments_of_a()).0;
        assert_eq!(refused, Err(Refusal::Overload));
    }

    #[test]
    fn demand_of_table_a() {
        let mut controller = Controller::new(Cell::new(0));
        assert_eq!(controller.demand(0, 1), Err(Refusal::NoPlace));
        let mut tasks = [task(5, 5, 0, 2), task(20, 15, 2, 2)];
        assert_eq!(controller.adopt(1, &mut tasks, &segments_of_a()), Ok(15));
        let demand = |work, charge| Ok(Demand { work, charge });
        assert_eq!(controller.demand(1, 15), demand(9, 6));
        assert_eq!(controller.demand(0, 2), demand(2, 0));
        assert_eq!(controller.demand(1, 0), Err(Refusal::TimeRange));
        assert_eq!(controller.demand(2, 0), Err(Refusal::NoPlace));

        let mut tasks = [task(5, 5, 0, 2), task(25, 25, 2, 2)];
        assert_eq!(controller.adopt(3, &mut tasks, &segments_of_a()), Ok(25));
        assert_eq!(controller.demand(0, 25), demand(13, 8));
        assert_eq!(controller.demand(1, 25), demand(13, 8));
    }

    #[test]
    fn two_tasks_that_compute() {
        let two = [segment(0, 2, 0, 0)];
        let tasks = [task(10, 2, 0, 1), task(10, 3, 0, 1)];
        let late = Refusal::Unschedulable { detail: 3 };
        assert_eq!(decide(3, &tasks, &two).0, Err(late));
        let tasks = [task(10, 2, 0, 1), task(10, 4, 0, 1)];
        assert_eq!(decide(3, &tasks, &two).0, Ok(10));
        let tasks = [task(10, 9, 0, 1), task(20, 5, 0, 1)];
        assert_eq!(decide(2, &tasks, &two), (Ok(4), vec![(1, 4), (0, 2)]));
    }

    #[test]
    fn long_hyperperiod() {
        let tasks = [task(1_000_000, 1, 0, 1), task(999_999, 1, 0, 1)];
        let refused = decide(3, &tasks, &[segment(0, 1, 0, 0)]).0;
        assert_eq!(refused, Err(Refusal::LongHyperperiod));
    }

    fn ticks_of_a() -> [Result<Ticked, Refusal>; 7] {
        let object = 0;
        let events = [
            (1, Event::Computed, false),
            (1, Event::Attempted, false),
            (0, Event::Committed { object, word: 1 }, false),
            (0, Event::Computed, true),
            (1, Event::Retried { object }, false),
            (1, Event::Attempted, false),
            (1, Event::Committed { object, word: 11 }, true),
        ];
        events.map(|(place, event, finished)| {
            Ok(Ticked {
                place,
                event,
                finished,
            })
        })
    }

    #[test]
    fn run_of_table_a() {
        let mut controller = Controller::new(Pair::new(Cell::new(0), Queue::new()));
        let mut tasks = [task(5, 5, 0, 2), task(20, 15, 2, 2)];
        assert_eq!(controller.adopt(1, &mut tasks, &segments_of_a()), Ok(15));
        let (opened, token) = controller.open();
        assert_eq!(opened, Ok(()));
        assert_eq!(controller.release(1), Ok(15));
        assert_eq!(controller.release(1), Err(Refusal::TooSoon));
        let mut told = vec![controller.tick(), controller.tick()];
        assert_eq!(controller.release(0), Ok(7));
        told.extend((0..5).map(|_| controller.tick()));
        assert_eq!(told, ticks_of_a());
        assert_eq!(controller.read(0), Ok(11));
        let sums = Sums {
            ticks: 7,
            releases: 2,
            finished: 2,
            pending: 0,
            retries: 1,
            preemptions: 1,
        };
        assert_eq!(controller.close(token), Ok(sums));
    }

    #[test]
    fn tokens() {
        let mut controller = Controller::new(Cell::new(0));
        assert_eq!(controller.tick(), Err(Refusal::NoBatch));
        let (_, good) = controller.open();
        let (again, void) = controller.open();
        assert_eq!(again, Err(Refusal::AlreadyOpen));
        assert_eq!(controller.close(void), Err(Refusal::VoidToken));
        assert_eq!(controller.adopt(1, &mut [], &[]), Err(Refusal::BatchOpen));
        assert!(controller.close(good).is_ok());
        assert_eq!(controller.clock(), None);
    }
}
