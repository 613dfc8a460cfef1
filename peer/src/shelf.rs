//! Shelves: the objects that jobs share without locks.

/// What the controller asks of shared objects.
pub trait Shelf {
    /// Whether the object exists.
    fn has(&self, object: u32) -> bool;

    /// The object's reading; 0 if it does not exist.
    fn look(&self, object: u32) -> u32;

    /// Applies a word if the object exists and still has the given reading.
    fn commit(&mut self, object: u32, reading: u32, word: u32) -> bool;
}

/// The whole content of an object, for those who check a shelf from outside.
pub trait Contents {
    /// The content as a list of numbers; empty if the object does not exist.
    fn content(&self, object: u32) -> Vec<u32>;
}

/// One number, as object 0.
#[derive(Clone, Debug)]
pub struct Cell {
    value: u32,
}

impl Cell {
    pub fn new(value: u32) -> Self {
        Cell { value }
    }
}

impl Shelf for Cell {
    fn has(&self, object: u32) -> bool {
        object == 0
    }

    fn look(&self, object: u32) -> u32 {
        if object == 0 {
            self.value
        } else {
            0
        }
    }

    fn commit(&mut self, object: u32, reading: u32, word: u32) -> bool {
        let accepted = object == 0 && reading == self.value;
        if accepted {
            self.value = word;
        }
        accepted
    }
}

impl Contents for Cell {
    fn content(&self, object: u32) -> Vec<u32> {
        if object == 0 {
            vec![self.value]
        } else {
            Vec::new()
        }
    }
}

/// How many words can wait in a queue.
pub const QUEUE_ROOM: usize = 64;

/// A queue of words, as object 0; a ring, so that removing moves nothing.
#[derive(Clone, Debug)]
pub struct Queue {
    missed: u32,
    words: [u32; QUEUE_ROOM],
    oldest: usize,
    waiting: usize,
}

impl Default for Queue {
    fn default() -> Self {
        Self::new()
    }
}

impl Queue {
    pub fn new() -> Self {
        Queue {
            missed: 0,
            words: [0; QUEUE_ROOM],
            oldest: 0,
            waiting: 0,
        }
    }

    fn apply(&mut self, word: u32) {
        if word == 0 {
            self.remove_oldest();
        } else if self.waiting < QUEUE_ROOM {
            self.words[(self.oldest + self.waiting) % QUEUE_ROOM] = word;
            self.waiting += 1;
        } else {
            self.missed = self.missed.saturating_add(1);
        }
    }

    fn remove_oldest(&mut self) {
        if self.waiting > 0 {
            self.oldest = (self.oldest + 1) % QUEUE_ROOM;
            self.waiting -= 1;
        }
    }
}

impl Shelf for Queue {
    fn has(&self, object: u32) -> bool {
        object == 0
    }

    fn look(&self, object: u32) -> u32 {
        if object == 0 {
            self.waiting as u32
        } else {
            0
        }
    }

    fn commit(&mut self, object: u32, reading: u32, word: u32) -> bool {
        let accepted = object == 0 && reading == self.waiting as u32;
        if accepted {
            self.apply(word);
        }
        accepted
    }
}

impl Contents for Queue {
    fn content(&self, object: u32) -> Vec<u32> {
        if object != 0 {
            return Vec::new();
        }
        let mut content = vec![self.missed];
        content.extend((0..self.waiting).map(|i| self.words[(self.oldest + i) % QUEUE_ROOM]));
        content
    }
}

/// The greatest number that an object can have.
pub const MAX_OBJECT: u32 = 65_535;

/// Two shelves side by side: even numbers name the first, odd ones the second.
#[derive(Clone, Debug)]
pub struct Pair<A, B> {
    first: A,
    second: B,
}

impl<A, B> Pair<A, B> {
    pub fn new(first: A, second: B) -> Self {
        Pair { first, second }
    }
}

impl<A: Shelf, B: Shelf> Shelf for Pair<A, B> {
    fn has(&self, object: u32) -> bool {
        if object > MAX_OBJECT {
            false
        } else if object.is_multiple_of(2) {
            self.first.has(object / 2)
        } else {
            self.second.has(object / 2)
        }
    }

    fn look(&self, object: u32) -> u32 {
        if object > MAX_OBJECT {
            0
        } else if object.is_multiple_of(2) {
            self.first.look(object / 2)
        } else {
            self.second.look(object / 2)
        }
    }

    fn commit(&mut self, object: u32, reading: u32, word: u32) -> bool {
        if object > MAX_OBJECT {
            false
        } else if object.is_multiple_of(2) {
            self.first.commit(object / 2, reading, word)
        } else {
            self.second.commit(object / 2, reading, word)
        }
    }
}

impl<A: Contents, B: Contents> Contents for Pair<A, B> {
    fn content(&self, object: u32) -> Vec<u32> {
        if object > MAX_OBJECT {
            Vec::new()
        } else if object.is_multiple_of(2) {
            self.first.content(object / 2)
        } else {
            self.second.content(object / 2)
        }
    }
}

#[cfg(test)]
mod tests {
    use super::*;

    #[test]
    fn full_queue_counts_what_it_misses() {
        let mut queue = Queue::new();
        for reading in 0..64 {
            assert!(queue.commit(0, reading, reading + 1));
        }
        assert!(!queue.commit(0, 63, 7));
        assert!(queue.commit(0, 64, 7));
        let content = queue.content(0);
        assert_eq!(content[0], 1);
        assert_eq!(content[1..], (1..=64).collect::<Vec<u32>>());
        assert_eq!(queue.look(0), 64);
    }

    #[test]
    fn queue_keeps_order_over_the_end_of_its_ring() {
        let mut queue = Queue::new();
        for word in 1..=200 {
            assert!(queue.commit(0, queue.look(0), word));
            if word > 3 {
                assert!(queue.commit(0, queue.look(0), 0));
            }
        }
        assert_eq!(queue.content(0), [0, 198, 199, 200]);
        assert!(Queue::new().commit(0, 0, 0));
    }

    #[test]
    fn nested_pairs_number_their_objects() {
        let mut shelf = Pair::new(Cell::new(4), Pair::new(Queue::new(), Cell::new(9)));
        let found: Vec<u32> = (0..100_000).filter(|&k| shelf.has(k)).collect();
        assert_eq!(found, [0, 1, 3]);
        assert_eq!([shelf.look(0), shelf.look(1), shelf.look(3)], [4, 0, 9]);
        assert!(shelf.commit(3, 9, 10));
        assert!(!shelf.commit(5, 0, 10));
        assert_eq!(shelf.content(3), [10]);
        assert!(!shelf.has(65_536) && shelf.look(65_536) == 0);
    }
}
