//! The requests that have not gone to the disk yet.

use crate::format::Request;
use crate::refusal::Refusal;
use crate::roster::MOST;

/// So many requests of one application may wait.
pub const LONGEST: usize = 16;

/// A request that was accepted, and its number. Later ones have greater numbers.
#[derive(Clone, Copy, PartialEq, Eq, Debug)]
pub struct Numbered {
    pub number: u64,
    pub request: Request,
}

#[derive(Clone, Copy, PartialEq, Eq, Debug)]
pub enum Order {
    FirstCome,
    CLook,
}

#[derive(Debug)]
pub struct Pool {
    order: Order,
    lines: [Line; MOST],
}

/// First-come takes from the front only, so its line goes round in the slots and nothing is moved.
/// C-LOOK takes from anywhere: the last one fills the hole, and the numbers still say which is older.
#[derive(Clone, Copy, Debug)]
struct Line {
    slots: [Numbered; LONGEST],
    front: usize,
    count: usize,
}

impl Pool {
    pub fn new(order: Order) -> Pool {
        let nothing = Numbered { number: 0, request: Request { first: 0, size: 0, application: 0, synchronous: false } };
        Pool { order, lines: [Line { slots: [nothing; LONGEST], front: 0, count: 0 }; MOST] }
    }

    pub fn put(&mut self, waiting: Numbered) -> Result<(), Refusal> {
        let line = self.lines.get_mut(usize::from(waiting.request.application)).ok_or(Refusal::Application)?;
        if line.count == LONGEST {
            return Err(Refusal::LineFull);
        }
        line.slots[(line.front + line.count) % LONGEST] = waiting;
        line.count += 1;
        Ok(())
    }

    pub fn count(&self, application: usize) -> usize {
        self.lines.get(application).map_or(0, |line| line.count)
    }

    /// The slot of the request that goes next, none exactly when nothing of the application waits.
    pub fn choose(&self, application: usize, head: u64) -> Option<usize> {
        let line = &self.lines[application];
        match (line.count, self.order) {
            (0, _) => None,
            (_, Order::FirstCome) => Some(line.front),
            (_, Order::CLook) => Some(line.next_ahead(head)),
        }
    }

    pub fn size_at(&self, application: usize, slot: usize) -> u16 {
        self.lines[application].slots[slot].request.size
    }

    /// Takes the chosen request out.
    pub fn take(&mut self, application: usize, slot: usize) -> Numbered {
        let line = &mut self.lines[application];
        let taken = line.slots[slot];
        line.count -= 1;
        match self.order {
            Order::FirstCome => line.front = (line.front + 1) % LONGEST,
            Order::CLook => line.slots[slot] = line.slots[line.count],
        }
        taken
    }
}

impl Line {
    /// How far ahead of the head a request begins, counted round the 64-bit numbers: what the head
    /// has passed is then farther than all that lies ahead, and there too the lowest comes first.
    fn next_ahead(&self, head: u64) -> usize {
        let distance = |waiting: &Numbered| waiting.request.first.wrapping_sub(head);
        let waiting = self.slots[..self.count].iter().enumerate();
        waiting.min_by_key(|(_, w)| (distance(w), w.number)).map_or(0, |(slot, _)| slot)
    }
}

#[cfg(test)]
mod tests {
    use super::*;

    fn pool(order: Order, firsts: &[u64]) -> Pool {
        let mut pool = Pool::new(order);
        for (i, &first) in firsts.iter().enumerate() {
            let request = Request { first, size: 8, application: 0, synchronous: false };
            pool.put(Numbered { number: i as u64 + 1, request }).unwrap();
        }
        pool
    }

    fn next(pool: &mut Pool, head: u64) -> Option<(u64, u64)> {
        let slot = pool.choose(0, head)?;
        let taken = pool.take(0, slot);
        Some((taken.request.first, taken.number))
    }

    /// All that waits, the head moving just behind each request.
    fn drain(mut pool: Pool, mut head: u64) -> Vec<u64> {
        let mut sent = Vec::new();
        while let Some((first, _)) = next(&mut pool, head) {
            sent.push(first);
            head = first + 8;
        }
        sent
    }

    /// The figures of "Requests and pools" and of "Trying a workload".
    #[test]
    fn documented_orders() {
        let firsts = [4_000, 5_000, 9_000];
        assert_eq!(next(&mut pool(Order::CLook, &firsts), 5_000), Some((5_000, 2)));
        assert_eq!(next(&mut pool(Order::CLook, &firsts), 9_001), Some((4_000, 1)));
        assert_eq!(drain(pool(Order::FirstCome, &[9_000, 4_000, 5_000]), 5_000), [9_000, 4_000, 5_000]);
        assert_eq!(drain(pool(Order::CLook, &[9_000, 4_000, 5_000]), 5_000), [5_000, 9_000, 4_000]);
    }

    #[test]
    fn where_two_begin_at_the_same_sector_the_older_goes_first() {
        let mut pool = pool(Order::CLook, &[7, 3, 7, 3, 7]);
        let numbers: Vec<_> = std::iter::from_fn(|| next(&mut pool, 4).map(|(_, number)| number)).collect();
        assert_eq!(numbers, [1, 3, 5, 2, 4]);
    }

    #[test]
    fn sixteen_wait_and_no_more() {
        for order in [Order::FirstCome, Order::CLook] {
            let mut pool = pool(order, &[5; 16]);
            let another = Request { first: 1, size: 1, application: 0, synchronous: false };
            assert_eq!(pool.put(Numbered { number: 17, request: another }), Err(Refusal::LineFull));
            let above = Request { application: 16, ..another };
            assert_eq!(pool.put(Numbered { number: 17, request: above }), Err(Refusal::Application));
            assert_eq!((pool.count(0), pool.count(1), pool.count(16)), (16, 0, 0));
            assert_eq!(next(&mut pool, 0), Some((5, 1)));
            assert_eq!(pool.put(Numbered { number: 17, request: another }), Ok(()));
            assert_eq!(next(&mut pool, 2), Some((5, 2)));
        }
    }
}
