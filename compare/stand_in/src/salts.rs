//! The salts that the clock hands out.

use std::collections::VecDeque;

use splitmix::mix;

/// Queued salts come first, in order. The n-th draw of all (n from 1) that
/// finds the queue empty is the low half of `mix(n)`: no call needs a salt,
/// yet every run is the same.
#[derive(Debug, Clone, Default, PartialEq, Eq)]
pub struct Salts {
    queue: VecDeque<u32>,
    draws: u64,
}

impl Salts {
    pub fn queue(&mut self, salt: u32) {
        self.queue.push_back(salt);
    }

    /// The salt that the next draw gives.
    pub fn peek(&self) -> u32 {
        match self.queue.front() {
            Some(salt) => *salt,
            None => mix(self.draws + 1) as u32,
        }
    }

    pub fn draw(&mut self) -> u32 {
        let salt = self.peek();
        self.queue.pop_front();
        self.draws += 1;
        salt
    }
}

#[cfg(test)]
mod tests {
    use super::*;

    #[test]
    fn queued_salts_come_first_and_count_as_draws() {
        let mut salts = Salts::default();
        salts.queue(7);
        salts.queue(0);
        assert_eq!(salts.draw(), 7);
        assert_eq!(salts.draw(), 0);
        assert_eq!(salts.peek(), mix(3) as u32);
        assert_eq!(salts.draw(), mix(3) as u32);
        salts.queue(9);
        assert_eq!(salts.draw(), 9);
        assert_eq!(salts.draw(), mix(5) as u32);
    }
}
