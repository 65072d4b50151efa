//! Areas between guards, each with a copy of what it must hold.

use std::ops::Range;

use splitmix::Random;

use crate::edges;

/// What stands before and behind an area.
pub trait Guard: Copy + Default + PartialEq {
    const GUARD: Self;
}

impl Guard for u8 {
    const GUARD: u8 = 0xa5;
}

impl Guard for u32 {
    const GUARD: u32 = 0xa5a5_a5a5;
}

/// An area of a fixed length, lent with it or with another one.
pub struct Area<T> {
    /// Guard, area, guard.
    block: Box<[T]>,
    /// What the area must hold.
    copy: Box<[T]>,
    guard: usize,
}

/// A slice as it goes over.
pub struct SliceArg<P> {
    pub at: P,
    pub len: usize,
    /// Whether it has the area's own length.
    pub right: bool,
}

impl<T: Guard> Area<T> {
    /// Zeros, between so many of the guard's.
    pub fn new(len: usize, guard: usize) -> Self {
        let mut block = vec![T::GUARD; len + 2 * guard].into_boxed_slice();
        block[guard..][..len].fill(T::default());
        Self {
            block,
            copy: vec![T::default(); len].into_boxed_slice(),
            guard,
        }
    }

    /// The area's address with its own length or, now and then, another: a
    /// smaller one, one into the guard, or one that no memory has. A call
    /// must refuse these before it reads or writes.
    pub fn lend(&mut self, random: &mut Random) -> SliceArg<*mut T> {
        let own = self.copy.len();
        let len = match random.below(200) {
            0 => random.below(own + 1),
            1 => own - 1,
            2 => own + 1,
            3 => edges::number(random) as usize,
            4 => 0,
            _ => own,
        };
        SliceArg {
            len,
            right: len == own,
            ..self.lend_own()
        }
    }

    /// The area with its own length.
    pub fn lend_own(&mut self) -> SliceArg<*mut T> {
        SliceArg {
            at: self.block[self.guard..].as_mut_ptr(),
            len: self.copy.len(),
            right: true,
        }
    }

    pub fn bytes(&self) -> &[T] {
        &self.block[self.guard..][..self.copy.len()]
    }

    /// Puts what the next call is to find.
    pub fn put(&mut self, at: usize, values: &[T]) {
        self.block[self.guard + at..][..values.len()].copy_from_slice(values);
        self.copy[at..][..values.len()].copy_from_slice(values);
    }

    pub fn guards_intact(&self) -> bool {
        let (front, rest) = self.block.split_at(self.guard);
        let behind = &rest[self.copy.len()..];
        front.iter().chain(behind).all(|value| *value == T::GUARD)
    }

    /// Whether a part of the area is as it must be.
    pub fn holds(&self, part: &Range<usize>) -> bool {
        self.bytes()[part.clone()] == self.copy[part.clone()]
    }

    pub fn all(&self) -> Range<usize> {
        0..self.copy.len()
    }

    /// Takes over what a call that was not refused left in a part.
    pub fn adopt(&mut self, part: &Range<usize>) {
        self.copy[part.clone()].copy_from_slice(&self.block[self.guard..][part.clone()]);
    }
}
