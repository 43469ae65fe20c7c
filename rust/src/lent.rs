//! Memory that is lent to an entry point, with guard values around it.

use crate::random::Random;
use std::fmt::Debug;

/// A piece of memory with guard values before and behind.
#[derive(Clone, PartialEq)]
pub struct Lent<T> {
    whole: Vec<T>,
    from: usize,
    to: usize,
}

impl<T: Copy + PartialEq + Debug> Lent<T> {
    pub fn new(rng: &mut Random, contents: &[T], guard: fn(&mut Random) -> T) -> Lent<T> {
        let from = 8 + rng.below(8);
        let mut whole: Vec<T> = (0..from).map(|_| guard(rng)).collect();
        whole.extend_from_slice(contents);
        whole.extend((0..16).map(|_| guard(rng)));
        Lent { whole, from, to: from + contents.len() }
    }

    pub fn part(&self) -> &[T] {
        &self.whole[self.from..self.to]
    }

    pub fn part_mut(&mut self) -> &mut [T] {
        &mut self.whole[self.from..self.to]
    }

    pub fn show(&self, name: &str) -> String {
        let size = self.part().len();
        let shown = size.min(3_000);
        let rest = if shown < size { " and so on" } else { "" };
        format!("{name} ({size} long): {:?}{rest}\n", &self.part()[..shown])
    }

    /// Where and how this differs from what is expected.
    pub fn differs(&self, expected: &Lent<T>, name: &str) -> String {
        match (0..self.whole.len()).find(|&at| self.whole[at] != expected.whole[at]) {
            None => String::new(),
            Some(at) => format!(
                "{name}: {:?} instead of {:?} at index {}{}\n",
                self.whole[at],
                expected.whole[at],
                at as isize - self.from as isize,
                if at < self.from || at >= self.to { ", a guard value" } else { "" }
            ),
        }
    }
}
