//! Memory that a call is lent: a buffer between two margins, all filled with bytes that no call writes by habit. Two of
//! them are equal if every byte is, in the buffer and around it.

use crate::random::Random;

/// A margin has up to this many places, so that buffers of bytes start at every alignment.
const WIDEST: usize = 16;

/// Bytes, or numbers of eight bytes. By default nothing is lent.
#[derive(Clone, PartialEq, Eq, Debug, Default)]
pub struct Lent<T = u8> {
    all: Vec<T>,
    from: usize,
    to: usize,
}

/// What a buffer may hold.
pub trait Content: Copy + PartialEq {
    /// No byte of it is zero.
    fn drawn(r: &mut Random) -> Self;
}

impl Content for u8 {
    fn drawn(r: &mut Random) -> u8 {
        r.between(1, 255) as u8
    }
}

impl Content for u64 {
    fn drawn(r: &mut Random) -> u64 {
        r.word() | 0x0101_0101_0101_0101
    }
}

/// Other bytes at every place and in every call, and no zeros among them.
pub fn pattern<T: Content>(r: &mut Random, size: usize) -> Vec<T> {
    (0..size).map(|_| T::drawn(r)).collect()
}

impl<T: Content> Lent<T> {
    /// A buffer of this size whose content does not matter.
    pub fn of_size(r: &mut Random, size: usize) -> Lent<T> {
        let content = pattern(r, size);
        Lent::holding(r, &content)
    }

    pub fn holding(r: &mut Random, content: &[T]) -> Lent<T> {
        let (before, behind) = (r.between(1, WIDEST), r.between(1, WIDEST));
        let mut all = pattern(r, before);
        all.extend_from_slice(content);
        all.extend(pattern::<T>(r, behind));
        Lent { all, from: before, to: before + content.len() }
    }

    pub fn content(&self) -> &[T] {
        &self.all[self.from..self.to]
    }

    pub fn content_mut(&mut self) -> &mut [T] {
        &mut self.all[self.from..self.to]
    }

    /// The first place that differs, counted from the buffer's start: below 0 in the margin before it.
    pub fn difference(&self, other: &Lent<T>) -> Option<isize> {
        let at = self.all.iter().zip(&other.all).position(|(a, b)| a != b)?;
        Some(at as isize - self.from as isize)
    }

    /// Makes this one equal to the other, with the same margins.
    pub fn become_like(&mut self, other: &Lent<T>) {
        self.all.copy_from_slice(&other.all);
    }
}
