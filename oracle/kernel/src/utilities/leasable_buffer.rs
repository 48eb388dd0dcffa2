//! `SubSliceMut`: a whole slice with an active range inside it.
//!
//! The range narrows with `slice`, relative to what is active, and never widens but by
//! `reset`. The length that a frame write's read buffer has rests on exactly this.

use std::cmp::min;
use std::ops::{Bound, Index, IndexMut, Range, RangeBounds};
use std::slice::SliceIndex;

#[derive(Debug, PartialEq, Eq)]
pub struct SubSliceMut<'a, T> {
    internal: &'a mut [T],
    active_range: Range<usize>,
}

impl<'a, T> From<&'a mut [T]> for SubSliceMut<'a, T> {
    fn from(internal: &'a mut [T]) -> Self {
        let active_range = 0..internal.len();
        SubSliceMut {
            internal,
            active_range,
        }
    }
}

impl<'a, T> SubSliceMut<'a, T> {
    /// Makes the whole slice active again.
    pub fn reset(&mut self) {
        self.active_range = 0..self.internal.len();
    }

    /// The length of the active range.
    pub fn len(&self) -> usize {
        self.active_range.len()
    }

    pub fn is_empty(&self) -> bool {
        self.len() == 0
    }

    /// Gives back the whole slice, whatever was active.
    pub fn take(self) -> &'a mut [T] {
        self.internal
    }

    pub fn as_slice(&self) -> &[T] {
        &self.internal[self.active_range.clone()]
    }

    /// Narrows the active range; what lies outside it is cut off without complaint.
    pub fn slice<R: RangeBounds<usize>>(&mut self, range: R) {
        let start = match range.start_bound() {
            Bound::Included(start) => *start,
            Bound::Excluded(start) => *start + 1,
            Bound::Unbounded => 0,
        };
        let end = match range.end_bound() {
            Bound::Included(end) => *end + 1,
            Bound::Excluded(end) => *end,
            Bound::Unbounded => self.len(),
        };
        let active = &self.active_range;
        let new_start = min(active.start + start, active.end);
        let new_end = min(new_start + (end - start), active.end);
        self.active_range = new_start..new_end;
    }

    /// The whole slice. Not in the kernel: whoever keeps a run's state reads it.
    pub fn whole(&self) -> &[T] {
        self.internal
    }

    /// The active range. Not in the kernel: whoever keeps a run's state reads it.
    pub fn active_range(&self) -> Range<usize> {
        self.active_range.clone()
    }
}

impl<T, I: SliceIndex<[T]>> Index<I> for SubSliceMut<'_, T> {
    type Output = I::Output;

    fn index(&self, index: I) -> &I::Output {
        &self.internal[self.active_range.clone()][index]
    }
}

impl<T, I: SliceIndex<[T]>> IndexMut<I> for SubSliceMut<'_, T> {
    fn index_mut(&mut self, index: I) -> &mut I::Output {
        &mut self.internal[self.active_range.clone()][index]
    }
}

#[cfg(test)]
mod tests {
    use super::SubSliceMut;

    fn with_ten(check: impl FnOnce(SubSliceMut<'_, u8>)) {
        let mut bytes = [0, 1, 2, 3, 4, 5, 6, 7, 8, 9];
        check(SubSliceMut::from(&mut bytes[..]));
    }

    #[test]
    fn a_range_is_relative_to_the_active_one() {
        with_ten(|mut buffer| {
            buffer.slice(2..8);
            buffer.slice(1..3);
            assert_eq!(buffer.as_slice(), [3, 4]);
            assert_eq!(buffer[1], 4);
            assert_eq!(buffer.len(), 2);
        });
    }

    #[test]
    fn a_range_past_the_active_one_is_cut_off() {
        with_ten(|mut buffer| {
            buffer.slice(0..4);
            buffer.slice(0..9);
            assert_eq!(buffer.len(), 4);
            buffer.slice(6..9);
            assert!(buffer.is_empty());
        });
    }

    #[test]
    fn reset_widens_to_the_whole_and_take_gives_it_back() {
        with_ten(|mut buffer| {
            buffer.slice(3..=4);
            buffer.reset();
            assert_eq!(buffer.active_range(), 0..10);
            buffer.slice(5..);
            buffer[0] = 50;
            assert_eq!(buffer.take(), [0, 1, 2, 3, 4, 50, 6, 7, 8, 9]);
        });
    }

    #[test]
    #[should_panic]
    fn an_index_past_the_active_range_panics() {
        with_ten(|mut buffer| {
            buffer.slice(0..2);
            let _ = buffer[2];
        });
    }
}
