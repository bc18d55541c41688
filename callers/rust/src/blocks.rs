//! Columns of one matrix for several threads, each of which has some of them for itself.

use std::marker::PhantomData;
use std::ops::Range;
use std::slice;

/// Some columns of each row of a matrix.
pub struct Columns<'a, W> {
    /// The first of these columns in the first row.
    start: *mut W,
    height: usize,
    /// How many numbers lie between the beginnings of two rows.
    stride: usize,
    columns: Range<usize>,
    words: PhantomData<&'a mut [W]>,
}

// SAFETY: nothing else reaches these numbers, as with `&mut [W]`.
unsafe impl<W: Send> Send for Columns<'_, W> {}

impl<'a, W: Copy> Columns<'a, W> {
    /// All columns of the whole rows.
    pub fn all(words: &'a mut [W], width: usize) -> Self {
        let height = words.len() / width;
        Columns { start: words.as_mut_ptr(), height, stride: width, columns: 0..width, words: PhantomData }
    }

    /// The numbers of these columns in their matrix.
    pub fn range(&self) -> Range<usize> {
        self.columns.clone()
    }

    /// The columns from the first on, at most so many; they are no longer in `self`.
    fn split_off_first(&mut self, count: usize) -> Self {
        let count = count.min(self.columns.len());
        let columns = self.columns.start..self.columns.start + count;
        let first = Columns { columns, words: PhantomData, ..*self };
        // SAFETY: this is within the first row, or at its end.
        self.start = unsafe { self.start.add(count) };
        self.columns.start += count;
        first
    }

    /// One row of these columns.
    pub fn row(&self, row: usize) -> &[W] {
        assert!(row < self.height);
        // SAFETY: row and columns are within the words that `self` was made of, and no other `Columns` has them.
        unsafe { slice::from_raw_parts(self.start.add(row * self.stride), self.columns.len()) }
    }

    /// One row of these columns, to be changed.
    pub fn row_mut(&mut self, row: usize) -> &mut [W] {
        assert!(row < self.height);
        // SAFETY: as in `row`, and `self` is borrowed for as long as the row is.
        unsafe { slice::from_raw_parts_mut(self.start.add(row * self.stride), self.columns.len()) }
    }
}

/// A matrix in blocks of so many columns; the last has what is left.
pub struct Blocks<'a, W> {
    rest: Columns<'a, W>,
    count: usize,
}

impl<'a, W: Copy> Blocks<'a, W> {
    pub fn of(words: &'a mut [W], width: usize, count: usize) -> Self {
        Blocks { rest: Columns::all(words, width), count: count.max(1) }
    }
}

impl<'a, W: Copy> Iterator for Blocks<'a, W> {
    type Item = Columns<'a, W>;

    fn next(&mut self) -> Option<Columns<'a, W>> {
        (self.len() > 0).then(|| self.rest.split_off_first(self.count))
    }

    fn size_hint(&self) -> (usize, Option<usize>) {
        let blocks = self.rest.columns.len().div_ceil(self.count);
        (blocks, Some(blocks))
    }
}

impl<W: Copy> ExactSizeIterator for Blocks<'_, W> {}

#[cfg(test)]
mod tests {
    use super::Blocks;

    #[test]
    fn blocks_have_each_column_once() {
        for (height, width) in [(1, 1), (3, 7), (4, 16), (2, 33)] {
            for count in [1, 2, 3, 16, 40] {
                let mut words: Vec<usize> = (0..height * width).collect();
                let mut next = 0;
                for mut block in Blocks::of(&mut words, width, count) {
                    let range = block.range();
                    assert_eq!((range.start, range.len()), (next, count.min(width - next)));
                    for row in 0..height {
                        let numbers: Vec<usize> = range.clone().map(|column| row * width + column).collect();
                        assert_eq!(block.row(row), numbers);
                        block.row_mut(row).iter_mut().for_each(|number| *number += 1000);
                    }
                    next = range.end;
                }
                assert_eq!(next, width);
                assert_eq!(words, (1000..1000 + height * width).collect::<Vec<_>>());
            }
        }
    }

    #[test]
    #[should_panic]
    fn rows_end_where_the_matrix_does() {
        Blocks::of(&mut [1, 2, 3, 4], 2, 1).for_each(|block| _ = block.row(2));
    }
}
