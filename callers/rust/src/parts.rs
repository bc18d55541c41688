//! Transforms of a matrix by parts, which threads do in any order.
//!
//! `2^k = R * m` rows of `w` numbers are also `R` *outer rows* of `m * w`, each of which has `m` *inner rows*. Let `s`
//! be the shift and `g` the generator of order `2^k`. A polynomial `f` with these coefficients becomes its values so:
//!
//! 1. Each column of outer rows is transformed on the coset of `s^m`. Then outer row `i` has the coefficients of `f`
//!    modulo `x^m - (s * g^i)^m`.
//! 2. The inner rows of outer row `i` are transformed by themselves, on the coset of `s * g^i`. Then inner row `j` has
//!    the values at `s * g^i * (g^R)^j`, and is row `i + R * j` of the values.
//!
//! An inverse takes these steps backwards. An extension has the inverse's second step, an extension of each column of
//! outer rows, and the second step for as many outer rows as there are then. Where the columns of a matrix are many and
//! short, `m` is 1 and the first step is all.
//!
//! In bit reversed order outer row `i` stands in the place of the reversed number and has its inner rows reversed, so
//! the second step works in place. In natural order the inner rows of some outer rows one after another are columns of
//! the values: row `j` of them lies in one piece.

use std::marker::PhantomData;
use std::mem::MaybeUninit;
use std::sync::atomic::{AtomicBool, Ordering};

use crate::blocks::{Blocks, Columns};
use crate::error::{Error, answer};
use crate::exports::{Extension, InPlace};
use crate::field::{Field, power};
use crate::pool::{Pool, each, threads_for};
use crate::room::{Place, zeros};

/// How many bytes a thread works on at a time, about: a core's caches hold them and what the library makes of them.
const CACHE: usize = 1 << 18;

/// How many bytes of a row are worth a piece of their own: a line of the cache.
const LINE: usize = 64;

/// The order of rows of values.
#[derive(Clone, Copy, Debug, PartialEq, Eq)]
pub enum Order {
    Natural,
    BitReversed,
}

impl Order {
    /// The place of row `i` of `2^bits`, and the row in place `i`.
    fn place(self, i: usize, bits: usize) -> usize {
        match self {
            Order::Natural => i,
            Order::BitReversed => reversed(i, bits),
        }
    }
}

/// The number whose `bits` binary digits are those of `i` in reverse.
pub fn reversed(i: usize, bits: usize) -> usize {
    if bits == 0 { 0 } else { i.reverse_bits() >> (usize::BITS as usize - bits) }
}

/// Puts the rows of a matrix of `2^bits` rows into bit reversed order, or back.
pub fn reverse_rows<W>(words: &mut [W], width: usize, bits: usize) {
    if bits == 0 {
        return;
    }
    // The digits of `i` in reverse, the first of them the highest of a word: one more carries from there.
    let mut digits = 0_usize;
    for i in 0..1 << bits {
        let other = digits >> (usize::BITS as usize - bits);
        if i < other {
            let (before, after) = words.split_at_mut(other * width);
            before[i * width..][..width].swap_with_slice(&mut after[..width]);
        }
        digits ^= !(usize::MAX >> 1 >> digits.leading_ones());
    }
}

/// A call of the library on columns of outer rows.
#[derive(Clone, Copy)]
pub enum Call<W> {
    /// In place.
    InPlace(InPlace<W>),
    /// To so many more bits of rows.
    Extension(Extension<W>, usize),
}

/// How a matrix is divided, and the threads for its parts.
#[derive(Clone, Copy)]
pub struct Plan<'a, F> {
    engine: u32,
    pool: &'a dyn Pool,
    threads: usize,
    width: usize,
    /// The logarithm of `R`, the number of outer rows.
    outer_bits: usize,
    /// The logarithm of `m`, the number of inner rows of each.
    inner_bits: usize,
    /// How many numbers a part has, about.
    part: usize,
    /// How many numbers are worth a piece of their own.
    line: usize,
    field: PhantomData<F>,
}

impl<'a, F: Field> Plan<'a, F> {
    /// The plan for a matrix of so many numbers, which becomes one of `2^added_bits` times as many. None where one call
    /// of the library serves: for one thread, for a matrix that is too small for two, and for a shape that is a fault.
    pub fn of(engine: u32, pool: &'a dyn Pool, len: usize, width: usize, added_bits: usize) -> Option<Self> {
        let height = len.checked_div(width).filter(|height| height * width == len && height.is_power_of_two())?;
        let bits = height.ilog2() as usize;
        let len = extended_len(len, added_bits).filter(|_| bits + added_bits <= F::TWO_ADICITY)?;
        let threads = threads_for(pool, len);
        if threads == 1 {
            return None;
        }
        let cache = CACHE / size_of::<F::Word>();
        let line = (LINE / size_of::<F::Word>()).min(pool.grain().max(1));
        let has_short_columns = (line << bits) << added_bits <= cache && width >= 2 * threads * line;
        // An outer row is a part, or as many narrow ones as fill a line; and there are two for each thread.
        let largest = (cache / width.max(line)).checked_ilog2().unwrap_or(0) as usize;
        let fewest = (2 * threads).next_power_of_two().ilog2() as usize;
        let inner_bits = if has_short_columns { 0 } else { largest.min(bits / 2 + 1).min(bits.saturating_sub(fewest)) };
        Some(Plan {
            engine,
            pool,
            threads,
            width,
            outer_bits: bits - inner_bits,
            inner_bits,
            part: (len / (4 * threads)).min(cache),
            line,
            field: PhantomData,
        })
    }

    /// Whether the first step is all.
    pub fn has_one_step(&self) -> bool {
        self.inner_bits == 0
    }

    /// The shift of the first step.
    pub fn outer_shift(&self, shift: F::Word) -> F::Word {
        let shift = power(shift.into(), 1 << self.inner_bits, F::MODULUS.into());
        F::Word::try_from(shift).unwrap_or_default()
    }

    /// How many numbers an outer row has.
    fn outer_width(&self) -> usize {
        self.width << self.inner_bits
    }

    /// How many columns of so many rows are a part.
    fn columns_of_part(&self, rows: usize) -> usize {
        (self.part / rows).max(self.line).min(self.outer_width())
    }

    /// How many of so many outer rows are a part.
    fn outer_rows_of_part(&self, outer_rows: usize) -> usize {
        let least = if self.is_narrow() { self.line } else { 1 };
        let most = (self.part / self.outer_width()).max(least).min(outer_rows);
        1 << most.ilog2()
    }

    /// Whether an inner row is less than a line, so that several outer rows are transformed as columns.
    fn is_narrow(&self) -> bool {
        self.width < self.line
    }

    /// The first step: the call on the columns of outer rows, in place. Where the order is bit reversed, outer row `i`
    /// is then in the place of the reversed number.
    pub fn on_columns(
        &self,
        call: InPlace<F::Word>,
        shift: F::Word,
        words: &mut [F::Word],
        order: Order,
    ) -> Result<(), Error> {
        self.columns(Call::InPlace(call), shift, words, order, |block, row, to| to.copy_from_slice(block.row(row)))
    }

    /// The first step on the columns of outer rows `from`, into `to`, all of which is written.
    pub fn on_columns_of(
        &self,
        call: Call<F::Word>,
        shift: F::Word,
        from: &[F::Word],
        to: &mut [MaybeUninit<F::Word>],
        order: Order,
    ) -> Result<(), Error> {
        let width = self.outer_width();
        self.columns(call, shift, to, order, |block, row, to| to.copy_from_slice(&from[row * width..][block.range()]))
    }

    /// The first step, where `read` copies what is in a row of a block of columns.
    fn columns<P: Place<F::Word>>(
        &self,
        call: Call<F::Word>,
        shift: F::Word,
        to: &mut [P],
        order: Order,
        read: impl Fn(&Columns<'_, P>, usize, &mut [F::Word]) + Sync,
    ) -> Result<(), Error> {
        let width = self.outer_width();
        let rows = 1 << self.outer_bits;
        let bits = (to.len() / width).ilog2() as usize;
        let count = self.columns_of_part(1 << bits);
        let scratch = || {
            let extended = if let Call::Extension(..) = call { count << bits } else { 0 };
            Some((zeros(rows * count)?, zeros(extended)?))
        };
        each(self.pool, self.threads, Blocks::of(to, width, count), scratch, |(words, extended), mut block| {
            let columns = block.range().len();
            let words = &mut words[..rows * columns];
            for (row, to) in words.chunks_exact_mut(columns).enumerate() {
                read(&block, row, to);
            }
            let values = match call {
                Call::InPlace(call) => {
                    answer(call(self.engine, words, columns, shift))?;
                    words
                }
                Call::Extension(call, added_bits) => {
                    let extended = &mut extended[..columns << bits];
                    answer(call(self.engine, words, columns, added_bits, shift, extended))?;
                    extended
                }
            };
            for (row, values) in values.chunks_exact(columns).enumerate() {
                P::fill(block.row_mut(order.place(row, bits)), values);
            }
            Ok(())
        })
    }

    /// Whether each column of outer rows is a codeword.
    pub fn are_codewords(&self, from: &[F::Word], added_bits: usize, shift: F::Word) -> Result<bool, Error> {
        let width = self.outer_width();
        let rows = from.len() / width;
        let count = self.columns_of_part(rows);
        let parts = (0..width.div_ceil(count)).map(|part| part * count..width.min((part + 1) * count));
        let are_codewords = AtomicBool::new(true);
        each(
            self.pool,
            self.threads,
            parts,
            || zeros(rows * count),
            |read, columns| {
                let read = &mut read[..rows * columns.len()];
                for (read, from) in read.chunks_exact_mut(columns.len()).zip(from.chunks_exact(width)) {
                    read.copy_from_slice(&from[columns.clone()]);
                }
                let mut is_codeword = 0;
                answer(F::is_codeword(self.engine, read, columns.len(), added_bits, shift, &mut is_codeword))?;
                are_codewords.fetch_and(is_codeword != 0, Ordering::Relaxed);
                Ok(())
            },
        )?;
        Ok(are_codewords.into_inner())
    }

    /// The second step in place and in bit reversed order. Outer row `i` stands in the place of the reversed number.
    pub fn values_in_place(&self, outer: &mut [F::Word], shift: F::Word) -> Result<(), Error> {
        let groups = self.groups(outer.len(), shift, Order::BitReversed);
        let parts = outer.chunks_mut(groups.numbers()).enumerate();
        let lanes = || zeros(if self.is_narrow() { groups.numbers() } else { 0 });
        each(self.pool, self.threads, parts, lanes, |lanes, (number, rows)| {
            if self.is_narrow() {
                groups.values_as_columns(number, rows, lanes)?;
                groups.reverse(lanes, rows);
                return Ok(());
            }
            groups.values_of_each(number, rows)?;
            for row in rows.chunks_exact_mut(self.outer_width()) {
                reverse_rows(row, self.width, self.inner_bits);
            }
            Ok(())
        })
    }

    /// The second step in natural order. All of `values` is written.
    pub fn values_of(
        &self,
        outer: &[F::Word],
        shift: F::Word,
        values: &mut [MaybeUninit<F::Word>],
    ) -> Result<(), Error> {
        let groups = self.groups(outer.len(), shift, Order::Natural);
        let blocks = Blocks::of(values, self.width << groups.outer_bits, self.width << groups.bits);
        let parts = outer.chunks(groups.numbers()).zip(blocks).enumerate();
        each(
            self.pool,
            self.threads,
            parts,
            || zeros(groups.numbers()),
            |scratch, (number, (rows, mut block))| {
                if self.is_narrow() {
                    groups.values_as_columns(number, rows, scratch)?;
                    groups.write_columns(scratch, &mut block);
                } else {
                    scratch.copy_from_slice(rows);
                    groups.values_of_each(number, scratch)?;
                    groups.write_each(scratch, &mut block);
                }
                Ok(())
            },
        )
    }

    /// The second step backwards: the outer rows of which these are the values in natural order. All of `outer` is
    /// written.
    pub fn outer_rows_of(
        &self,
        values: &[F::Word],
        shift: F::Word,
        outer: &mut [MaybeUninit<F::Word>],
    ) -> Result<(), Error> {
        let groups = self.groups(outer.len(), shift, Order::Natural);
        let parts = outer.chunks_mut(groups.numbers()).enumerate();
        each(
            self.pool,
            self.threads,
            parts,
            || zeros(groups.numbers()),
            |scratch, (number, rows)| {
                if self.is_narrow() {
                    groups.interpolate_as_columns(number, values, scratch)?;
                    groups.write_rows(scratch, rows);
                } else {
                    groups.interpolate_each(number, values, scratch)?;
                    Place::fill(rows, scratch);
                }
                Ok(())
            },
        )
    }

    /// Copies a matrix, some of it on each thread.
    pub fn copy(&self, from: &[F::Word], to: &mut [F::Word]) -> Result<(), Error> {
        let parts = from.chunks(self.part.max(1)).zip(to.chunks_mut(self.part.max(1)));
        each(
            self.pool,
            self.threads,
            parts,
            || Some(()),
            |(), (from, to)| {
                to.copy_from_slice(from);
                Ok(())
            },
        )
    }

    fn groups(&self, len: usize, shift: F::Word, order: Order) -> Groups<'_, F> {
        let outer_rows = len / self.outer_width();
        let bits = self.outer_rows_of_part(outer_rows).ilog2() as usize;
        Groups { plan: self, outer_bits: outer_rows.ilog2() as usize, bits, shift, order }
    }
}

/// The outer rows of a matrix in groups of `2^bits` one after another, of which a thread makes values or coefficients.
///
/// A group of narrow outer rows is transformed as columns: for each column of the matrix there is one of as many
/// *lanes* as the group has outer rows, with the inner rows as its rows. Their cosets are in a progression, also where
/// the outer rows are in bit reversed order.
struct Groups<'a, F: Field> {
    plan: &'a Plan<'a, F>,
    outer_bits: usize,
    bits: usize,
    shift: F::Word,
    order: Order,
}

impl<F: Field> Groups<'_, F> {
    /// How many outer rows a group has.
    fn count(&self) -> usize {
        1 << self.bits
    }

    /// How many numbers a group has.
    fn numbers(&self) -> usize {
        self.plan.outer_width() << self.bits
    }

    /// The point `shift * g^i`, where `g` generates the subgroup of the matrix's height.
    fn point(&self, shift: F::Word, i: usize) -> Result<F::Word, Error> {
        F::coset_point(self.outer_bits + self.plan.inner_bits, shift, i)
    }

    /// The point of the outer row in a place.
    fn point_of(&self, place: usize) -> Result<F::Word, Error> {
        self.point(self.shift, self.order.place(place, self.outer_bits))
    }

    /// The point of the first lane of a group, and the quotient of those of neighbours.
    fn points_of(&self, number: usize) -> Result<(F::Word, F::Word), Error> {
        let step = match self.order {
            Order::Natural => 1,
            Order::BitReversed => 1 << (self.outer_bits - self.bits),
        };
        Ok((self.point_of(number << self.bits)?, self.point(F::ONE, step)?))
    }

    /// Transforms the inner rows of each outer row by themselves.
    fn values_of_each(&self, number: usize, rows: &mut [F::Word]) -> Result<(), Error> {
        let places = number << self.bits..;
        for (place, row) in places.zip(rows.chunks_exact_mut(self.plan.outer_width())) {
            answer(F::coset_dft(self.plan.engine, row, self.plan.width, self.point_of(place)?))?;
        }
        Ok(())
    }

    /// Writes values in natural order.
    fn write_each<P: Place<F::Word>>(&self, rows: &[F::Word], block: &mut Columns<'_, P>) {
        let width = self.plan.width;
        for j in 0..1 << self.plan.inner_bits {
            let rows = rows.chunks_exact(self.plan.outer_width()).map(|row| &row[j * width..][..width]);
            block.row_mut(j).chunks_exact_mut(width).zip(rows).for_each(|(to, row)| P::fill(to, row));
        }
    }

    /// Transforms the inner rows of a group as columns.
    fn values_as_columns(&self, number: usize, rows: &[F::Word], lanes: &mut [F::Word]) -> Result<(), Error> {
        let (width, count) = (self.plan.width, self.count());
        let (shift, step) = self.points_of(number)?;
        for (column, lanes) in lanes.chunks_exact_mut(count << self.plan.inner_bits).enumerate() {
            self.each_number(|place, row| {
                let lane = self.order.place(place, self.bits);
                lanes[row * count + lane] = rows[((place << self.plan.inner_bits) + row) * width + column];
            });
            answer(F::coset_dft_columns(self.plan.engine, lanes, count, shift, step))?;
        }
        Ok(())
    }

    /// Calls `copy` with the place of each outer row of a group and the number of each of its inner rows, in blocks of
    /// neighbours in both.
    fn each_number(&self, mut copy: impl FnMut(usize, usize)) {
        const BLOCK: usize = 16;
        for first in (0..1 << self.plan.inner_bits).step_by(BLOCK) {
            let rows = first..(first + BLOCK).min(1 << self.plan.inner_bits);
            for place in 0..self.count() {
                rows.clone().for_each(|row| copy(place, row));
            }
        }
    }

    /// Writes the values of lanes in natural order.
    fn write_columns(&self, lanes: &[F::Word], block: &mut Columns<'_, MaybeUninit<F::Word>>) {
        let (width, count) = (self.plan.width, self.count());
        for (column, lanes) in lanes.chunks_exact(count << self.plan.inner_bits).enumerate() {
            for (j, values) in lanes.chunks_exact(count).enumerate() {
                if width == 1 {
                    Place::fill(block.row_mut(j), values);
                } else {
                    let places = block.row_mut(j)[column..].iter_mut().step_by(width);
                    places.zip(values).for_each(|(to, value)| _ = to.write(*value));
                }
            }
        }
    }

    /// Writes the values of lanes in bit reversed order.
    fn reverse(&self, lanes: &[F::Word], rows: &mut [F::Word]) {
        let (width, count, inner_bits) = (self.plan.width, self.count(), self.plan.inner_bits);
        for (column, lanes) in lanes.chunks_exact(count << inner_bits).enumerate() {
            self.each_number(|place, row| {
                let value = lanes[reversed(row, inner_bits) * count + reversed(place, self.bits)];
                rows[((place << inner_bits) + row) * width + column] = value;
            });
        }
    }

    /// Interpolates the inner rows of each outer row by themselves.
    fn interpolate_each(&self, number: usize, values: &[F::Word], rows: &mut [F::Word]) -> Result<(), Error> {
        let width = self.plan.width;
        let first = number << self.bits;
        for (j, values) in values.chunks_exact(width << self.outer_bits).enumerate() {
            let values = values[first * width..].chunks_exact(width);
            for (row, values) in rows.chunks_exact_mut(self.plan.outer_width()).zip(values) {
                row[j * width..][..width].copy_from_slice(values);
            }
        }
        for (i, row) in (first..).zip(rows.chunks_exact_mut(self.plan.outer_width())) {
            answer(F::coset_idft(self.plan.engine, row, width, self.point_of(i)?))?;
        }
        Ok(())
    }

    /// Interpolates the inner rows of a group as columns.
    fn interpolate_as_columns(&self, number: usize, values: &[F::Word], lanes: &mut [F::Word]) -> Result<(), Error> {
        let (width, count) = (self.plan.width, self.count());
        let first = number << self.bits;
        let (shift, step) = self.points_of(number)?;
        for (column, lanes) in lanes.chunks_exact_mut(count << self.plan.inner_bits).enumerate() {
            for (lanes, values) in lanes.chunks_exact_mut(count).zip(values.chunks_exact(width << self.outer_bits)) {
                let values = values[first * width + column..].iter().step_by(width);
                lanes.iter_mut().zip(values).for_each(|(to, value)| *to = *value);
            }
            answer(F::coset_idft_columns(self.plan.engine, lanes, count, shift, step))?;
        }
        Ok(())
    }

    /// Writes the coefficients of lanes, outer row after outer row.
    fn write_rows(&self, lanes: &[F::Word], rows: &mut [MaybeUninit<F::Word>]) {
        let (width, count, inner_bits) = (self.plan.width, self.count(), self.plan.inner_bits);
        for (column, lanes) in lanes.chunks_exact(count << inner_bits).enumerate() {
            self.each_number(|place, row| {
                rows[((place << inner_bits) + row) * width + column].write(lanes[row * count + place]);
            });
        }
    }
}

/// How many numbers an extension has, where they can be counted.
pub fn extended_len(len: usize, added_bits: usize) -> Option<usize> {
    len.checked_mul(1usize.checked_shl(added_bits.try_into().ok()?)?)
}
