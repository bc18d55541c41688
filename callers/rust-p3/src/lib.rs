//! The proved transforms of `liktrob` as engines of `p3-dft`.
//!
//! [`Liktrob`] stands where a Plonky3 program has `Radix2DFTSmallBatch`, and [`LiktrobBitReversed`] where it has
//! `Radix2DitParallel`: its evaluations have their rows in bit reversed order, as a commitment hashes them, and no copy
//! reverses them. Each call turns the elements into their canonical numbers, calls the library, and turns the answer
//! into elements, on the threads of its [`Dft`]. So a field may keep its elements in any form: in Montgomery form, or
//! loosely, with several words for one element.

#![deny(missing_docs)]
#![forbid(unsafe_code)]

use std::marker::PhantomData;

use liktrob::{BabyBear, Dft, Error, Field, Goldilocks, KoalaBear, RowMajorMatrix as NumberMatrix};
use p3_dft::{Layout, TwoAdicSubgroupDft};
use p3_field::{PrimeField64, TwoAdicField};
use p3_matrix::Matrix;
use p3_matrix::bitrev::{BitReversedMatrixView, BitReversibleMatrix};
use p3_matrix::dense::{RowMajorMatrix, RowMajorMatrixView, RowMajorMatrixViewMut};

/// How many elements a thread turns into numbers at a time, about.
const CHUNK: usize = 1 << 14;

/// An engine of `p3-dft` over the library, whose evaluations have their rows in natural order.
///
/// The field has the order of BabyBear, KoalaBear or Goldilocks; for another order this does not compile.
///
/// An extension with blocks publishes blocks of some 2^14 elements, on the threads of its [`Dft`], each as soon as its
/// numbers have been turned into elements.
///
/// # Panics
///
/// Its calls panic where those of `p3-dft` do, on a shape that does not fit and on an inverse whose shift is zero, and
/// where memory is refused. Making an engine panics where the field's two-adic generators are not the library's, since
/// its values would belong to other points.
#[derive(Clone, Debug)]
pub struct Liktrob<F> {
    dft: Dft,
    field: PhantomData<F>,
}

/// [`Liktrob`], whose evaluations have their rows in bit reversed order. As those of `Radix2DitParallel` they are read
/// in natural order through a view, and `bit_reverse_rows` of them is the matrix itself.
#[derive(Clone, Debug)]
pub struct LiktrobBitReversed<F>(Liktrob<F>);

/// Evaluates the expression with `$Numbers` as the library's field of the order of `$F`.
macro_rules! in_field_of_the_order {
    ($F:ty, $Numbers:ident => $answer:expr) => {{
        const { assert!(has_known_order::<$F>(), "liktrob has no field of this order") };
        const BABY_BEAR: u64 = BabyBear::MODULUS as u64;
        const KOALA_BEAR: u64 = KoalaBear::MODULUS as u64;
        match <$F as PrimeField64>::ORDER_U64 {
            BABY_BEAR => {
                type $Numbers = BabyBear;
                $answer
            }
            KOALA_BEAR => {
                type $Numbers = KoalaBear;
                $answer
            }
            _ => {
                type $Numbers = Goldilocks;
                $answer
            }
        }
    }};
}

const fn has_known_order<F: PrimeField64>() -> bool {
    let order = F::ORDER_U64;
    order == BabyBear::MODULUS as u64 || order == KoalaBear::MODULUS as u64 || order == Goldilocks::MODULUS
}

impl<F: TwoAdicField + PrimeField64> Liktrob<F> {
    /// The engine that this is, on as many threads as it says.
    pub fn new(dft: Dft) -> Self {
        let is_same = in_field_of_the_order!(F, Numbers => {
            let bits = F::TWO_ADICITY;
            Numbers::two_adic_generator(bits) == Some(number::<F, Numbers>(F::two_adic_generator(bits)))
        });
        assert!(is_same, "the field's two-adic generators are not those of liktrob");
        Liktrob { dft, field: PhantomData }
    }
}

impl<F: TwoAdicField + PrimeField64> Default for Liktrob<F> {
    /// The default engine on the calling thread.
    fn default() -> Self {
        Liktrob::new(Dft::default())
    }
}

impl<F: TwoAdicField + PrimeField64> LiktrobBitReversed<F> {
    /// The engine that this is, on as many threads as it says.
    pub fn new(dft: Dft) -> Self {
        LiktrobBitReversed(Liktrob::new(dft))
    }
}

impl<F: TwoAdicField + PrimeField64> Default for LiktrobBitReversed<F> {
    /// The default engine on the calling thread.
    fn default() -> Self {
        LiktrobBitReversed(Liktrob::default())
    }
}

/// The canonical number of an element.
fn number<F: PrimeField64, L: Field>(element: F) -> L::Word {
    let number = L::Word::try_from(PrimeField64::as_canonical_u64(&element));
    number.unwrap_or_else(|_| panic!("a canonical number is below the order"))
}

/// The element of a canonical number.
fn element<F: PrimeField64, L: Field>(number: L::Word) -> F {
    F::from_usize(number.into() as usize)
}

/// What the library answered.
fn answered<A>(answer: Result<A, Error>) -> A {
    answer.unwrap_or_else(|error| panic!("{error}"))
}

impl<F: TwoAdicField + PrimeField64> Liktrob<F> {
    /// The canonical numbers of a matrix.
    fn numbers<L: Field>(&self, mat: RowMajorMatrix<F>) -> NumberMatrix<L> {
        let mut numbers = vec![L::Word::default(); mat.values.len()];
        let chunks = mat.values.chunks(CHUNK).zip(numbers.chunks_mut(CHUNK));
        self.dft.for_each(chunks, |(elements, numbers)| {
            numbers.iter_mut().zip(elements).for_each(|(to, from)| *to = number::<F, L>(*from));
        });
        NumberMatrix::new(numbers, mat.width)
    }

    /// The elements of the numbers, in blocks of whole rows: each is passed on with the number of its first row.
    fn elements<L: Field>(
        &self,
        mat: NumberMatrix<L>,
        block_height: usize,
        publish: impl Fn(usize, RowMajorMatrixView<'_, F>) + Sync,
    ) -> RowMajorMatrix<F> {
        let len = block_height * mat.width;
        let mut elements = F::zero_vec(mat.values.len());
        let blocks = mat.values.chunks(len).zip(elements.chunks_mut(len)).enumerate();
        self.dft.for_each(blocks, |(block, (numbers, elements))| {
            elements.iter_mut().zip(numbers).for_each(|(to, from)| *to = element::<F, L>(*from));
            publish(block * block_height, RowMajorMatrixView::new(elements, mat.width));
        });
        RowMajorMatrix::new(elements, mat.width)
    }

    /// The matrix that the library makes of the numbers of this one.
    fn made<L: Field>(
        &self,
        mat: RowMajorMatrix<F>,
        call: impl FnOnce(NumberMatrix<L>) -> Result<NumberMatrix<L>, Error>,
    ) -> RowMajorMatrix<F> {
        let mat = answered(call(self.numbers(mat)));
        let block_height = block_height(&mat);
        self.elements(mat, block_height, |_, _| {})
    }

    /// The coefficients of these values, changed by the transform.
    fn changed_coefficients<T>(&self, mat: RowMajorMatrix<F>, transform: T) -> RowMajorMatrix<F>
    where
        T: FnOnce(&mut RowMajorMatrixViewMut<'_, F>, Layout),
    {
        let mut coefficients = self.idft_batch(mat);
        transform(&mut coefficients.as_view_mut(), Layout::Natural);
        coefficients
    }
}

/// How many rows a block has: a power of two, as the height is.
fn block_height<L: Field>(mat: &NumberMatrix<L>) -> usize {
    let most = (CHUNK / mat.width).max(1);
    mat.height().min(1 << most.ilog2())
}

impl<F: TwoAdicField + PrimeField64> TwoAdicSubgroupDft<F> for Liktrob<F> {
    type Evaluations = RowMajorMatrix<F>;

    fn dft_batch(&self, mat: RowMajorMatrix<F>) -> RowMajorMatrix<F> {
        self.coset_dft_batch(mat, F::ONE)
    }

    fn coset_dft_batch(&self, mat: RowMajorMatrix<F>, shift: F) -> RowMajorMatrix<F> {
        in_field_of_the_order!(F, Numbers => {
            let shift = number::<F, Numbers>(shift);
            self.made::<Numbers>(mat, |mat| self.dft.coset_dft_batch(mat, shift))
        })
    }

    fn idft_batch(&self, mat: RowMajorMatrix<F>) -> RowMajorMatrix<F> {
        self.coset_idft_batch(mat, F::ONE)
    }

    fn coset_idft_batch(&self, mat: RowMajorMatrix<F>, shift: F) -> RowMajorMatrix<F> {
        in_field_of_the_order!(F, Numbers => {
            let shift = number::<F, Numbers>(shift);
            self.made::<Numbers>(mat, |mat| self.dft.coset_idft_batch(mat, shift))
        })
    }

    fn coset_lde_batch(&self, mat: RowMajorMatrix<F>, added_bits: usize, shift: F) -> RowMajorMatrix<F> {
        in_field_of_the_order!(F, Numbers => {
            let shift = number::<F, Numbers>(shift);
            self.made::<Numbers>(mat, |mat| self.dft.coset_lde_batch(mat, added_bits, shift))
        })
    }

    /// The transform is passed the coefficients in natural order.
    fn coset_lde_batch_with_transform<T>(
        &self,
        mat: RowMajorMatrix<F>,
        added_bits: usize,
        shift: F,
        transform: T,
    ) -> RowMajorMatrix<F>
    where
        T: FnOnce(&mut RowMajorMatrixViewMut<'_, F>, Layout),
    {
        let coefficients = self.changed_coefficients(mat, transform);
        in_field_of_the_order!(F, Numbers => {
            let shift = number::<F, Numbers>(shift);
            self.made::<Numbers>(coefficients, |mat| self.dft.coset_dft_batch_padded(mat, added_bits, shift))
        })
    }

    /// The transform is passed the coefficients in natural order. The consumer is called on the threads of the [`Dft`].
    fn coset_lde_batch_with_blocks<T, K, C>(
        &self,
        mat: RowMajorMatrix<F>,
        added_bits: usize,
        shift: F,
        transform: T,
        make_consumer: K,
    ) -> BitReversedMatrixView<RowMajorMatrix<F>>
    where
        T: FnOnce(&mut RowMajorMatrixViewMut<'_, F>, Layout),
        K: FnOnce(usize) -> C,
        C: Fn(usize, RowMajorMatrixView<'_, F>) + Sync,
    {
        let coefficients = self.changed_coefficients(mat, transform);
        let evaluations = in_field_of_the_order!(F, Numbers => {
            let shift = number::<F, Numbers>(shift);
            let coefficients = self.numbers::<Numbers>(coefficients);
            let mat = answered(self.dft.coset_dft_batch_padded_bit_reversed(coefficients, added_bits, shift));
            let block_height = block_height(&mat);
            self.elements(mat, block_height, make_consumer(block_height))
        });
        evaluations.bit_reverse_rows()
    }
}

impl<F: TwoAdicField + PrimeField64> TwoAdicSubgroupDft<F> for LiktrobBitReversed<F> {
    type Evaluations = BitReversedMatrixView<RowMajorMatrix<F>>;

    fn dft_batch(&self, mat: RowMajorMatrix<F>) -> Self::Evaluations {
        self.coset_dft_batch(mat, F::ONE)
    }

    fn coset_dft_batch(&self, mat: RowMajorMatrix<F>, shift: F) -> Self::Evaluations {
        let evaluations = in_field_of_the_order!(F, Numbers => {
            let shift = number::<F, Numbers>(shift);
            self.0.made::<Numbers>(mat, |mat| self.0.dft.coset_dft_batch_bit_reversed(mat, shift))
        });
        evaluations.bit_reverse_rows()
    }

    fn idft_batch(&self, mat: RowMajorMatrix<F>) -> RowMajorMatrix<F> {
        self.0.idft_batch(mat)
    }

    fn coset_idft_batch(&self, mat: RowMajorMatrix<F>, shift: F) -> RowMajorMatrix<F> {
        self.0.coset_idft_batch(mat, shift)
    }

    fn coset_lde_batch(&self, mat: RowMajorMatrix<F>, added_bits: usize, shift: F) -> Self::Evaluations {
        let evaluations = in_field_of_the_order!(F, Numbers => {
            let shift = number::<F, Numbers>(shift);
            self.0.made::<Numbers>(mat, |mat| self.0.dft.coset_lde_batch_bit_reversed(mat, added_bits, shift))
        });
        evaluations.bit_reverse_rows()
    }

    /// The transform is passed the coefficients in natural order.
    fn coset_lde_batch_with_transform<T>(
        &self,
        mat: RowMajorMatrix<F>,
        added_bits: usize,
        shift: F,
        transform: T,
    ) -> Self::Evaluations
    where
        T: FnOnce(&mut RowMajorMatrixViewMut<'_, F>, Layout),
    {
        self.coset_lde_batch_with_blocks(mat, added_bits, shift, transform, |_| |_, _| {})
    }

    fn coset_lde_batch_with_blocks<T, K, C>(
        &self,
        mat: RowMajorMatrix<F>,
        added_bits: usize,
        shift: F,
        transform: T,
        make_consumer: K,
    ) -> BitReversedMatrixView<RowMajorMatrix<F>>
    where
        T: FnOnce(&mut RowMajorMatrixViewMut<'_, F>, Layout),
        K: FnOnce(usize) -> C,
        C: Fn(usize, RowMajorMatrixView<'_, F>) + Sync,
    {
        self.0.coset_lde_batch_with_blocks(mat, added_bits, shift, transform, make_consumer)
    }
}
