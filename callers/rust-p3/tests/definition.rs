//! The engine against `NaiveDft` of `p3-dft`, in each call of the trait, on one thread and on several.

use std::sync::Mutex;

use liktrob::{Dft, Engine, Threads};
use liktrob_p3::{Liktrob, LiktrobBitReversed};
use p3_baby_bear::BabyBear;
use p3_dft::{Layout, NaiveDft, TwoAdicSubgroupDft};
use p3_field::{Field, PrimeField64, TwoAdicField};
use p3_goldilocks::Goldilocks;
use p3_matrix::Matrix;
use p3_matrix::bitrev::BitReversibleMatrix;
use p3_matrix::dense::{RowMajorMatrix, RowMajorMatrixView, RowMajorMatrixViewMut};

/// Three threads, also for small matrices.
static THREE: Threads = Threads::new(3).grain(1);

/// Elements from a seed.
fn matrix<F: TwoAdicField>(height: usize, width: usize) -> RowMajorMatrix<F> {
    let number = |i: usize| (i + 1).wrapping_mul(0x9e37_79b9_7f4a_7c15) >> 3;
    RowMajorMatrix::new((0..height * width).map(|i| F::from_usize(number(i))).collect(), width)
}

/// Doubles the first row and adds one to the rest.
fn changed<F: TwoAdicField>(coefficients: &mut RowMajorMatrixViewMut<'_, F>, layout: Layout) {
    assert_eq!(layout, Layout::Natural);
    let width = coefficients.width;
    for (place, value) in coefficients.values.iter_mut().enumerate() {
        *value += if place < width { *value } else { F::ONE };
    }
}

fn agrees_with_sums<F: TwoAdicField + PrimeField64>() {
    let each = Engine::ALL.into_iter().flat_map(|engine| [Dft::new(engine), Dft::new(engine).on(&THREE)]);
    for dft in each.chain([Dft::default().threads(4)]) {
        let (engine, in_bits) = (Liktrob::<F>::new(dft), LiktrobBitReversed::<F>::new(dft));
        for (height, width, bits) in [(1, 1, 0), (1, 3, 2), (2, 2, 1), (8, 5, 0), (16, 9, 2), (64, 1, 1)] {
            let mat = || matrix::<F>(height, width);
            for shift in [F::ONE, F::GENERATOR, F::NEG_ONE, F::TWO] {
                assert_eq!(engine.coset_dft_batch(mat(), shift), NaiveDft.coset_dft_batch(mat(), shift));
                assert_eq!(engine.coset_idft_batch(mat(), shift), NaiveDft.coset_idft_batch(mat(), shift));
                let extended = NaiveDft.coset_lde_batch(mat(), bits, shift);
                assert_eq!(engine.coset_lde_batch(mat(), bits, shift), extended);
                let evaluations = in_bits.coset_dft_batch(mat(), shift).bit_reverse_rows().to_row_major_matrix();
                assert_eq!(evaluations, reversed(NaiveDft.coset_dft_batch(mat(), shift)));
                assert_eq!(in_bits.coset_idft_batch(mat(), shift), NaiveDft.coset_idft_batch(mat(), shift));
                assert_eq!(in_bits.coset_lde_batch(mat(), bits, shift).to_row_major_matrix(), extended);
                let transformed = NaiveDft.coset_lde_batch_with_transform(mat(), bits, shift, changed);
                assert_eq!(engine.coset_lde_batch_with_transform(mat(), bits, shift, changed), transformed);
                let evaluations = in_bits.coset_lde_batch_with_transform(mat(), bits, shift, changed);
                assert_eq!(evaluations.to_row_major_matrix(), transformed);
                let blocks = engine.coset_lde_batch_with_blocks(mat(), bits, shift, |_, _| {}, |_| |_, _| {});
                assert_eq!(blocks.bit_reverse_rows().to_row_major_matrix(), reversed(extended));
                assert_eq!(published(&in_bits, mat(), bits, shift), reversed(transformed));
            }
            assert_eq!(engine.coset_dft_batch(mat(), F::ZERO), NaiveDft.coset_dft_batch(mat(), F::ZERO));
            assert_eq!(engine.dft_batch(mat()), NaiveDft.dft_batch(mat()));
            assert_eq!(engine.idft_batch(mat()), NaiveDft.idft_batch(mat()));
            assert_eq!(engine.lde_batch(mat(), bits), NaiveDft.lde_batch(mat(), bits));
        }
        let column = matrix::<F>(16, 1).values;
        assert_eq!(engine.dft(column.clone()), NaiveDft.dft(column.clone()));
        assert_eq!(engine.coset_lde(column.clone(), 2, F::GENERATOR), NaiveDft.coset_lde(column, 2, F::GENERATOR));
    }
}

/// What an extension of changed coefficients publishes, each row once and as it stands in the evaluations.
fn published<F: TwoAdicField + PrimeField64>(
    engine: &LiktrobBitReversed<F>,
    mat: RowMajorMatrix<F>,
    bits: usize,
    shift: F,
) -> RowMajorMatrix<F> {
    let (height, width) = (mat.height() << bits, mat.width());
    let rows = Mutex::new(vec![None; height]);
    let make_consumer = |block_height: usize| {
        assert!(block_height.is_power_of_two() && height % block_height == 0);
        let rows = &rows;
        move |first: usize, block: RowMajorMatrixView<'_, F>| {
            assert!(first % block_height == 0 && block.height() == block_height);
            for (i, row) in block.values.chunks(width).enumerate() {
                assert_eq!(rows.lock().unwrap()[first + i].replace(row.to_vec()), None, "row {i} of block {first}");
            }
        }
    };
    let evaluations = engine.coset_lde_batch_with_blocks(mat, bits, shift, changed, make_consumer);
    let rows = rows.into_inner().unwrap().into_iter().flat_map(|row| row.expect("each row is published"));
    let published = RowMajorMatrix::new(rows.collect(), width);
    assert_eq!(evaluations.bit_reverse_rows().to_row_major_matrix(), published);
    published
}

#[test]
fn many_rows_are_published_in_several_blocks() {
    let engine = LiktrobBitReversed::<BabyBear>::new(Dft::default().threads(4));
    let expected = Liktrob::<BabyBear>::default();
    for (height, width) in [(1 << 14, 3), (1 << 15, 1), (4, 20_000)] {
        let extended = expected.coset_lde_batch_with_transform(matrix(height, width), 1, BabyBear::GENERATOR, changed);
        assert_eq!(published(&engine, matrix(height, width), 1, BabyBear::GENERATOR), reversed(extended));
    }
}

fn reversed<F: TwoAdicField>(mat: RowMajorMatrix<F>) -> RowMajorMatrix<F> {
    mat.bit_reverse_rows().to_row_major_matrix()
}

#[test]
fn agrees_with_sums_over_baby_bear() {
    agrees_with_sums::<BabyBear>();
}

#[test]
fn agrees_with_sums_over_goldilocks() {
    agrees_with_sums::<Goldilocks>();
}

#[test]
#[should_panic(expected = "the shape does not fit")]
fn three_rows_panic() {
    Liktrob::default().dft_batch(matrix::<BabyBear>(3, 2));
}

#[test]
#[should_panic(expected = "the shift has no inverse")]
fn an_inverse_on_the_coset_of_zero_panics() {
    Liktrob::default().coset_idft_batch(matrix::<Goldilocks>(2, 2), Goldilocks::default());
}

#[test]
#[should_panic(expected = "the shape does not fit")]
fn more_bits_than_the_field_has_panic() {
    Liktrob::default().lde_batch(matrix::<BabyBear>(2, 2), 27);
}

#[test]
#[should_panic(expected = "the shape does not fit")]
fn bits_that_no_length_has_panic() {
    Liktrob::default().lde_batch(matrix::<BabyBear>(2, 2), usize::MAX);
}
