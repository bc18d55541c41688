//! Answers the cases that `tools/check_callers` makes, as an engine of p3-dft. A line has FIELD ENGINE CALL THREADS
//! WIDTH ADDED SHIFT OUT_LEN and then the numbers. None of these cases has a fault, since the trait's calls panic.

use std::error::Error;
use std::io::{self, BufRead, Write};

use liktrob::{Dft, Engine, Threads};
use liktrob_p3::{Liktrob, LiktrobBitReversed};
use p3_baby_bear::BabyBear;
use p3_dft::TwoAdicSubgroupDft;
use p3_field::{PrimeField64, TwoAdicField};
use p3_goldilocks::Goldilocks;
use p3_matrix::Matrix;
use p3_matrix::bitrev::BitReversibleMatrix;
use p3_matrix::dense::RowMajorMatrix;

/// One thread, and four that work on matrices of any size by parts.
static POOLS: [Threads; 2] = [Threads::new(1), Threads::new(4).grain(1)];

fn answer<F: TwoAdicField + PrimeField64>(words: &[&str]) -> Result<String, Box<dyn Error>> {
    let numbers = words.iter().enumerate().filter(|(place, _)| *place != 0 && *place != 2);
    let numbers = numbers.map(|(_, word)| word.parse()).collect::<Result<Vec<usize>, _>>()?;
    let [engine, threads, width, added_bits, shift, _, values @ ..] = numbers.as_slice() else {
        return Err("too few words".into());
    };
    let engine = *Engine::ALL.get(*engine).ok_or("no such engine")?;
    let dft = Dft::new(engine).on(&POOLS[usize::from(*threads > 1)]);
    let (dft, in_bits) = (Liktrob::<F>::new(dft), LiktrobBitReversed::<F>::new(dft));
    let mat = RowMajorMatrix::new(values.iter().map(|number| F::from_usize(*number)).collect(), *width);
    let (bits, shift) = (*added_bits, F::from_usize(*shift));
    let answer = match words[2] {
        "coset_dft" => dft.coset_dft_batch(mat, shift),
        "coset_idft" => dft.coset_idft_batch(mat, shift),
        "coset_lde" => dft.coset_lde_batch(mat, bits, shift),
        "coset_lde_bit_reversed" => in_bits.coset_lde_batch(mat, bits, shift).bit_reverse_rows().to_row_major_matrix(),
        // The values of these polynomials are transformed to their coefficients again.
        "coset_dft_padded" => dft.coset_lde_batch_with_transform(dft.dft_batch(mat), bits, shift, |_, _| {}),
        _ => return Err("no such call".into()),
    };
    let numbers = answer.values.iter().map(PrimeField64::as_canonical_u64);
    Ok(numbers.fold("0".to_string(), |line, number| format!("{line} {number}")))
}

fn main() -> Result<(), Box<dyn Error>> {
    let mut out = io::stdout().lock();
    for line in io::stdin().lock().lines() {
        let line = line?;
        let words: Vec<&str> = line.split_whitespace().collect();
        let answer = match words.first().copied() {
            Some("baby_bear") => answer::<BabyBear>(&words)?,
            Some("goldilocks") => answer::<Goldilocks>(&words)?,
            _ => return Err("no such field".into()),
        };
        writeln!(out, "{answer}")?;
    }
    Ok(())
}
