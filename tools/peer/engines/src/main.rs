//! Times p3-dft's engines in one case, as the program of crates/bench times ours: with the same words, on the same
//! input, and with the same lines.
//!
//!     engines FIELD CALL LOG_HEIGHT WIDTH ADDED_BITS CALLS
//!
//! FIELD is a stand-in's field in one of its representations, as `babybear-montgomery-8`: of eight lanes in a vector.
//! CALL is `dft`, `idft` or `coset_lde`. A line has the engine's name, the sum of the output in natural order, and then,
//! in nanoseconds, the time of a new engine's first call, of its second call, and the least of that and of CALLS more.
//! Inputs are made and outputs read outside of the times.

use std::env;
use std::error::Error;
use std::hint::black_box;
use std::time::{Duration, Instant};

use p3_dft::{Radix2Bowers, Radix2DFTSmallBatch, Radix2Dit, Radix2DitParallel, TwoAdicSubgroupDft};
use p3_field::{
    BabyBear, BabyBearMonty, BabyBearMonty8, BabyBearMonty16, Goldilocks, Goldilocks4, Goldilocks8, PrimeField64,
    TwoAdicField,
};
use p3_matrix::Matrix;
use p3_matrix::dense::RowMajorMatrix;

#[derive(Clone, Copy)]
enum Call {
    Dft,
    Idft,
    CosetLde,
}

#[derive(Clone, Copy)]
struct Case {
    call: Call,
    log_height: usize,
    width: usize,
    added_bits: usize,
    calls: usize,
}

/// Entries by a linear congruence, as those of crates/bench.
fn drawn<F: PrimeField64>(count: usize) -> Vec<F> {
    let mut state = 12345_u64;
    let next = || {
        state = state.wrapping_mul(6_364_136_223_846_793_005).wrapping_add(1_442_695_040_888_963_407);
        F::from_canonical((state >> 1) % F::ORDER_U64)
    };
    std::iter::repeat_with(next).take(count).collect()
}

/// 31 times the sum before, plus the entry's canonical number, modulo 2^64.
fn sum_of<F: PrimeField64>(entries: &[F]) -> u64 {
    entries.iter().fold(0, |sum: u64, x| sum.wrapping_mul(31).wrapping_add(x.as_canonical_u64()))
}

fn timed<I, O>(call: impl FnOnce(I) -> O, input: I) -> (Duration, O) {
    let input = black_box(input);
    let begun = Instant::now();
    let output = black_box(call(input));
    (begun.elapsed(), output)
}

/// The time of one call, and the sum of its output.
fn once<F: TwoAdicField + PrimeField64, D: TwoAdicSubgroupDft<F>>(engine: &D, case: Case) -> (u128, u64) {
    let input = RowMajorMatrix::new(drawn::<F>(case.width << case.log_height), case.width);
    let (time, sum) = match case.call {
        Call::Dft => {
            let (time, output) = timed(|mat| engine.dft_batch(mat), input);
            (time, sum_of(&output.to_row_major_matrix().values))
        }
        Call::Idft => {
            let (time, output) = timed(|mat| engine.idft_batch(mat), input);
            (time, sum_of(&output.values))
        }
        Call::CosetLde => {
            let (time, output) = timed(|mat| engine.coset_lde_batch(mat, case.added_bits, F::GENERATOR), input);
            (time, sum_of(&output.to_row_major_matrix().values))
        }
    };
    (time.as_nanos(), sum)
}

fn time_engine<F: TwoAdicField + PrimeField64, D: TwoAdicSubgroupDft<F>>(name: &str, case: Case) {
    let engine = D::default();
    let (first, sum) = once(&engine, case);
    let (next, _) = once(&engine, case);
    let mut least = next;
    for _ in 0..case.calls {
        let (time, found) = once(&engine, case);
        assert_eq!(found, sum, "the outputs of {name} differ");
        least = least.min(time);
    }
    println!("{name} {sum} {first} {next} {least}");
}

fn time_every_engine<F: TwoAdicField + PrimeField64>(case: Case) {
    time_engine::<F, Radix2Dit<F>>("dit", case);
    time_engine::<F, Radix2Bowers>("bowers", case);
    time_engine::<F, Radix2DitParallel<F>>("parallel", case);
    time_engine::<F, Radix2DFTSmallBatch<F>>("small", case);
}

fn main() -> Result<(), Box<dyn Error>> {
    let words: Vec<String> = env::args().skip(1).collect();
    let [field, call, numbers @ ..] = words.as_slice() else { return Err("too few words".into()) };
    let numbers = numbers.iter().map(|word| word.parse()).collect::<Result<Vec<usize>, _>>()?;
    let [log_height, width, added_bits, calls] = numbers[..] else { return Err("not six words".into()) };
    let call = match call.as_str() {
        "dft" => Call::Dft,
        "idft" => Call::Idft,
        "coset_lde" => Call::CosetLde,
        _ => return Err("no such call".into()),
    };
    let case = Case { call, log_height, width, added_bits, calls };
    match field.as_str() {
        "babybear" => time_every_engine::<BabyBear>(case),
        "babybear-montgomery" => time_every_engine::<BabyBearMonty>(case),
        "babybear-montgomery-8" => time_every_engine::<BabyBearMonty8>(case),
        "babybear-montgomery-16" => time_every_engine::<BabyBearMonty16>(case),
        "goldilocks" => time_every_engine::<Goldilocks>(case),
        "goldilocks-4" => time_every_engine::<Goldilocks4>(case),
        "goldilocks-8" => time_every_engine::<Goldilocks8>(case),
        _ => return Err("no such field".into()),
    }
    Ok(())
}
