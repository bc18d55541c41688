//! Times p3-dft on Rayon and liktrob beside each other, in one case.
//!
//!     bench FIELD CALL LOG_HEIGHT WIDTH ROUNDS THREADS..
//!
//! FIELD is `baby_bear` or `goldilocks`, CALL is `dft` (`dft_batch`) or `lde` (`coset_lde_batch` by one bit). Each
//! variant is called once for its answer, which must be that of the others, and then once in each round, the variants
//! in turns. A line has the variant, the number of threads, and the middle time of the rounds in milliseconds. The inputs
//! are made outside of the times; an output is made within.
//!
//! p3-dft's `small` and ours in `natural` order have rows in natural order, `parallel` and `reversed` in bit reversed
//! order. Ours is timed on threads of its own and on Rayon's.

use std::env;
use std::error::Error;
use std::hint::black_box;
use std::time::{Duration, Instant};

use liktrob::{Dft, Field, Rayon, RowMajorMatrix as Numbers};
use p3_dft::{Radix2DFTSmallBatch, Radix2DitParallel, TwoAdicSubgroupDft};
use p3_field::{PrimeField64, TwoAdicField};
use p3_matrix::Matrix;
use p3_matrix::bitrev::BitReversibleMatrix;
use p3_matrix::dense::RowMajorMatrix;

// The representation that p3-dft has for such a processor: vectors where it has AVX2, else canonical numbers.
#[cfg(target_feature = "avx2")]
use p3_field::{BabyBearMonty8 as TheirBabyBear, Goldilocks4 as TheirGoldilocks};
#[cfg(not(target_feature = "avx2"))]
use p3_field::{BabyBear as TheirBabyBear, Goldilocks as TheirGoldilocks};

#[derive(Clone, Copy, PartialEq, Eq)]
enum Call {
    Dft,
    Lde,
}

struct Case {
    call: Call,
    log_height: usize,
    width: usize,
    rounds: usize,
    threads: Vec<usize>,
}

/// The rows of an answer.
#[derive(Clone, Copy, Debug, PartialEq, Eq)]
enum Order {
    Natural,
    Reversed,
}

/// A way to make the call: it answers its time, and its numbers where they are asked for.
struct Variant<'a> {
    name: &'static str,
    threads: usize,
    order: Order,
    round: Box<dyn FnMut(bool) -> (Duration, Vec<u64>) + 'a>,
}

fn timed<O>(call: impl FnOnce() -> O) -> (Duration, O) {
    let begun = Instant::now();
    let answer = black_box(call());
    (begun.elapsed(), answer)
}

/// Numbers below the modulus, by a linear congruence.
fn drawn(count: usize, modulus: u64) -> Vec<u64> {
    let mut state = 12345_u64;
    let next = || {
        state = state.wrapping_mul(6_364_136_223_846_793_005).wrapping_add(1_442_695_040_888_963_407);
        (state >> 1) % modulus
    };
    std::iter::repeat_with(next).take(count).collect()
}

fn numbers_of<F: PrimeField64>(mat: RowMajorMatrix<F>) -> Vec<u64> {
    mat.values.iter().map(PrimeField64::as_canonical_u64).collect()
}

/// The variants of p3-dft on a pool.
fn theirs<'a, F: TwoAdicField + PrimeField64>(
    case: &'a Case,
    input: &'a [F],
    engines: &'a (Radix2DFTSmallBatch<F>, Radix2DitParallel<F>),
    pool: &'a rayon::ThreadPool,
) -> [Variant<'a>; 2] {
    let mat = || RowMajorMatrix::new(input.to_vec(), case.width);
    let (small, parallel) = engines;
    let small = move |is_asked: bool| {
        let mat = mat();
        let (time, answer) = timed(|| {
            pool.install(|| match case.call {
                Call::Dft => small.dft_batch(mat),
                Call::Lde => small.coset_lde_batch(mat, 1, F::GENERATOR),
            })
        });
        (time, if is_asked { numbers_of(answer.to_row_major_matrix()) } else { vec![] })
    };
    let mat = || RowMajorMatrix::new(input.to_vec(), case.width);
    let parallel = move |is_asked: bool| {
        let mat = mat();
        let (time, answer) = timed(|| {
            pool.install(|| match case.call {
                Call::Dft => parallel.dft_batch(mat),
                Call::Lde => parallel.coset_lde_batch(mat, 1, F::GENERATOR),
            })
        });
        (time, if is_asked { numbers_of(answer.bit_reverse_rows().to_row_major_matrix()) } else { vec![] })
    };
    let threads = pool.current_num_threads();
    [
        Variant { name: "p3-small", threads, order: Order::Natural, round: Box::new(small) },
        Variant { name: "p3-parallel", threads, order: Order::Reversed, round: Box::new(parallel) },
    ]
}

/// One variant of ours; `install` runs a call on the threads that the pool means.
fn ours<'a, F: Field>(
    name: &'static str,
    case: &'a Case,
    input: &'a [F::Word],
    order: Order,
    dft: Dft,
    install: Option<&'a rayon::ThreadPool>,
    threads: usize,
) -> Variant<'a> {
    let round = move |is_asked: bool| {
        let mat = Numbers::<F>::new(input.to_vec(), case.width);
        let call = || match (case.call, order) {
            (Call::Dft, Order::Natural) => dft.dft_batch(mat),
            (Call::Dft, Order::Reversed) => dft.coset_dft_batch_bit_reversed(mat, F::ONE),
            (Call::Lde, Order::Natural) => dft.coset_lde_batch(mat, 1, F::GENERATOR),
            (Call::Lde, Order::Reversed) => dft.coset_lde_batch_bit_reversed(mat, 1, F::GENERATOR),
        };
        let (time, answer) = timed(|| match install {
            Some(pool) => pool.install(call),
            None => call(),
        });
        let answer = answer.expect("the matrix has an answer");
        (time, if is_asked { answer.values.iter().map(|word| (*word).into()).collect() } else { vec![] })
    };
    Variant { name, threads, order, round: Box::new(round) }
}

/// The variants of all numbers of threads, in turns; and what each answered.
fn measure<T: TwoAdicField + PrimeField64, F: Field>(case: &Case) {
    let numbers = drawn(case.width << case.log_height, T::ORDER_U64);
    let their_input: Vec<T> = numbers.iter().map(|number| T::from_canonical(*number)).collect();
    let our_input: Vec<F::Word> = numbers.iter().map(|it| F::Word::try_from(*it).unwrap_or_default()).collect();
    let engines = (Radix2DFTSmallBatch::<T>::default(), Radix2DitParallel::<T>::default());
    let pool = |threads: &usize| rayon::ThreadPoolBuilder::new().num_threads(*threads).build().expect("threads start");
    let pools: Vec<rayon::ThreadPool> = case.threads.iter().map(pool).collect();
    let mut variants = Vec::new();
    for (pool, threads) in pools.iter().zip(&case.threads) {
        variants.extend(theirs(case, &their_input, &engines, pool));
        let (started, taken) = (Dft::default().threads(*threads), Dft::default().on(&Rayon));
        for (name, order, dft, install) in [
            ("natural", Order::Natural, started, None),
            ("reversed", Order::Reversed, started, None),
            ("natural-on-rayon", Order::Natural, taken, Some(pool)),
            ("reversed-on-rayon", Order::Reversed, taken, Some(pool)),
        ] {
            variants.push(ours::<F>(name, case, &our_input, order, dft, install, *threads));
        }
    }
    compare_answers(&mut variants, case.width);
    let mut times = vec![Vec::new(); variants.len()];
    for _ in 0..case.rounds {
        for (variant, times) in variants.iter_mut().zip(&mut times) {
            times.push((variant.round)(false).0);
        }
    }
    for (variant, mut times) in variants.iter().zip(times) {
        times.sort();
        println!("{} {} {:.3}", variant.name, variant.threads, times[times.len() / 2].as_secs_f64() * 1e3);
    }
}

/// Whether all variants have the same values at the same points. This call also makes the tables that p3-dft keeps.
fn compare_answers(variants: &mut [Variant<'_>], width: usize) {
    let mut natural: Option<Vec<u64>> = None;
    for variant in variants {
        let answer = (variant.round)(true).1;
        let answer = if variant.order == Order::Natural { answer } else { reversed(&answer, width) };
        let is_same = natural.get_or_insert_with(|| answer.clone()) == &answer;
        assert!(is_same, "{} on {} threads answers otherwise", variant.name, variant.threads);
    }
}

/// The rows in bit reversed order.
fn reversed(numbers: &[u64], width: usize) -> Vec<u64> {
    let height = numbers.len() / width;
    let bits = height.ilog2();
    let place = |i: usize| if bits == 0 { 0 } else { i.reverse_bits() >> (usize::BITS - bits) };
    (0..height).flat_map(|row| &numbers[place(row) * width..][..width]).copied().collect()
}

fn main() -> Result<(), Box<dyn Error>> {
    let words: Vec<String> = env::args().skip(1).collect();
    let [field, call, numbers @ ..] = words.as_slice() else { return Err("too few words".into()) };
    let numbers = numbers.iter().map(|word| word.parse()).collect::<Result<Vec<usize>, _>>()?;
    let [log_height, width, rounds, threads @ ..] = numbers.as_slice() else { return Err("too few words".into()) };
    let call = match call.as_str() {
        "dft" => Call::Dft,
        "lde" => Call::Lde,
        _ => return Err("no such call".into()),
    };
    let case = Case { call, log_height: *log_height, width: *width, rounds: *rounds, threads: threads.to_vec() };
    match field.as_str() {
        "baby_bear" => measure::<TheirBabyBear, liktrob::BabyBear>(&case),
        "goldilocks" => measure::<TheirGoldilocks, liktrob::Goldilocks>(&case),
        _ => return Err("no such field".into()),
    }
    Ok(())
}
