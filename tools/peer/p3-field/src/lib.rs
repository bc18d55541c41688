//! Stand-in for what p3-dft uses of p3-field, with the fields that are timed.

mod fp31;
mod goldilocks;
mod lanes;

use std::fmt::{Debug, Display};
use std::hash::Hash;
use std::iter::Sum;
use std::mem::MaybeUninit;
use std::ops::{Add, AddAssign, Mul, MulAssign, Neg, Sub, SubAssign};

pub use fp31::*;
pub use goldilocks::*;
pub use lanes::*;

pub mod integers {
    pub trait QuotientMap<Int>: Sized {
        fn from_int(int: Int) -> Self;
    }
}
use integers::QuotientMap;

pub trait PrimeCharacteristicRing:
    Sized
    + Default
    + Clone
    + Add<Output = Self>
    + AddAssign
    + Sub<Output = Self>
    + SubAssign
    + Neg<Output = Self>
    + Mul<Output = Self>
    + MulAssign
    + Sum
    + Debug
{
    type PrimeSubfield: PrimeField64;
    const ZERO: Self;
    const ONE: Self;
    const TWO: Self;
    const NEG_ONE: Self;

    fn from_prime_subfield(f: Self::PrimeSubfield) -> Self;
    fn from_u8(int: u8) -> Self {
        Self::from_usize(int.into())
    }
    fn from_usize(int: usize) -> Self {
        Self::from_prime_subfield(<Self::PrimeSubfield as QuotientMap<usize>>::from_int(int))
    }
    fn double(&self) -> Self {
        self.clone() + self.clone()
    }
    fn halve(&self) -> Self;
    fn div_2exp_u64(&self, n: u64) -> Self {
        let mut x = self.clone();
        for _ in 0..n {
            x = x.halve();
        }
        x
    }
    /// The n-th power; one for n = 0.
    fn exp_u64(&self, mut n: u64) -> Self {
        let (mut base, mut acc) = (self.clone(), Self::ONE);
        while n != 0 {
            if n & 1 == 1 {
                acc *= base.clone();
            }
            base = base.clone() * base;
            n >>= 1;
        }
        acc
    }
    fn exp_power_of_2(&self, n: usize) -> Self {
        let mut x = self.clone();
        for _ in 0..n {
            x = x.clone() * x;
        }
        x
    }
    fn powers(&self) -> Powers<Self> {
        self.shifted_powers(Self::ONE)
    }
    fn shifted_powers(&self, start: Self) -> Powers<Self> {
        Powers { base: self.clone(), current: start }
    }
    fn zero_vec(n: usize) -> Vec<Self> {
        vec![Self::ZERO; n]
    }
}

/// `current`, `current * base`, `current * base^2`, ..
#[derive(Clone, Debug)]
pub struct Powers<R> {
    pub base: R,
    pub current: R,
}

impl<R: PrimeCharacteristicRing> Iterator for Powers<R> {
    type Item = R;
    fn next(&mut self) -> Option<R> {
        let result = self.current.clone();
        self.current *= self.base.clone();
        Some(result)
    }
}

impl<R: PrimeCharacteristicRing> Powers<R> {
    /// The first n of them. Eight chains run side by side, so that it isn't bound by latency.
    pub fn collect_n(self, n: usize) -> Vec<R> {
        const CHAINS: usize = 8;
        let step = self.base.exp_power_of_2(3);
        let mut out = Vec::with_capacity(n);
        out.extend(self.take(n.min(CHAINS)));
        for i in CHAINS..n {
            out.push(out[i - CHAINS].clone() * step.clone());
        }
        out
    }
}

pub trait Field:
    PrimeCharacteristicRing + Copy + PartialEq + Eq + Hash + Display + Send + Sync + 'static
{
    type Packing: PackedField<Scalar = Self>;
    const GENERATOR: Self;
    fn is_zero(&self) -> bool {
        *self == Self::ZERO
    }
    fn try_inverse(&self) -> Option<Self>;
    fn inverse(&self) -> Self {
        self.try_inverse().expect("Tried to invert zero")
    }
    // Lanes side by side: loops that are left to LLVM, where a field has no intrinsics for so many.
    #[inline(always)]
    fn lanes_add<const N: usize>(mut a: [Self; N], b: [Self; N]) -> [Self; N] {
        for i in 0..N { a[i] = a[i] + b[i]; }
        a
    }
    #[inline(always)]
    fn lanes_sub<const N: usize>(mut a: [Self; N], b: [Self; N]) -> [Self; N] {
        for i in 0..N { a[i] = a[i] - b[i]; }
        a
    }
    #[inline(always)]
    fn lanes_mul<const N: usize>(mut a: [Self; N], b: [Self; N]) -> [Self; N] {
        for i in 0..N { a[i] = a[i] * b[i]; }
        a
    }
}

pub trait PrimeField64: Field + Ord + QuotientMap<usize> {
    const ORDER_U64: u64;
    /// The element of that canonical number, which has to be below the modulus.
    fn from_canonical(value: u64) -> Self;
    fn as_canonical_u64(&self) -> u64;
}

pub trait TwoAdicField: Field {
    const TWO_ADICITY: usize;
    fn two_adic_generator(bits: usize) -> Self;
}

/// # Safety
/// A packed value has the layout of an array of `WIDTH` values.
pub unsafe trait PackedValue: 'static + Copy + Send + Sync {
    type Value: 'static + Copy + Send + Sync;
    const WIDTH: usize;

    fn as_slice(&self) -> &[Self::Value] {
        unsafe { std::slice::from_raw_parts((self as *const Self).cast(), Self::WIDTH) }
    }
    fn pack_slice_with_suffix(buf: &[Self::Value]) -> (&[Self], &[Self::Value]) {
        const { assert!(align_of::<Self>() == align_of::<Self::Value>()) };
        let (packed, suffix) = buf.split_at(buf.len() - buf.len() % Self::WIDTH);
        let n = packed.len() / Self::WIDTH;
        (unsafe { std::slice::from_raw_parts(packed.as_ptr().cast(), n) }, suffix)
    }
    fn pack_slice_with_suffix_mut(buf: &mut [Self::Value]) -> (&mut [Self], &mut [Self::Value]) {
        const { assert!(align_of::<Self>() == align_of::<Self::Value>()) };
        let (packed, suffix) = buf.split_at_mut(buf.len() - buf.len() % Self::WIDTH);
        let n = packed.len() / Self::WIDTH;
        (unsafe { std::slice::from_raw_parts_mut(packed.as_mut_ptr().cast(), n) }, suffix)
    }
    fn pack_maybe_uninit_slice_with_suffix_mut(
        buf: &mut [MaybeUninit<Self::Value>],
    ) -> (&mut [MaybeUninit<Self>], &mut [MaybeUninit<Self::Value>]) {
        const { assert!(align_of::<Self>() == align_of::<Self::Value>()) };
        let (packed, suffix) = buf.split_at_mut(buf.len() - buf.len() % Self::WIDTH);
        let n = packed.len() / Self::WIDTH;
        (unsafe { std::slice::from_raw_parts_mut(packed.as_mut_ptr().cast(), n) }, suffix)
    }
}

pub trait PackedField:
    PackedValue<Value = Self::Scalar>
    + From<Self::Scalar>
    + Add<Output = Self>
    + Add<Self::Scalar, Output = Self>
    + Sub<Output = Self>
    + Sub<Self::Scalar, Output = Self>
    + Mul<Output = Self>
    + Mul<Self::Scalar, Output = Self>
{
    type Scalar: Field;
}

// A field element is the one lane of itself.
unsafe impl<F: Field> PackedValue for F {
    type Value = F;
    const WIDTH: usize = 1;
}
impl<F: Field> PackedField for F {
    type Scalar = F;
}

pub fn scale_slice_in_place_single_core<F: Field>(slice: &mut [F], scale: F) {
    let scale_packed = F::Packing::from(scale);
    let (packed, suffix) = F::Packing::pack_slice_with_suffix_mut(slice);
    for x in packed {
        *x = *x * scale_packed;
    }
    for x in suffix {
        *x *= scale;
    }
}

pub trait BasedVectorSpace<F: PrimeCharacteristicRing>: Sized {
    const DIMENSION: usize;
    fn flatten_to_base(vec: Vec<Self>) -> Vec<F>;
    fn reconstitute_from_base(vec: Vec<F>) -> Vec<Self>;
}

/// `D` elements side by side.
impl<F: Field, const D: usize> BasedVectorSpace<F> for [F; D] {
    const DIMENSION: usize = D;
    fn flatten_to_base(vec: Vec<Self>) -> Vec<F> {
        vec.into_iter().flatten().collect()
    }
    fn reconstitute_from_base(vec: Vec<F>) -> Vec<Self> {
        vec.chunks_exact(D).map(|c| c.try_into().unwrap()).collect()
    }
}

/// The operators that follow from the by-value ones, and the parts of a field that are the same
/// for all of them.
#[macro_export]
#[doc(hidden)]
macro_rules! derived_ops {
    ([$($gen:tt)*] $t:ty) => {
        impl<$($gen)*> std::ops::AddAssign for $t {
            #[inline(always)]
            fn add_assign(&mut self, o: Self) {
                *self = *self + o;
            }
        }
        impl<$($gen)*> std::ops::SubAssign for $t {
            #[inline(always)]
            fn sub_assign(&mut self, o: Self) {
                *self = *self - o;
            }
        }
        impl<$($gen)*> std::ops::MulAssign for $t {
            #[inline(always)]
            fn mul_assign(&mut self, o: Self) {
                *self = *self * o;
            }
        }
        impl<$($gen)*> std::iter::Sum for $t {
            fn sum<I: Iterator<Item = Self>>(iter: I) -> Self {
                iter.fold(<Self as $crate::PrimeCharacteristicRing>::ZERO, |a, b| a + b)
            }
        }
        impl<$($gen)*> Default for $t {
            fn default() -> Self {
                <Self as $crate::PrimeCharacteristicRing>::ZERO
            }
        }
        impl<$($gen)*> std::fmt::Display for $t {
            fn fmt(&self, f: &mut std::fmt::Formatter<'_>) -> std::fmt::Result {
                write!(f, "{}", $crate::PrimeField64::as_canonical_u64(self))
            }
        }
        impl<$($gen)*> std::fmt::Debug for $t {
            fn fmt(&self, f: &mut std::fmt::Formatter<'_>) -> std::fmt::Result {
                write!(f, "{}", $crate::PrimeField64::as_canonical_u64(self))
            }
        }
        impl<$($gen)*> std::hash::Hash for $t {
            fn hash<H: std::hash::Hasher>(&self, state: &mut H) {
                std::hash::Hash::hash(&$crate::PrimeField64::as_canonical_u64(self), state)
            }
        }
        impl<$($gen)*> PartialOrd for $t {
            fn partial_cmp(&self, o: &Self) -> Option<std::cmp::Ordering> {
                Some(self.cmp(o))
            }
        }
        impl<$($gen)*> Ord for $t {
            fn cmp(&self, o: &Self) -> std::cmp::Ordering {
                $crate::PrimeField64::as_canonical_u64(self)
                    .cmp(&$crate::PrimeField64::as_canonical_u64(o))
            }
        }
        impl<$($gen)*> rand::Standard for $t {
            fn draw<Rng: rand::RngCore>(rng: &mut Rng) -> Self {
                <Self as $crate::PrimeField64>::from_canonical(
                    rng.next_u64() % <Self as $crate::PrimeField64>::ORDER_U64,
                )
            }
        }
        impl<$($gen)*> $crate::integers::QuotientMap<usize> for $t {
            fn from_int(int: usize) -> Self {
                <Self as $crate::PrimeField64>::from_canonical(
                    int as u64 % <Self as $crate::PrimeField64>::ORDER_U64,
                )
            }
        }
    };
}
