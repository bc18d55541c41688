//! BabyBear in three representations.

use std::marker::PhantomData;
use std::ops::{Add, Mul, Neg, Sub};

use crate::{Field, Lanes, PrimeCharacteristicRing, PrimeField64, TwoAdicField, derived_ops};

pub const P31: u32 = (1 << 31) - (1 << 27) + 1;

/// The number below p that a difference of two such numbers, taken in 32 bits, stands for.
/// A mask, since plain x86-64 has no lesser of two for lanes without a sign.
#[inline(always)]
fn correct(d: u32) -> u32 {
    d.wrapping_add(P31 & ((d as i32) >> 31) as u32)
}

/// How a number below the modulus is kept and multiplied. Kept numbers are below the modulus.
pub trait Repr31: Copy + Send + Sync + 'static {
    const IS_MONTGOMERY: bool = false;
    fn encode(x: u32) -> u32;
    fn decode(x: u32) -> u32;
    fn mul(a: u32, b: u32) -> u32;
}

/// The number itself, products reduced by `%` with a constant modulus.
#[derive(Clone, Copy)]
pub struct Canonical;
impl Repr31 for Canonical {
    fn encode(x: u32) -> u32 {
        x
    }
    fn decode(x: u32) -> u32 {
        x
    }
    #[inline(always)]
    fn mul(a: u32, b: u32) -> u32 {
        (a as u64 * b as u64 % P31 as u64) as u32
    }
}

/// The number itself, products reduced by Barrett's estimate of the quotient.
#[derive(Clone, Copy)]
pub struct Barrett;
/// The whole part of `2^62 / p`; it has 32 bits.
const BARRETT_MU: u64 = (1 << 62) / P31 as u64;
impl Repr31 for Barrett {
    fn encode(x: u32) -> u32 {
        x
    }
    fn decode(x: u32) -> u32 {
        x
    }
    #[inline(always)]
    fn mul(a: u32, b: u32) -> u32 {
        let x = a as u64 * b as u64;
        let quotient = ((x >> 30) * BARRETT_MU) >> 32;
        // The estimate is short by at most two, and 3p needs more than 32 bits.
        let rest = x - quotient * P31 as u64;
        let rest = rest.min(rest.wrapping_sub(2 * P31 as u64)) as u32;
        correct(rest.wrapping_sub(P31))
    }
}

/// The number times `2^32` modulo p.
#[derive(Clone, Copy)]
pub struct Montgomery;
/// The inverse of p modulo `2^32`, by Newton's iteration.
const P31_INVERSE: u32 = {
    let mut x = 1_u32;
    let mut i = 0;
    while i < 5 {
        x = x.wrapping_mul(2_u32.wrapping_sub(P31.wrapping_mul(x)));
        i += 1;
    }
    x
};
#[inline(always)]
fn montgomery_reduce(x: u64) -> u32 {
    let m = (x as u32).wrapping_mul(P31_INVERSE);
    let high = (x >> 32) as u32;
    let minus = ((m as u64 * P31 as u64) >> 32) as u32;
    correct(high.wrapping_sub(minus))
}
impl Repr31 for Montgomery {
    const IS_MONTGOMERY: bool = true;
    fn encode(x: u32) -> u32 {
        (((x as u64) << 32) % P31 as u64) as u32
    }
    fn decode(x: u32) -> u32 {
        montgomery_reduce(x as u64)
    }
    #[inline(always)]
    fn mul(a: u32, b: u32) -> u32 {
        montgomery_reduce(a as u64 * b as u64)
    }
}

/// BabyBear kept as `R` says, packed in `L` lanes.
#[repr(transparent)]
pub struct Fp31<R, const L: usize>(u32, PhantomData<R>);

pub type BabyBear = Fp31<Canonical, 1>;
pub type BabyBearBarrett = Fp31<Barrett, 1>;
pub type BabyBearMonty = Fp31<Montgomery, 1>;
pub type BabyBearMonty8 = Fp31<Montgomery, 8>;
pub type BabyBearMonty16 = Fp31<Montgomery, 16>;

impl<R, const L: usize> Clone for Fp31<R, L> {
    #[inline(always)]
    fn clone(&self) -> Self {
        *self
    }
}
impl<R, const L: usize> Copy for Fp31<R, L> {}
impl<R, const L: usize> PartialEq for Fp31<R, L> {
    #[inline(always)]
    fn eq(&self, o: &Self) -> bool {
        self.0 == o.0
    }
}
impl<R, const L: usize> Eq for Fp31<R, L> {}

impl<R: Repr31, const L: usize> Fp31<R, L> {
    #[inline(always)]
    const fn raw(x: u32) -> Self {
        Self(x, PhantomData)
    }
}
impl<R: Repr31, const L: usize> Add for Fp31<R, L> {
    type Output = Self;
    #[inline(always)]
    fn add(self, o: Self) -> Self {
        Self::raw(correct((self.0 + o.0).wrapping_sub(P31)))
    }
}
impl<R: Repr31, const L: usize> Sub for Fp31<R, L> {
    type Output = Self;
    #[inline(always)]
    fn sub(self, o: Self) -> Self {
        Self::raw(correct(self.0.wrapping_sub(o.0)))
    }
}
impl<R: Repr31, const L: usize> Mul for Fp31<R, L> {
    type Output = Self;
    #[inline(always)]
    fn mul(self, o: Self) -> Self {
        Self::raw(R::mul(self.0, o.0))
    }
}
impl<R: Repr31, const L: usize> Neg for Fp31<R, L> {
    type Output = Self;
    fn neg(self) -> Self {
        Self::raw(0) - self
    }
}
derived_ops!([R: Repr31, const L: usize] Fp31<R, L>);

/// `encode` isn't const in a trait; this is, for constants.
const fn encode_const(x: u64, montgomery: bool) -> u32 {
    if montgomery { ((x << 32) % P31 as u64) as u32 } else { x as u32 }
}

impl<R: Repr31, const L: usize> PrimeCharacteristicRing for Fp31<R, L> {
    type PrimeSubfield = Self;
    const ZERO: Self = Self::raw(0);
    const ONE: Self = Self::raw(encode_const(1, R::IS_MONTGOMERY));
    const TWO: Self = Self::raw(encode_const(2, R::IS_MONTGOMERY));
    const NEG_ONE: Self =
        Self::raw(encode_const(P31 as u64 - 1, R::IS_MONTGOMERY));
    fn from_prime_subfield(f: Self) -> Self {
        f
    }
    /// By calloc, as the real crate does.
    fn zero_vec(n: usize) -> Vec<Self> {
        let mut v = std::mem::ManuallyDrop::new(vec![0_u32; n]);
        // SAFETY: the type is a transparent u32, and zero stands for zero.
        unsafe { Vec::from_raw_parts(v.as_mut_ptr().cast(), n, v.capacity()) }
    }
    fn halve(&self) -> Self {
        // The half of an odd number x is (x + p) / 2, in each representation.
        Self::raw(if self.0 & 1 == 0 { self.0 / 2 } else { (self.0 + P31) / 2 })
    }
}
impl<R: Repr31, const L: usize> Field for Fp31<R, L> {
    type Packing = Lanes<Self, L>;
    #[inline(always)]
    fn lanes_add<const N: usize>(a: [Self; N], b: [Self; N]) -> [Self; N] {
        #[cfg(target_feature = "avx512dq")]
        if N == 16 && L == 16 && R::IS_MONTGOMERY {
            unsafe {
                let r = v512::add(std::mem::transmute_copy(&a), std::mem::transmute_copy(&b));
                return std::mem::transmute_copy(&r);
            }
        }
        #[cfg(target_feature = "avx2")]
        if N == 8 && L == 8 && R::IS_MONTGOMERY {
            unsafe {
                let r = v256::add(std::mem::transmute_copy(&a), std::mem::transmute_copy(&b));
                return std::mem::transmute_copy(&r);
            }
        }
        let mut r = a;
        for i in 0..N { r[i] = a[i] + b[i]; }
        r
    }
    #[inline(always)]
    fn lanes_sub<const N: usize>(a: [Self; N], b: [Self; N]) -> [Self; N] {
        #[cfg(target_feature = "avx512dq")]
        if N == 16 && L == 16 && R::IS_MONTGOMERY {
            unsafe {
                let r = v512::sub(std::mem::transmute_copy(&a), std::mem::transmute_copy(&b));
                return std::mem::transmute_copy(&r);
            }
        }
        #[cfg(target_feature = "avx2")]
        if N == 8 && L == 8 && R::IS_MONTGOMERY {
            unsafe {
                let r = v256::sub(std::mem::transmute_copy(&a), std::mem::transmute_copy(&b));
                return std::mem::transmute_copy(&r);
            }
        }
        let mut r = a;
        for i in 0..N { r[i] = a[i] - b[i]; }
        r
    }
    #[inline(always)]
    fn lanes_mul<const N: usize>(a: [Self; N], b: [Self; N]) -> [Self; N] {
        #[cfg(target_feature = "avx512dq")]
        if N == 16 && L == 16 && R::IS_MONTGOMERY {
            unsafe {
                let r = v512::mul(std::mem::transmute_copy(&a), std::mem::transmute_copy(&b));
                return std::mem::transmute_copy(&r);
            }
        }
        #[cfg(target_feature = "avx2")]
        if N == 8 && L == 8 && R::IS_MONTGOMERY {
            unsafe {
                let r = v256::mul(std::mem::transmute_copy(&a), std::mem::transmute_copy(&b));
                return std::mem::transmute_copy(&r);
            }
        }
        let mut r = a;
        for i in 0..N { r[i] = a[i] * b[i]; }
        r
    }
    const GENERATOR: Self = Self::raw(encode_const(31, R::IS_MONTGOMERY));
    fn try_inverse(&self) -> Option<Self> {
        (!self.is_zero()).then(|| self.exp_u64(P31 as u64 - 2))
    }
}
impl<R: Repr31, const L: usize> PrimeField64 for Fp31<R, L> {
    const ORDER_U64: u64 = P31 as u64;
    fn from_canonical(value: u64) -> Self {
        assert!(value < Self::ORDER_U64);
        Self::raw(R::encode(value as u32))
    }
    fn as_canonical_u64(&self) -> u64 {
        R::decode(self.0).into()
    }
}
impl<R: Repr31, const L: usize> TwoAdicField for Fp31<R, L> {
    const TWO_ADICITY: usize = 27;
    fn two_adic_generator(bits: usize) -> Self {
        assert!(bits <= Self::TWO_ADICITY);
        Self::GENERATOR.exp_u64(15).exp_power_of_2(Self::TWO_ADICITY - bits)
    }
}

/// Eight Montgomery numbers in a vector of AVX2, by the formulas of p3's own packing.
#[cfg(target_feature = "avx2")]
mod v256 {
    use core::arch::x86_64::*;
    use super::{P31, P31_INVERSE};
    #[inline(always)]
    unsafe fn hd(x: __m256i) -> __m256i { unsafe { _mm256_castps_si256(_mm256_movehdup_ps(_mm256_castsi256_ps(x))) } }
    #[inline(always)]
    pub unsafe fn add(x: __m256i, y: __m256i) -> __m256i { unsafe {
        let t = _mm256_add_epi32(x, y);
        _mm256_min_epu32(t, _mm256_sub_epi32(t, _mm256_set1_epi32(P31 as i32)))
    } }
    #[inline(always)]
    pub unsafe fn sub(x: __m256i, y: __m256i) -> __m256i { unsafe {
        let t = _mm256_sub_epi32(x, y);
        _mm256_min_epu32(t, _mm256_add_epi32(t, _mm256_set1_epi32(P31 as i32)))
    } }
    #[inline(always)]
    pub unsafe fn mul(x: __m256i, y: __m256i) -> __m256i { unsafe {
        let p = _mm256_set1_epi32(P31 as i32);
        let mu = _mm256_set1_epi32(P31_INVERSE as i32);
        let pe = _mm256_mul_epu32(x, y);
        let po = _mm256_mul_epu32(hd(x), hd(y));
        let qe = _mm256_mul_epu32(pe, mu);
        let qo = _mm256_mul_epu32(po, mu);
        let re = _mm256_mul_epu32(qe, p);
        let ro = _mm256_mul_epu32(qo, p);
        let ph = _mm256_blend_epi32::<0xaa>(hd(pe), po);
        let qh = _mm256_blend_epi32::<0xaa>(hd(re), ro);
        sub(ph, qh)
    } }
}

/// Sixteen in a vector of AVX-512.
#[cfg(target_feature = "avx512dq")]
mod v512 {
    use core::arch::x86_64::*;
    use super::{P31, P31_INVERSE};
    #[inline(always)]
    unsafe fn hd(x: __m512i) -> __m512i { unsafe { _mm512_castps_si512(_mm512_movehdup_ps(_mm512_castsi512_ps(x))) } }
    #[inline(always)]
    pub unsafe fn add(x: __m512i, y: __m512i) -> __m512i { unsafe {
        let t = _mm512_add_epi32(x, y);
        _mm512_min_epu32(t, _mm512_sub_epi32(t, _mm512_set1_epi32(P31 as i32)))
    } }
    #[inline(always)]
    pub unsafe fn sub(x: __m512i, y: __m512i) -> __m512i { unsafe {
        let t = _mm512_sub_epi32(x, y);
        _mm512_min_epu32(t, _mm512_add_epi32(t, _mm512_set1_epi32(P31 as i32)))
    } }
    #[inline(always)]
    pub unsafe fn mul(x: __m512i, y: __m512i) -> __m512i { unsafe {
        let p = _mm512_set1_epi32(P31 as i32);
        let mu = _mm512_set1_epi32(P31_INVERSE as i32);
        let pe = _mm512_mul_epu32(x, y);
        let po = _mm512_mul_epu32(hd(x), hd(y));
        let qe = _mm512_mul_epu32(pe, mu);
        let qo = _mm512_mul_epu32(po, mu);
        let re = _mm512_mul_epu32(qe, p);
        let ro = _mm512_mul_epu32(qo, p);
        let ph = _mm512_mask_blend_epi32(0xaaaa, hd(pe), po);
        let qh = _mm512_mask_blend_epi32(0xaaaa, hd(re), ro);
        sub(ph, qh)
    } }
}
