//! Goldilocks by canonical numbers, with the reduction that its modulus allows.

use std::ops::{Add, Mul, Neg, Sub};

use crate::{Field, Lanes, PrimeCharacteristicRing, PrimeField64, TwoAdicField, derived_ops};

pub const P64: u64 = 0xffff_ffff_0000_0001;
const EPSILON: u64 = 0xffff_ffff; // 2^64 modulo p

/// Goldilocks, packed in `L` lanes.
#[derive(Clone, Copy, PartialEq, Eq)]
#[repr(transparent)]
pub struct Fp64<const L: usize>(u64);

pub type Goldilocks = Fp64<1>;
pub type Goldilocks4 = Fp64<4>;
pub type Goldilocks8 = Fp64<8>;

#[inline(always)]
fn canonical(x: u64) -> u64 {
    x.min(x.wrapping_sub(P64))
}

#[inline(always)]
fn reduce(x: u128) -> u64 {
    let (low, high) = (x as u64, (x >> 64) as u64);
    // x = low + 2^64 * middle + 2^96 * top, 2^96 = -1 and 2^64 = EPSILON modulo p.
    let (top, middle) = (high >> 32, high & EPSILON);
    let (mut t, borrow) = low.overflowing_sub(top);
    if borrow {
        t = t.wrapping_sub(EPSILON);
    }
    let (mut r, carry) = t.overflowing_add(middle * EPSILON);
    if carry {
        r = r.wrapping_add(EPSILON);
    }
    canonical(r)
}

impl<const L: usize> Add for Fp64<L> {
    type Output = Self;
    #[inline(always)]
    fn add(self, o: Self) -> Self {
        let (s, carry) = self.0.overflowing_add(o.0);
        let less = s.wrapping_sub(P64);
        Self(if carry || s >= P64 { less } else { s })
    }
}
impl<const L: usize> Sub for Fp64<L> {
    type Output = Self;
    #[inline(always)]
    fn sub(self, o: Self) -> Self {
        let (d, borrow) = self.0.overflowing_sub(o.0);
        Self(if borrow { d.wrapping_add(P64) } else { d })
    }
}
impl<const L: usize> Mul for Fp64<L> {
    type Output = Self;
    #[inline(always)]
    fn mul(self, o: Self) -> Self {
        Self(reduce(self.0 as u128 * o.0 as u128))
    }
}
impl<const L: usize> Neg for Fp64<L> {
    type Output = Self;
    fn neg(self) -> Self {
        Self(0) - self
    }
}
derived_ops!([const L: usize] Fp64<L>);

impl<const L: usize> PrimeCharacteristicRing for Fp64<L> {
    type PrimeSubfield = Self;
    const ZERO: Self = Self(0);
    const ONE: Self = Self(1);
    const TWO: Self = Self(2);
    const NEG_ONE: Self = Self(P64 - 1);
    fn from_prime_subfield(f: Self) -> Self {
        f
    }
    /// By calloc, as the real crate does.
    fn zero_vec(n: usize) -> Vec<Self> {
        let mut v = std::mem::ManuallyDrop::new(vec![0_u64; n]);
        // SAFETY: the type is a transparent u64, and zero stands for zero.
        unsafe { Vec::from_raw_parts(v.as_mut_ptr().cast(), n, v.capacity()) }
    }
    fn halve(&self) -> Self {
        // For odd x, (x + p) / 2 = (x - 1) / 2 + (p + 1) / 2, which doesn't overflow.
        Self(self.0 / 2 + if self.0 & 1 == 1 { P64 / 2 + 1 } else { 0 })
    }
}
impl<const L: usize> Field for Fp64<L> {
    type Packing = Lanes<Self, L>;
    const GENERATOR: Self = Self(7);
    #[inline(always)]
    fn lanes_add<const N: usize>(a: [Self; N], b: [Self; N]) -> [Self; N] {
        #[cfg(target_feature = "avx512dq")]
        if N == 8 && L == 8 {
            unsafe {
                let r = v512::add(std::mem::transmute_copy(&a), std::mem::transmute_copy(&b));
                return std::mem::transmute_copy(&r);
            }
        }
        #[cfg(target_feature = "avx2")]
        if N == 4 && L == 4 {
            unsafe {
                let r = v256::add(std::mem::transmute_copy(&a), std::mem::transmute_copy(&b));
                return std::mem::transmute_copy(&r);
            }
        }
        let mut r = a;
        for i in 0..N { r[i] = a[i] + b[i]; }
        r
    }
    #[inline(always)]
    fn lanes_sub<const N: usize>(a: [Self; N], b: [Self; N]) -> [Self; N] {
        #[cfg(target_feature = "avx512dq")]
        if N == 8 && L == 8 {
            unsafe {
                let r = v512::sub(std::mem::transmute_copy(&a), std::mem::transmute_copy(&b));
                return std::mem::transmute_copy(&r);
            }
        }
        #[cfg(target_feature = "avx2")]
        if N == 4 && L == 4 {
            unsafe {
                let r = v256::sub(std::mem::transmute_copy(&a), std::mem::transmute_copy(&b));
                return std::mem::transmute_copy(&r);
            }
        }
        let mut r = a;
        for i in 0..N { r[i] = a[i] - b[i]; }
        r
    }
    #[inline(always)]
    fn lanes_mul<const N: usize>(a: [Self; N], b: [Self; N]) -> [Self; N] {
        #[cfg(target_feature = "avx512dq")]
        if N == 8 && L == 8 {
            unsafe {
                let r = v512::mul(std::mem::transmute_copy(&a), std::mem::transmute_copy(&b));
                return std::mem::transmute_copy(&r);
            }
        }
        #[cfg(target_feature = "avx2")]
        if N == 4 && L == 4 {
            unsafe {
                let r = v256::mul(std::mem::transmute_copy(&a), std::mem::transmute_copy(&b));
                return std::mem::transmute_copy(&r);
            }
        }
        let mut r = a;
        for i in 0..N { r[i] = a[i] * b[i]; }
        r
    }
    fn try_inverse(&self) -> Option<Self> {
        (!self.is_zero()).then(|| self.exp_u64(P64 - 2))
    }
}
impl<const L: usize> PrimeField64 for Fp64<L> {
    const ORDER_U64: u64 = P64;
    fn from_canonical(value: u64) -> Self {
        assert!(value < P64);
        Self(value)
    }
    fn as_canonical_u64(&self) -> u64 {
        canonical(self.0)
    }
}
impl<const L: usize> TwoAdicField for Fp64<L> {
    const TWO_ADICITY: usize = 32;
    fn two_adic_generator(bits: usize) -> Self {
        assert!(bits <= Self::TWO_ADICITY);
        Self::GENERATOR.exp_u64(EPSILON).exp_power_of_2(Self::TWO_ADICITY - bits)
    }
}

/// Four numbers in a vector of AVX2, by the formulas of p3's own packing. What comes out may be above the modulus, as
/// there; a scalar sum of two such numbers may then be wrong, which is likely for one in 2^64 of them: for times alone.
#[cfg(target_feature = "avx2")]
mod v256 {
    use core::arch::x86_64::*;
    use super::P64;
    const SIGN: i64 = i64::MIN;
    #[inline(always)]
    unsafe fn shift(x: __m256i) -> __m256i { unsafe { _mm256_xor_si256(x, _mm256_set1_epi64x(SIGN)) } }
    #[inline(always)]
    unsafe fn canon_s(x: __m256i) -> __m256i { unsafe {
        let mask = _mm256_cmpgt_epi64(_mm256_set1_epi64x((P64 ^ (1 << 63)) as i64), x);
        _mm256_add_epi64(x, _mm256_andnot_si256(mask, _mm256_set1_epi64x(0xffff_ffff)))
    } }
    #[inline(always)]
    pub unsafe fn add(x: __m256i, y: __m256i) -> __m256i { unsafe {
        let ys = canon_s(shift(y));
        let r = _mm256_add_epi64(x, ys);
        let mask = _mm256_cmpgt_epi64(ys, r);
        shift(_mm256_add_epi64(r, _mm256_srli_epi64::<32>(mask)))
    } }
    #[inline(always)]
    pub unsafe fn sub(x: __m256i, y: __m256i) -> __m256i { unsafe {
        let ys = canon_s(shift(y));
        let xs = shift(x);
        let mask = _mm256_cmpgt_epi64(ys, xs);
        _mm256_sub_epi64(_mm256_sub_epi64(xs, ys), _mm256_srli_epi64::<32>(mask))
    } }
    #[inline(always)]
    pub unsafe fn mul(x: __m256i, y: __m256i) -> __m256i { unsafe {
        let eps = _mm256_set1_epi64x(0xffff_ffff);
        let xh = _mm256_castps_si256(_mm256_movehdup_ps(_mm256_castsi256_ps(x)));
        let yh = _mm256_castps_si256(_mm256_movehdup_ps(_mm256_castsi256_ps(y)));
        let ll = _mm256_mul_epu32(x, y);
        let lh = _mm256_mul_epu32(x, yh);
        let hl = _mm256_mul_epu32(xh, y);
        let hh = _mm256_mul_epu32(xh, yh);
        let t0 = _mm256_add_epi64(hl, _mm256_srli_epi64::<32>(ll));
        let t1 = _mm256_add_epi64(lh, _mm256_and_si256(t0, eps));
        let t2 = _mm256_add_epi64(hh, _mm256_srli_epi64::<32>(t0));
        let hi = _mm256_add_epi64(t2, _mm256_srli_epi64::<32>(t1));
        let lo = _mm256_blend_epi32::<0xaa>(ll, _mm256_castps_si256(_mm256_moveldup_ps(_mm256_castsi256_ps(t1))));
        let los = shift(lo);
        let top = _mm256_srli_epi64::<32>(hi);
        let w = _mm256_sub_epi64(los, top);
        let l1 = _mm256_sub_epi64(w, _mm256_srli_epi64::<32>(_mm256_cmpgt_epi32(w, los)));
        let m = _mm256_mul_epu32(hi, eps);
        let s = _mm256_add_epi64(l1, m);
        shift(_mm256_add_epi64(s, _mm256_srli_epi64::<32>(_mm256_cmpgt_epi32(l1, s))))
    } }
}

/// Eight in a vector of AVX-512.
#[cfg(target_feature = "avx512dq")]
mod v512 {
    use core::arch::x86_64::*;
    use super::P64;
    #[inline(always)]
    unsafe fn canon(x: __m512i) -> __m512i { unsafe {
        let p = _mm512_set1_epi64(P64 as i64);
        _mm512_min_epu64(x, _mm512_sub_epi64(x, p))
    } }
    #[inline(always)]
    pub unsafe fn add(x: __m512i, y: __m512i) -> __m512i { unsafe {
        let y = canon(y);
        let r = _mm512_add_epi64(x, y);
        let mask = _mm512_cmplt_epu64_mask(r, y);
        _mm512_mask_add_epi64(r, mask, r, _mm512_set1_epi64(0xffff_ffff))
    } }
    #[inline(always)]
    pub unsafe fn sub(x: __m512i, y: __m512i) -> __m512i { unsafe {
        let y = canon(y);
        let mask = _mm512_cmplt_epu64_mask(x, y);
        let r = _mm512_sub_epi64(x, y);
        _mm512_mask_sub_epi64(r, mask, r, _mm512_set1_epi64(0xffff_ffff))
    } }
    #[inline(always)]
    pub unsafe fn mul(x: __m512i, y: __m512i) -> __m512i { unsafe {
        let eps = _mm512_set1_epi64(0xffff_ffff);
        let xh = _mm512_srli_epi64::<32>(x);
        let yh = _mm512_srli_epi64::<32>(y);
        let ll = _mm512_mul_epu32(x, y);
        let lh = _mm512_mul_epu32(x, yh);
        let hl = _mm512_mul_epu32(xh, y);
        let hh = _mm512_mul_epu32(xh, yh);
        let t0 = _mm512_add_epi64(hl, _mm512_srli_epi64::<32>(ll));
        let t1 = _mm512_add_epi64(lh, _mm512_and_si512(t0, eps));
        let t2 = _mm512_add_epi64(hh, _mm512_srli_epi64::<32>(t0));
        let hi = _mm512_add_epi64(t2, _mm512_srli_epi64::<32>(t1));
        let lo = _mm512_mask_blend_epi32(0xaaaa, ll, _mm512_castps_si512(_mm512_moveldup_ps(_mm512_castsi512_ps(t1))));
        let top = _mm512_srli_epi64::<32>(hi);
        let w = _mm512_sub_epi64(lo, top);
        let w = _mm512_mask_sub_epi64(w, _mm512_cmplt_epu64_mask(lo, top), w, eps);
        let m = _mm512_mul_epu32(hi, eps);
        let s = _mm512_add_epi64(w, m);
        _mm512_mask_add_epi64(s, _mm512_cmplt_epu64_mask(s, w), s, eps)
    } }
}
