//! The one vector that is used: 32 bytes, compared at once.

/// 32 bytes.
#[allow(non_camel_case_types, reason = "the name of the portable vectors to come in Rust")]
#[derive(Clone, Copy, Debug)]
pub struct u8x32([u8; 32]);

/// A bit for each place.
#[derive(Clone, Copy, Debug)]
pub struct Mask(u32);

impl u8x32 {
    /// The first 32 bytes.
    #[inline(always)]
    pub fn from_slice(bytes: &[u8]) -> u8x32 {
        let mut made = [0; 32];
        made.copy_from_slice(&bytes[..32]);
        u8x32(made)
    }

    /// 32 times this byte.
    #[inline(always)]
    pub fn splat(byte: u8) -> u8x32 {
        u8x32([byte; 32])
    }

    /// Where both have the same byte.
    #[inline(always)]
    pub fn simd_eq(self, other: u8x32) -> Mask {
        Mask(equal(&self.0, &other.0))
    }
}

impl Mask {
    /// The bits, that of the first place lowest.
    #[inline(always)]
    pub fn to_bitmask(self) -> u64 {
        u64::from(self.0)
    }
}

#[cfg(target_arch = "x86_64")]
#[inline(always)]
fn equal(one: &[u8; 32], other: &[u8; 32]) -> u32 {
    use core::arch::x86_64::{__m128i, _mm_cmpeq_epi8, _mm_loadu_si128, _mm_movemask_epi8};
    let half = |at: usize| {
        // SAFETY: both arrays have 16 bytes from 0 and from 16 on, which need not be aligned, and each processor of this kind has
        // these instructions.
        unsafe {
            let one = _mm_loadu_si128(one[at..at + 16].as_ptr().cast::<__m128i>());
            let other = _mm_loadu_si128(other[at..at + 16].as_ptr().cast::<__m128i>());
            _mm_movemask_epi8(_mm_cmpeq_epi8(one, other)).cast_unsigned()
        }
    };
    half(0) | half(16) << 16
}

#[cfg(not(target_arch = "x86_64"))]
#[inline(always)]
fn equal(one: &[u8; 32], other: &[u8; 32]) -> u32 {
    let mut made = 0;
    for (place, (one, other)) in one.iter().zip(other).enumerate() {
        made |= u32::from(one == other) << place;
    }
    made
}

/// What is imported whole.
pub mod prelude {
    pub use super::u8x32;
}

#[cfg(test)]
mod tests {
    use super::u8x32;

    // Each place by itself, and all and none of them.
    #[test]
    fn has_a_bit_for_each_place() {
        let wanted = u8x32::splat(10);
        for place in 0..32 {
            let mut bytes = [9; 40];
            bytes[place] = 10;
            bytes[33] = 10;
            assert_eq!(u8x32::from_slice(&bytes).simd_eq(wanted).to_bitmask(), 1 << place);
        }
        assert_eq!(wanted.simd_eq(wanted).to_bitmask(), 0xffff_ffff);
        assert_eq!(u8x32::splat(9).simd_eq(wanted).to_bitmask(), 0);
    }
}
