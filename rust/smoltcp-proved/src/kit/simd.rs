//! Sixteen bytes at a time, as two numbers of eight each, whose bytes are compared beside each other without a carry from
//! one to the next.
pub mod prelude {
    //! The names that a source imports.
    use core::ops::BitOr;

    // The upper bit of each byte, and the others.
    const UPPER: u64 = 0x8080_8080_8080_8080;
    const OTHERS: u64 = !UPPER;

    /// Sixteen bytes.
    #[allow(non_camel_case_types)] // the standard library's name
    #[derive(Debug, Clone, Copy, PartialEq, Eq)]
    pub struct u8x16([u64; 2]);

    /// One answer for each of sixteen bytes: the upper bit of each byte of two numbers.
    #[derive(Debug, Clone, Copy)]
    pub struct Mask([u64; 2]);

    // The upper bit of each byte as the lowest eight bits. No two of the product's terms meet.
    #[inline(always)]
    fn gathered(bits: u64) -> u64 {
        (bits >> 7).wrapping_mul(0x0102_0408_1020_4080) >> 56
    }

    // The upper bit of each byte that is the other's.
    #[inline(always)]
    fn equal(a: u64, b: u64) -> u64 {
        let differ = a ^ b;
        !(((differ & OTHERS) + OTHERS) | differ)
    }

    // The upper bit of each byte that is less than the other's.
    #[inline(always)]
    fn less(a: u64, b: u64) -> u64 {
        let not_less = (a | UPPER) - (b & OTHERS);
        (!a & b) | (!(a ^ b) & !not_less)
    }

    impl u8x16 {
        /// The first sixteen bytes of a slice that has so many.
        #[inline(always)]
        pub fn from_slice(bytes: &[u8]) -> u8x16 {
            let bytes = &bytes[..16];
            u8x16([crate::kit::le64(bytes, 0), crate::kit::le64(bytes, 8)])
        }

        /// One byte sixteen times.
        #[inline(always)]
        pub fn splat(byte: u8) -> u8x16 {
            u8x16([u64::from_ne_bytes([byte; 8]); 2])
        }

        #[inline(always)]
        fn mask(self, other: u8x16, holds: impl Fn(u64, u64) -> u64) -> Mask {
            Mask([0, 1].map(|at| holds(self.0[at], other.0[at]) & UPPER))
        }

        /// Which bytes are the other's.
        #[inline(always)]
        pub fn simd_eq(self, other: u8x16) -> Mask {
            self.mask(other, equal)
        }

        /// Which bytes are less than the other's.
        #[inline(always)]
        pub fn simd_lt(self, other: u8x16) -> Mask {
            self.mask(other, less)
        }

        /// Which bytes are more than the other's.
        #[inline(always)]
        pub fn simd_gt(self, other: u8x16) -> Mask {
            self.mask(other, |a, b| less(b, a))
        }
    }

    impl Mask {
        /// The answers as bits of a number, the first byte's the lowest. Mostly there is none.
        #[inline(always)]
        pub fn to_bitmask(self) -> u64 {
            let Mask([low, high]) = self;
            if low | high == 0 { 0 } else { gathered(low) | gathered(high) << 8 }
        }
    }

    impl BitOr for Mask {
        type Output = Mask;

        #[inline(always)]
        fn bitor(self, other: Mask) -> Mask {
            Mask([self.0[0] | other.0[0], self.0[1] | other.0[1]])
        }
    }
}

#[cfg(test)]
mod tests {
    use super::prelude::u8x16;

    #[test]
    fn a_mask_has_a_bit_for_each_byte() {
        let lanes = u8x16::from_slice(b"0123456789abcdefgh");
        assert_eq!(lanes.simd_eq(u8x16::splat(b'2')).to_bitmask(), 1 << 2);
        assert_eq!(lanes.simd_lt(u8x16::splat(b'2')).to_bitmask(), 0b11);
        let ends = lanes.simd_lt(u8x16::splat(b'1')) | lanes.simd_gt(u8x16::splat(b'e'));
        assert_eq!(ends.to_bitmask(), 1 | 1 << 15);
    }

    #[test]
    fn each_byte_is_compared_with_each() {
        for a in 0..=255u8 {
            for b in 0..=255u8 {
                let mut bytes = [b; 16];
                (bytes[0], bytes[7], bytes[8]) = (b.wrapping_sub(1), b.wrapping_add(1), b.wrapping_add(128));
                let (lanes, splat) = (u8x16::from_slice(&bytes), u8x16::splat(a));
                let bits = |holds: fn(u8, u8) -> bool| {
                    bytes
                        .iter()
                        .enumerate()
                        .fold(0, |bits, (at, byte)| bits | u64::from(holds(*byte, a)) << at)
                };
                assert_eq!(lanes.simd_eq(splat).to_bitmask(), bits(|x, y| x == y));
                assert_eq!(lanes.simd_lt(splat).to_bitmask(), bits(|x, y| x < y));
                assert_eq!(lanes.simd_gt(splat).to_bitmask(), bits(|x, y| x > y));
            }
        }
    }
}
