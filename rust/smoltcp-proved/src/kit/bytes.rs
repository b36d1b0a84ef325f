//! Reads of several bytes at once: the sources spell each as single bytes, which their toolchain joins and rustc does
//! not. Each panics where the bytes end before, as the sources do.

macro_rules! reads {
    ($($name:ident $number:ty, $from:ident, $what:literal;)*) => { $(
        #[doc = $what]
        #[inline(always)]
        pub(crate) fn $name(bytes: &[u8], at: usize) -> $number {
            let mut read = [0; size_of::<$number>()];
            read.copy_from_slice(&bytes[at..at + size_of::<$number>()]);
            <$number>::$from(read)
        }
    )* };
}

reads! {
    le16 u16, from_le_bytes, "The number of the two bytes at a place, the lowest first.";
    le32 u32, from_le_bytes, "The number of the four bytes at a place, the lowest first.";
    le64 u64, from_le_bytes, "The number of the eight bytes at a place, the lowest first.";
    be16 u16, from_be_bytes, "The number of the two bytes at a place, the highest first.";
    be32 u32, from_be_bytes, "The number of the four bytes at a place, the highest first.";
}

/// The sum of the four numbers of eight bytes from a place on, the lowest byte of each first.
#[inline(always)]
pub(crate) fn four_le64(bytes: &[u8], at: usize) -> u128 {
    let four = &bytes[at..at + 32];
    let number = |at| u128::from(le64(four, at));
    number(0) + number(8) + number(16) + number(24)
}

/// The sum of the sixteen numbers of eight bytes from a place on, the same.
#[inline(always)]
pub(crate) fn sixteen_le64(bytes: &[u8], at: usize) -> u128 {
    let all = &bytes[at..at + 128];
    four_le64(all, 0) + four_le64(all, 32) + four_le64(all, 64) + four_le64(all, 96)
}

#[cfg(test)]
mod tests {
    use super::*;

    #[test]
    fn bytes_are_read_in_their_order() {
        let bytes = [0, 1, 2, 3, 4, 5, 6, 7, 8];
        assert_eq!((le16(&bytes, 1), be16(&bytes, 1)), (0x0201, 0x0102));
        assert_eq!((le32(&bytes, 1), be32(&bytes, 1)), (0x0403_0201, 0x0102_0304));
        assert_eq!(le64(&bytes, 1), 0x0807_0605_0403_0201);
        let mut many = [0xff; 40];
        many[38] = 0;
        let more: [u8; 136] = core::array::from_fn(|at| at as u8);
        let sum = (0..16).map(|word| u128::from(le64(&more, 3 + 8 * word))).sum();
        assert_eq!(sixteen_le64(&more, 3), sum);
        assert_eq!(four_le64(&many, 7), 3 * u128::from(u64::MAX) + 0x00ff_ffff_ffff_ffff);
    }

    #[test]
    #[should_panic(expected = "out of range")]
    fn nothing_is_read_behind_the_end() {
        le64(&[0; 8], 1);
    }
}
