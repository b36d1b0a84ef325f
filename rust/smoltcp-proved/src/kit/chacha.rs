//! ChaCha20 (RFC 8439, section 2.3) as a source of words, under the names of the crates that the sources import.
pub mod rand_core {
    //! What a generator of words can do.

    /// A generator that begins with a seed.
    pub trait SeedableRng {
        /// The generator of these 32 bytes.
        fn from_seed(seed: [u8; 32]) -> Self;
    }

    pub mod utils {
        //! Words in turn.

        /// A generator of words of 32 bits.
        pub trait NextWord {
            /// The next word.
            fn next_word(&mut self) -> u32;
        }
    }
}

pub mod rand_chacha {
    //! The generator.
    use super::block;
    use super::rand_core::SeedableRng;
    use super::rand_core::utils::NextWord;

    // A place in a stream has 68 bits: 64 of the block, four of the word in it.
    const PLACES: u128 = (1 << 68) - 1;

    /// The words of ChaCha20's key stream, with 64 bits that count blocks and 64 that name the stream.
    #[derive(Debug, Clone)]
    pub struct ChaCha20Rng {
        key: [u32; 8],
        stream: u64,
        place: u128,
        // The block that was computed last, and its number.
        words: [u32; 16],
        block: Option<u64>,
    }

    impl ChaCha20Rng {
        /// Goes on in the stream of this number, at the same place.
        pub fn set_stream(&mut self, stream: u64) {
            (self.stream, self.block) = (stream, None);
        }

        /// Goes on at this word of the stream.
        pub fn set_word_pos(&mut self, place: u128) {
            self.place = place & PLACES;
        }

        /// Which word of the stream is the next one.
        pub fn get_word_pos(&self) -> u128 {
            self.place
        }
    }

    impl SeedableRng for ChaCha20Rng {
        fn from_seed(seed: [u8; 32]) -> ChaCha20Rng {
            let mut key = [0; 8];
            for (word, bytes) in key.iter_mut().zip(seed.chunks_exact(4)) {
                *word = u32::from_le_bytes([bytes[0], bytes[1], bytes[2], bytes[3]]);
            }
            ChaCha20Rng { key, stream: 0, place: 0, words: [0; 16], block: None }
        }
    }

    impl NextWord for ChaCha20Rng {
        fn next_word(&mut self) -> u32 {
            let number = (self.place >> 4) as u64;
            if self.block != Some(number) {
                self.words = block(&self.key, number, self.stream);
                self.block = Some(number);
            }
            let word = self.words[(self.place & 15) as usize];
            self.place = (self.place + 1) & PLACES;
            word
        }
    }
}

// RFC 8439, section 2.1.
fn quarter_round(state: &mut [u32; 16], [a, b, c, d]: [usize; 4]) {
    for (into, from, turned, bits) in [(a, b, d, 16), (c, d, b, 12), (a, b, d, 8), (c, d, b, 7)] {
        state[into] = state[into].wrapping_add(state[from]);
        state[turned] = (state[turned] ^ state[into]).rotate_left(bits);
    }
}

// RFC 8439, section 2.3, with 64 bits of a counter and of a stream in place of 32 and of a nonce of 96.
fn block(key: &[u32; 8], counter: u64, stream: u64) -> [u32; 16] {
    let mut first = [0x6170_7865, 0x3320_646e, 0x7962_2d32, 0x6b20_6574, 0, 0, 0, 0, 0, 0, 0, 0, 0, 0, 0, 0];
    first[4..12].copy_from_slice(key);
    (first[12], first[13]) = (counter as u32, (counter >> 32) as u32);
    (first[14], first[15]) = (stream as u32, (stream >> 32) as u32);
    let mut state = first;
    for _ in 0..10 {
        for column in 0..4 {
            quarter_round(&mut state, [column, column + 4, column + 8, column + 12]);
        }
        for column in 0..4 {
            let of = |row: usize| 4 * row + (column + row) % 4;
            quarter_round(&mut state, [of(0), of(1), of(2), of(3)]);
        }
    }
    for (word, begin) in state.iter_mut().zip(first) {
        *word = word.wrapping_add(begin);
    }
    state
}

#[cfg(test)]
mod tests {
    use super::rand_chacha::ChaCha20Rng;
    use super::rand_core::SeedableRng;
    use super::rand_core::utils::NextWord;
    use super::{block, quarter_round};

    // RFC 8439, section 2.1.1.
    #[test]
    fn a_quarter_round() {
        let mut state = [0; 16];
        state[..4].copy_from_slice(&[0x1111_1111, 0x0102_0304, 0x9b8d_6f43, 0x0123_4567]);
        quarter_round(&mut state, [0, 1, 2, 3]);
        assert_eq!(state[..4], [0xea2a_92f4, 0xcb1c_f8ce, 0x4581_472e, 0x5881_c4bb]);
    }

    // RFC 8439, section 2.3.2: block 1, nonce 00:00:00:09:00:00:00:4a:00:00:00:00.
    #[test]
    fn a_block() {
        let mut key = [0; 8];
        for (place, word) in key.iter_mut().enumerate() {
            let byte = 4 * place as u8;
            *word = u32::from_le_bytes([byte, byte + 1, byte + 2, byte + 3]);
        }
        let words = block(&key, 1 | 0x0900_0000 << 32, 0x4a00_0000);
        assert_eq!(words[..4], [0xe4e7_f110, 0x1559_3bd1, 0x1fdd_0f50, 0xc471_20a3]);
        assert_eq!(words[4..8], [0xc7f4_d1c7, 0x0368_c033, 0x9aaa_2204, 0x4e6c_d4c3]);
        assert_eq!(words[8..12], [0x4664_82d2, 0x09aa_9f07, 0x05d7_c214, 0xa202_8bd9]);
        assert_eq!(words[12..], [0xd19c_12b5, 0xb94e_16de, 0xe883_d0cb, 0x4e3c_50a2]);
    }

    // RFC 8439, appendix A.1, vectors 1 and 2: the key and the nonce are zero, the blocks 0 and 1.
    #[test]
    fn words_in_turn() {
        let mut words = ChaCha20Rng::from_seed([0; 32]);
        assert_eq!([words.next_word(), words.next_word()], [0xade0_b876, 0x903d_f1a0]);
        words.set_word_pos(15);
        assert_eq!([words.next_word(), words.next_word()], [0x8665_eeb2, 0xbee7_079f]);
        assert_eq!(words.get_word_pos(), 17);
    }

    #[test]
    fn streams_differ_and_places_stay() {
        let mut words = ChaCha20Rng::from_seed([7; 32]);
        let first = words.next_word();
        words.set_stream(1);
        words.set_word_pos(0);
        assert_ne!(words.next_word(), first);
        words.set_stream(0);
        assert_eq!(words.get_word_pos(), 1);
        words.set_word_pos(0);
        assert_eq!(words.next_word(), first);
        words.set_word_pos((1 << 68) - 1);
        words.next_word();
        assert_eq!(words.get_word_pos(), 0);
    }
}
