// Made from crates/net_host/src/secret.rt by rust/translate: change it there.
//! Random words that nobody can tell who does not know the secret.

use crate::kit::rand_chacha::ChaCha20Rng;
use crate::kit::rand_core::SeedableRng;
use crate::kit::rand_core::utils::NextWord;
use crate::proved::host_context::Words;

/// The words of ChaCha20 under a key of 32 secret bytes, a fresh one for every draw: initial sequence numbers of one
/// connection tell nothing of another's (RFC 6528). The bytes have to be drawn anew at each start of the program.
/// They repeat after 2^68 words.
pub struct Secret {
    pub(crate) generator: ChaCha20Rng,
}

impl Secret {
    /// The words under this key, from the first on.
    pub fn new(key: [u8; 32]) -> Secret {
        Secret { generator: ChaCha20Rng::from_seed(key) }
    }
}

impl Words for Secret {
    fn next(&mut self) -> u32 {
        let _place = self.generator.get_word_pos(); // for its bound
        self.generator.next_word()
    }
}
