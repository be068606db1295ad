//! A digest of buffers, the same as the program's: any one word that differs gives another digest.

pub struct Digest {
    value: u64,
}

impl Digest {
    pub fn start() -> Digest {
        Digest {
            value: 0xCBF2_9CE4_8422_2325,
        }
    }

    pub fn value(&self) -> u64 {
        self.value
    }

    pub fn add_words(&mut self, words: &[u32]) {
        for &word in words {
            self.add(u64::from(word));
        }
    }

    pub fn add_pairs(&mut self, pairs: &[u64]) {
        for &pair in pairs {
            self.add(pair);
        }
    }

    /// Each step can be undone, so no difference in one word is lost in later steps.
    fn add(&mut self, word: u64) {
        let product = (self.value ^ word).wrapping_mul((1 << 21) + 1);
        self.value = product ^ (product >> 29);
    }
}
