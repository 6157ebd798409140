//! The mixed key, of which addresses are taken (document 02, change 3).

/// "4 × 256 words, lowest byte's row first": successive outputs of Marsaglia's xorshift32.
static TABLE: [u32; 1024] = table();

const SEED: u32 = 2463534242;

const fn table() -> [u32; 1024] {
    let mut words = [0; 1024];
    let mut word = SEED;
    let mut i = 0;
    while i < words.len() {
        word ^= word << 13;
        word ^= word >> 17;
        word ^= word << 5;
        words[i] = word;
        i += 1;
    }
    words
}

/// "The exclusive or of four table words, one for each byte of the key."
#[inline]
pub fn mixed(key: u32) -> u32 {
    let [a, b, c, d] = key.to_le_bytes().map(usize::from);
    TABLE[a] ^ TABLE[256 + b] ^ TABLE[512 + c] ^ TABLE[768 + d]
}
