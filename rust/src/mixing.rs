//! The mixed key, of which a key's chain is taken: the exclusive or of four table words, one for each byte of the key.

/// The successive outputs of Marsaglia's xorshift32, a row of 256 for each byte, the lowest byte's first.
static TABLE: [u32; 1024] = table();

const SEED: u32 = 2_463_534_242;

const fn table() -> [u32; 1024] {
    let mut words = [0; 1024];
    let mut word = SEED;
    let mut place = 0;
    while place < words.len() {
        word ^= word << 13;
        word ^= word >> 17;
        word ^= word << 5;
        words[place] = word;
        place += 1;
    }
    words
}

pub(crate) fn mixed(key: u32) -> u32 {
    let [a, b, c, d] = key.to_le_bytes().map(usize::from);
    TABLE[a] ^ TABLE[256 + b] ^ TABLE[512 + c] ^ TABLE[768 + d]
}

#[cfg(test)]
mod tests {
    use super::*;

    #[test]
    fn the_table_is_that_of_the_specification() {
        assert_eq!((TABLE[0], TABLE[1023]), (723_471_715, 4_167_850_765));
        assert_eq!(mixed(42), 1_666_675_757);
    }
}
