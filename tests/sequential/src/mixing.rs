//! The mixed key, of which addresses are taken (document 02, change 3).

/// "4 × 256 words, lowest byte's row first."
static TABLE: [[u32; 256]; 4] = table();

/// Successive outputs of Marsaglia's xorshift32 "with shifts 13 left, 17 right, 5 left from seed
/// 2463534242".
const fn table() -> [[u32; 256]; 4] {
    let mut rows = [[0; 256]; 4];
    let mut word: u32 = 2463534242;
    let mut i = 0;
    while i < 1024 {
        word ^= word << 13;
        word ^= word >> 17;
        word ^= word << 5;
        rows[i / 256][i % 256] = word;
        i += 1;
    }
    rows
}

/// "The exclusive or of four table words, one for each byte of the key."
pub fn mixed(key: u32) -> u32 {
    let bytes = key.to_le_bytes();
    let words = TABLE.iter().zip(bytes);
    words.fold(0, |sum, (row, byte)| sum ^ row[usize::from(byte)])
}

#[cfg(test)]
mod tests {
    use super::*;

    #[test]
    fn known_words() {
        assert_eq!((TABLE[0][0], TABLE[3][255]), (723471715, 4167850765));
        assert_eq!(mixed(42), 1666675757);
        assert_eq!(mixed(57336), mixed(333223));
    }
}
