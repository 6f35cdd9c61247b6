//! Names as four 64-bit numbers, the first byte lowest, zeros after the end.
//!
//! A name has at most 32 bytes, so it fits these numbers; the tests of names
//! and the check's comparison look at eight bytes at a time.

use crate::layout::MAX_NAME;

/// A name's bytes with zeros up to 32.
#[derive(Clone, Copy, PartialEq, Eq)]
pub struct Text(pub [u64; 4]);

/// For each length of a name: bytes of value 255 where the name stands.
const MASKS: [[u64; 4]; MAX_NAME + 1] = {
    let mut table = [[0; 4]; MAX_NAME + 1];
    let mut length = 0;
    while length <= MAX_NAME {
        let mut at = 0;
        while at < length {
            table[length][at / 8] |= 255 << (8 * (at % 8));
            at += 1;
        }
        length += 1;
    }
    table
};

/// Nonzero exactly when one of the eight bytes is 0.
#[inline(always)]
fn zero_byte(value: u64) -> u64 {
    value.wrapping_sub(0x0101_0101_0101_0101) & !value & 0x8080_8080_8080_8080
}

impl Text {
    /// The text of 32 bytes.
    #[inline(always)]
    pub fn of(bytes: &[u8; MAX_NAME]) -> Text {
        let groups = bytes.as_chunks::<8>().0;
        Text([
            u64::from_le_bytes(groups[0]),
            u64::from_le_bytes(groups[1]),
            u64::from_le_bytes(groups[2]),
            u64::from_le_bytes(groups[3]),
        ])
    }

    /// The text of at most 32 bytes; what is longer is cut off.
    #[inline]
    pub fn padded(name: &[u8]) -> Text {
        let mut words = [0; 4];
        let (groups, rest) = name.as_chunks::<8>();
        for (word, group) in words.iter_mut().zip(groups) {
            *word = u64::from_le_bytes(*group);
        }
        if let Some(word) = words.get_mut(groups.len()) {
            for (at, &byte) in rest.iter().enumerate() {
                *word |= u64::from(byte) << (8 * at);
            }
        }
        Text(words)
    }

    /// Whether no byte of the first `length`, at most 32, is 0 or 0x2F.
    #[inline(always)]
    pub fn plain(&self, length: usize) -> bool {
        let mask = &MASKS[length.min(MAX_NAME)];
        let mut wrong = 0;
        for (word, inside) in self.0.iter().zip(mask) {
            wrong |= zero_byte(word | !inside);
            wrong |= zero_byte((word ^ 0x2F2F_2F2F_2F2F_2F2F) | !inside);
        }
        wrong == 0
    }

    /// Whether every byte after the first `length`, at most 32, is 0.
    #[inline(always)]
    pub fn ends_at(&self, length: usize) -> bool {
        let mask = &MASKS[length.min(MAX_NAME)];
        let mut wrong = 0;
        for (word, inside) in self.0.iter().zip(mask) {
            wrong |= word & !inside;
        }
        wrong == 0
    }

    /// Whether this is "." of a name without byte 0.
    #[inline(always)]
    pub fn is_dot(&self) -> bool {
        self.0[0] == 0x2E
    }

    /// Whether this is ".." of a name without byte 0.
    #[inline(always)]
    pub fn is_dot_dot(&self) -> bool {
        self.0[0] == 0x2E2E
    }

    /// Whether all bytes are 0.
    #[inline(always)]
    pub fn is_zero(&self) -> bool {
        (self.0[0] | self.0[1] | self.0[2] | self.0[3]) == 0
    }

    /// A number that depends on the directory and on every byte. Its high
    /// bits are well mixed. The factors of the words are digits of pi, chosen
    /// so that names spread that differ in one or two bytes: no factor, moved
    /// by whole bytes, comes near another.
    #[inline(always)]
    pub fn hash(&self, directory: u32) -> u64 {
        u64::from(directory)
            .wrapping_mul(0x9E37_79B9_7F4A_7C15)
            .wrapping_add(self.0[0].wrapping_mul(0xD131_0BA6_98DF_B5AD))
            .wrapping_add(self.0[1].wrapping_mul(0x4528_21E6_38D0_1377))
            .wrapping_add(self.0[2].wrapping_mul(0x9216_D5D9_8979_FB1B))
            .wrapping_add(self.0[3].wrapping_mul(0x243F_6A88_85A3_08D3))
    }
}
