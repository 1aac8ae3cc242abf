//! A stand-in for the crate of this name, for speed only: the steps of its version 2.1, so that the
//! original is not slower than with that. Which hash it is changes no answer.

use std::hash::{BuildHasherDefault, Hasher};

pub type FxBuildHasher = BuildHasherDefault<FxHasher>;

#[derive(Debug, Clone, Copy, Default)]
pub struct FxHasher(u64);

const FACTOR: u64 = 0xf135_7aea_2e62_a9c5;
/// Digits of pi.
const PI: [u64; 3] = [
    0x243f_6a88_85a3_08d3,
    0x1319_8a2e_0370_7344,
    0xa409_3822_299f_31d0,
];

impl Hasher for FxHasher {
    #[inline]
    fn write(&mut self, bytes: &[u8]) {
        self.write_u64(word_of(bytes));
    }

    #[inline]
    fn write_u8(&mut self, byte: u8) {
        self.write_u64(byte.into());
    }

    #[inline]
    fn write_u64(&mut self, word: u64) {
        self.0 = self.0.wrapping_add(word).wrapping_mul(FACTOR);
    }

    /// A map looks at the low bits first, and the product's high bits are the better ones.
    #[inline]
    fn finish(&self) -> u64 {
        self.0.rotate_left(26)
    }
}

/// The halves of the whole product, one over the other.
#[inline]
fn mixed(one: u64, other: u64) -> u64 {
    let product = u128::from(one) * u128::from(other);
    product as u64 ^ (product >> 64) as u64
}

/// The first and the last bytes, which overlap in a short string, mixed; of one over 16 bytes all
/// that stands before them is mixed in first.
#[inline]
fn word_of(bytes: &[u8]) -> u64 {
    let [mut one, mut other, third] = PI;
    let len = bytes.len();
    if len > 16 {
        let mut rest = bytes;
        while rest.len() > 16 {
            let mix = mixed(one ^ first(rest), third ^ first(&rest[8..]));
            (one, other) = (other, mix);
            rest = &rest[16..];
        }
        one ^= first(&bytes[len - 16..]);
        other ^= first(&bytes[len - 8..]);
    } else if len >= 8 {
        one ^= first(bytes);
        other ^= first(&bytes[len - 8..]);
    } else if len >= 4 {
        one ^= first_half(bytes);
        other ^= first_half(&bytes[len - 4..]);
    } else if len > 0 {
        one ^= u64::from(bytes[0]);
        other ^= u64::from(bytes[len - 1]) << 8 | u64::from(bytes[len / 2]);
    }
    mixed(one, other) ^ len as u64
}

#[inline]
fn first(bytes: &[u8]) -> u64 {
    u64::from_le_bytes(bytes[..8].try_into().unwrap())
}

#[inline]
fn first_half(bytes: &[u8]) -> u64 {
    u32::from_le_bytes(bytes[..4].try_into().unwrap()).into()
}
