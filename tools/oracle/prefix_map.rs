//! The trait that hash.rs implements. Its file is not at hand; document 01 gives its meaning.

mod hash;
pub use hash::HashPrefixMap;

pub trait PrefixMap<V> {
    /// The length of the longest key that begins `inp`, and its value.
    fn get_longest_prefix(&self, inp: &str) -> Option<(usize, &V)>;
}
