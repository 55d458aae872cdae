//! Stands in for two names of the crate's `utils`, which were not published. Nothing that is
//! compared or timed uses them.

use crate::Felt;

/// Stands in for the trait of maps from an index. Its methods are not used.
pub trait LookupByIdx<I, T> {}

/// Stands in for the packing of bytes, four to an element.
pub fn bytes_to_packed_u32_elements(bytes: &[u8]) -> Vec<Felt> {
    bytes
        .chunks(4)
        .map(|chunk| {
            let mut word = [0; 4];
            word[..chunk.len()].copy_from_slice(chunk);
            Felt::from_u32(u32::from_le_bytes(word))
        })
        .collect()
}
