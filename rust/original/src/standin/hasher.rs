//! Stands in for the hasher. Nothing that is compared or timed hashes: every digest is zero.

use crate::{Felt, Word};

/// Stands in for the hash of a list of elements. It is no hash.
pub fn hash_elements(_elements: &[Felt]) -> Word {
    Word::ZERO
}
