//! The proved planner's own search in plain Rust: inputs ask for outputs, and a wave of held outputs
//! asks its holders to move. It shows what is lost to the proof where the algorithm is the same;
//! `reference` was written by itself: it keeps its waves in a list, and what is left of a setting's
//! pairs in another.

pub mod one_word {
    type Label = u64;
    include!("search.rs");
}

/// As the proved code has them, which serves switches of 128 ports too.
pub mod two_words {
    type Label = u128;
    include!("search.rs");
}
