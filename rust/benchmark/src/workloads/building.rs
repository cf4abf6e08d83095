//! Grammars whose images are built: one of a few rules, and one of the most rules with the most classes.

/// 31 ranges that nowhere touch: two cuts for each, so 63 classes.
pub fn widest() -> Vec<u8> {
    (0..31).flat_map(|k| [5, 2 + 8 * k, 5 + 8 * k, 0]).collect()
}

/// The grammar of lines.
pub fn few() -> Vec<u8> {
    super::lines::GRAMMAR.as_flattened().to_vec()
}
