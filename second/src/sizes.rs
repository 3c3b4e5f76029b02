//! The sizes that have been raised since the first box. All else takes them from
//! here.

#[derive(Clone, Copy, Debug, PartialEq, Eq)]
pub struct Sizes {
    /// Of a source, and of all spellings of a stored sheet.
    pub bytes: usize,
    /// Each node has a token of its own, so nodes need no limit of theirs.
    pub tokens: usize,
    /// Words of table memory.
    pub table: usize,
}

/// Those of the box.
pub const BOX: Sizes = Sizes {
    bytes: 49_152,
    tokens: 1_360,
    table: 16_384,
};

/// Those of the boxes before it.
pub const BEFORE: Sizes = Sizes {
    bytes: 8_192,
    tokens: 1_024,
    table: 12_288,
};
