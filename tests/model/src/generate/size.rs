//! How large the drawn calls may be.

#[derive(Clone, Copy, PartialEq)]
pub struct Size {
    /// The deepest level drawn.
    pub deepest: u32,
    /// The most trips in a table of the usual scenes.
    pub trips: usize,
    /// The most words that a buffer is longer than it needs to be.
    pub spare: usize,
    /// The most edits in one history.
    pub edits: usize,
    /// Whether tables of 4,096 trips, and of the longest trips, are drawn at times.
    pub big: bool,
}

pub const FULL: Size = Size { deepest: 10, trips: 40, spare: 18, edits: 120, big: true };

/// For a probe that reads slowly.
pub const SMALL: Size = Size { deepest: 3, trips: 6, spare: 9, edits: 30, big: false };
