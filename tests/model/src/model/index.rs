//! The three lent buffers of an index, and what a call replies.

#[derive(Clone, Debug, PartialEq)]
pub struct Index {
    pub directory: Vec<u32>,
    pub originals: Vec<u32>,
    pub replicas: Vec<u32>,
}

/// Number and detail; both are 0 for an accepted call.
#[derive(Clone, Copy, Debug, PartialEq)]
pub struct Reply {
    pub number: u32,
    pub detail: u32,
}

pub const ACCEPTED: Reply = Reply { number: 0, detail: 0 };

/// A refusal without a named detail.
pub fn refusal(number: u32) -> Reply {
    Reply { number, detail: 0 }
}

pub fn refusal_with(number: u32, detail: usize) -> Reply {
    Reply { number, detail: detail as u32 }
}

/// P = 2^(m+1) - 1, the partitions of all levels together.
pub fn partitions(m: u32) -> usize {
    (1usize << (m + 1)) - 1
}

/// "The directory has 4P + 2 words."
pub fn directory_length(m: u32) -> usize {
    4 * partitions(m) + 2
}

/// Partition i of level L has number 2^L - 1 + i.
pub fn partition_number(level: u32, partition: u32) -> usize {
    (1usize << level) - 1 + partition as usize
}
