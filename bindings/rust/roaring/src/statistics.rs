//! What a set is made of.
use crate::{raw, RoaringBitmap};

/// How many containers of each kind a set has, how many members they have, and how many bytes they take when written.
#[derive(Clone, Copy, Debug, PartialEq)]
pub struct Statistics {
    /// The number of containers.
    pub n_containers: u32,
    /// The number of containers that are lists.
    pub n_array_containers: u32,
    /// The number of containers that are runs.
    pub n_run_containers: u32,
    /// The number of containers that are blocks of bits.
    pub n_bitset_containers: u32,
    /// The number of members in lists.
    pub n_values_array_containers: u32,
    /// The number of members in runs.
    pub n_values_run_containers: u32,
    /// The number of members in blocks.
    pub n_values_bitset_containers: u32,
    /// The number of bytes of lists.
    pub n_bytes_array_containers: u64,
    /// The number of bytes of runs.
    pub n_bytes_run_containers: u64,
    /// The number of bytes of blocks.
    pub n_bytes_bitset_containers: u64,
    /// The greatest member.
    pub max_value: Option<u32>,
    /// The least member.
    pub min_value: Option<u32>,
    /// The number of members.
    pub cardinality: u64,
}

impl RoaringBitmap {
    /// Counts the containers of each kind, and what they have. The counts of members are those modulo 2^32, which only
    /// the set of all numbers reaches.
    pub fn statistics(&self) -> Statistics {
        let mut kinds = raw::Kinds::default();
        // SAFETY: the set and the counts are borrowed for the call.
        unsafe { raw::bit_roaring_statistics(self.read(), &mut kinds) };
        let raw::Kinds { lists, blocks, runs } = kinds;
        Statistics {
            n_containers: lists.containers + blocks.containers + runs.containers,
            n_array_containers: lists.containers,
            n_run_containers: runs.containers,
            n_bitset_containers: blocks.containers,
            n_values_array_containers: lists.members as u32,
            n_values_run_containers: runs.members as u32,
            n_values_bitset_containers: blocks.members as u32,
            n_bytes_array_containers: lists.bytes,
            n_bytes_run_containers: runs.bytes,
            n_bytes_bitset_containers: blocks.bytes,
            max_value: self.max(),
            min_value: self.min(),
            cardinality: self.len(),
        }
    }
}
