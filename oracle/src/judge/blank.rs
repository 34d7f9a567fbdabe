//! What stands in lent words before a call.

/// No kind, and nothing that an answer says.
pub const KEPT: u64 = 0x6b65_7074_2121_5a5a;

/// So many words that nothing was written to, no two of them equal.
pub fn blank(count: usize) -> Vec<u64> {
    (0..count as u64).map(|word| KEPT + word).collect()
}
