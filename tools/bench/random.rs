//! Numbers that look drawn, the same in each run.

/// A number below a limit, by a xorshift generator.
pub fn below(random: &mut u64, limit: usize) -> usize {
    *random ^= *random << 13;
    *random ^= *random >> 7;
    *random ^= *random << 17;
    (*random % limit as u64) as usize
}
