//! Which field reaches an address: the two candidates are tried, one of each direction.

/// A signed count of tetras for each direction: f, or f − size.
fn count(backward: bool, size: u32, field: u32) -> i128 {
    field as i128 - if backward { size as i128 } else { 0 }
}

/// Where the field leads from an address, modulo 2^64.
fn target(from: u64, backward: bool, size: u32, field: u32) -> u64 {
    (from as i128 + 4 * count(backward, size, field)).rem_euclid(1 << 64) as u64
}

/// Direction and field, of `size` many, or none. A field that reaches is, modulo `size`, the distance in tetras: so of each
/// direction one alone can.
pub fn find(size: u32, from: u64, to: u64) -> Option<(bool, u32)> {
    let candidate = ((to as i128 - from as i128).div_euclid(4)).rem_euclid(size as i128) as u32;
    [false, true].into_iter().find(|way| target(from, *way, size, candidate) == to).map(|way| (way, candidate))
}
