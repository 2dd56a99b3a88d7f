//! What reading a delivery costs at least.

/// The number of unreleased terminators: one pass over all bytes, one release flag, no call.
#[inline(never)]
pub fn terminators(d: &[u8]) -> usize {
    let mut count = 0;
    let mut is_released = false;
    for &byte in d {
        if is_released {
            is_released = false;
        } else if byte == b'?' {
            is_released = true;
        } else if byte == b'\'' {
            count += 1;
        }
    }
    count
}
