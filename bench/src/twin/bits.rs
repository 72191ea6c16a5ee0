//! Bits of a byte buffer, the lowest bit of each byte first.

use std::ops::Range;

#[inline]
pub fn get(bits: &[u8], index: usize) -> bool {
    bits[index / 8] >> (index % 8) & 1 != 0
}

#[inline]
pub fn put(bits: &mut [u8], index: usize, value: bool) {
    put_masked(&mut bits[index / 8], 1 << (index % 8), value);
}

/// Gives all bits of a range one value.
pub fn fill(bits: &mut [u8], range: Range<usize>, value: bool) {
    if range.is_empty() {
        return;
    }
    let (first, last) = (range.start / 8, (range.end - 1) / 8);
    let head = 0xff << (range.start % 8);
    let tail = 0xff >> (7 - (range.end - 1) % 8);
    if first == last {
        put_masked(&mut bits[first], head & tail, value);
        return;
    }
    put_masked(&mut bits[first], head, value);
    bits[first + 1..last].fill(if value { 0xff } else { 0 });
    put_masked(&mut bits[last], tail, value);
}

#[inline]
fn put_masked(byte: &mut u8, mask: u8, value: bool) {
    if value {
        *byte |= mask;
    } else {
        *byte &= !mask;
    }
}
