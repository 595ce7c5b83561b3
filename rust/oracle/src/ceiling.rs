//! The ceiling on reads (document 02, [8]): a call that ends in anything but 12 or 13 accepts at most 8 more than it consumes bytes.

const MORE: u64 = 8;
const BROKEN_OFF: [u32; 2] = [12, 13];

/// Whether a call that was answered this number kept to it.
pub fn kept(number: u32, reads: u64, consumed: u64) -> bool {
    reads <= consumed + MORE || BROKEN_OFF.contains(&number)
}
