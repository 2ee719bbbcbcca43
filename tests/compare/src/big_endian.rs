//! Big-endian numbers at a place of a slice.

pub fn u16_at(bytes: &[u8], at: usize) -> u16 {
    u16::from_be_bytes([bytes[at], bytes[at + 1]])
}

pub fn u32_at(bytes: &[u8], at: usize) -> u32 {
    u32::from_be_bytes(four_at(bytes, at))
}

pub fn u64_at(bytes: &[u8], at: usize) -> u64 {
    u64::from(u32_at(bytes, at)) << 32 | u64::from(u32_at(bytes, at + 4))
}

pub fn four_at(bytes: &[u8], at: usize) -> [u8; 4] {
    let four = &bytes[at..at + 4];
    [four[0], four[1], four[2], four[3]]
}
