//! Bits of 32-bit floats at their bounds, NaNs with payloads among them.

pub const SINGLES: [u32; 16] = [
    0x0000_0000,
    0x8000_0000,
    0x3F80_0000,
    0xBF80_0000,
    0x0000_0001,
    0x8000_0001,
    0x007F_FFFF,
    0x0080_0000,
    0x7F7F_FFFF,
    0x7F80_0000,
    0xFF80_0000,
    0x7F80_0001,
    0xFFBF_FFFF,
    0x7FC0_0000,
    0xFFC1_2345,
    0x7FFF_FFFF,
];
