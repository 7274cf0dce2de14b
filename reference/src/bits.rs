//! Packed fields, most significant bit first, without gaps.

pub struct FieldReader<'a> {
    bytes: &'a [u8],
    at: usize,
}

impl<'a> FieldReader<'a> {
    pub fn new(bytes: &'a [u8]) -> Self {
        FieldReader { bytes, at: 0 }
    }

    /// Bits not yet read.
    pub fn left(&self) -> usize {
        self.bytes.len() * 8 - self.at
    }

    /// The next field, or nothing where too few bits are left.
    pub fn take(&mut self, width: usize) -> Option<u32> {
        if self.left() < width {
            return None;
        }
        let mut value = 0;
        for at in self.at..self.at + width {
            let bit = self.bytes[at / 8] >> (7 - at % 8) & 1;
            value = 2 * value + bit as u32;
        }
        self.at += width;
        Some(value)
    }
}

#[derive(Default)]
pub struct FieldWriter {
    bits: Vec<bool>,
}

impl FieldWriter {
    /// Appends a field; a value too large for it loses its upper bits.
    pub fn put(&mut self, width: usize, value: u32) {
        self.bits.extend((0..width).rev().map(|k| value >> k & 1 == 1));
    }

    /// The fields as bytes, the last one filled with zero bits.
    pub fn bytes(&self) -> Vec<u8> {
        let byte = |bits: &[bool]| bits.iter().enumerate().fold(0, |byte, (k, bit)| byte | (*bit as u8) << (7 - k));
        self.bits.chunks(8).map(byte).collect()
    }
}
