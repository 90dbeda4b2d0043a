//! Numbers as rows of bits, most significant bit first.

/// A row of bits that is eaten from the front.
pub struct Bits {
    row: Vec<bool>,
    eaten: usize,
}

impl Bits {
    pub fn of(bytes: &[u8]) -> Bits {
        let mut row = Vec::new();
        for &byte in bytes {
            push(&mut row, u64::from(byte), 8);
        }
        Bits { row, eaten: 0 }
    }

    /// The number in the next `width` bits.
    pub fn eat(&mut self, width: usize) -> u64 {
        let mut value = 0;
        for _ in 0..width {
            value = 2 * value + u64::from(self.row[self.eaten]);
            self.eaten += 1;
        }
        value
    }

    /// How many bits were eaten, which is where the next one stands.
    pub fn eaten(&self) -> u64 {
        self.eaten as u64
    }

    /// The bits that nobody has eaten.
    pub fn rest(&self) -> &[bool] {
        &self.row[self.eaten..]
    }
}

/// Puts `value` behind the row, in `width` bits.
pub fn push(row: &mut Vec<bool>, value: u64, width: usize) {
    assert!(value < 1 << width, "{value} does not fit in {width} bits");
    for place in (0..width).rev() {
        row.push(value >> place & 1 == 1);
    }
}

/// How many bits the last byte of a row of `count` bits still takes.
pub fn free_bits(count: usize) -> usize {
    (8 - count % 8) % 8
}

/// The row in bytes; what the last byte has beyond the row is 0.
pub fn bytes_of(row: &[bool]) -> Vec<u8> {
    let mut bytes = Vec::new();
    for group in row.chunks(8) {
        let mut byte = 0;
        for (i, &bit) in group.iter().enumerate() {
            if bit {
                byte |= 128 >> i;
            }
        }
        bytes.push(byte);
    }
    bytes
}
