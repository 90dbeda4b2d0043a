//! Files written out by hand.

/// The bytes of bits that are written out, spaces aside.
pub fn bytes(bits: &str) -> Vec<u8> {
    let digits: Vec<char> = bits.chars().filter(|digit| *digit != ' ').collect();
    let byte = |eight: &[char]| u8::from_str_radix(&String::from_iter(eight), 2).expect("bits");
    assert_eq!(digits.len() % 8, 0);
    digits.chunks(8).map(byte).collect()
}
