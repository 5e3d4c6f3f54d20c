//! Registers as rows of bits, bit 0 first.
//!
//! Everything execution does is done on such rows, one bit or one element at
//! a time, so that it can be read against the documents without thinking
//! about bytes. An element is a whole number in a `u128`, where no sum of
//! these operations can wrap.

/// The first `count` bits of some bytes: bit b is bit b mod 8 of byte b div 8.
pub fn read(bytes: &[u8], count: usize) -> Vec<bool> {
    let mut bits = Vec::new();
    for b in 0..count {
        bits.push(bytes[b / 8] >> (b % 8) & 1 == 1);
    }
    bits
}

/// Puts the bits over the first bits of the bytes. Those behind them stay.
pub fn write(bytes: &mut [u8], bits: &[bool]) {
    for (b, &bit) in bits.iter().enumerate() {
        let place = 1 << (b % 8);
        if bit {
            bytes[b / 8] |= place;
        } else {
            bytes[b / 8] &= !place;
        }
    }
}

/// Element `index` of `size` bits, its lowest bit first.
pub fn element(bits: &[bool], index: usize, size: usize) -> u128 {
    let mut value = 0;
    for b in 0..size {
        if bits[index * size + b] {
            value |= 1 << b;
        }
    }
    value
}

/// Sets element `index` to a number of at most `size` bits.
pub fn set_element(bits: &mut [bool], index: usize, size: usize, value: u128) {
    assert!(value >> size == 0, "{value} has more than {size} bits");
    for b in 0..size {
        bits[index * size + b] = value >> b & 1 == 1;
    }
}

#[cfg(test)]
mod tests {
    use super::*;

    #[test]
    fn low_bit_and_low_byte_first() {
        let bits = read(&[0x01, 0x80], 16);
        let set: Vec<usize> = (0..16).filter(|&b| bits[b]).collect();
        assert_eq!(set, [0, 15]);
        assert_eq!(element(&read(&[0x34, 0x12, 0xff], 24), 0, 16), 0x1234);
        assert_eq!(element(&read(&[0x21, 0x43], 16), 3, 4), 4);
    }

    #[test]
    fn bits_behind_stay() {
        let mut bytes = [0xff, 0xff, 0x5a];
        write(&mut bytes, &[false; 12]);
        assert_eq!(bytes, [0x00, 0xf0, 0x5a]);
    }

    #[test]
    fn elements_are_set_where_they_are_read() {
        let mut bits = vec![true; 128];
        set_element(&mut bits, 1, 64, 0x0123_4567_89ab_cdef);
        assert_eq!(element(&bits, 1, 64), 0x0123_4567_89ab_cdef);
        assert_eq!(element(&bits, 0, 64), u128::from(u64::MAX));
        let mut bytes = [0; 16];
        write(&mut bytes, &bits);
        assert_eq!(bytes[8..], 0x0123_4567_89ab_cdef_u64.to_le_bytes());
    }
}
