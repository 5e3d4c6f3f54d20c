//! The form of a word under all features.

/// 1 to 5 in the order of document 01's table, 6 to 21 for the narrowing words
/// in the order of their bits op:U:R:T, 0 for an undefined word.
///
/// Every test is made and the results are added up, since no branch can be
/// guessed for words in no order. At most one of the tests holds.
#[inline]
pub fn form_of(word: u32) -> u32 {
    let pext1 = word & 0xff3f_fc10 == 0x2520_7010;
    let pext2 = word & 0xff3f_fe10 == 0x2520_7410;
    // tszh:tszl is not 0000
    let psel = (word & 0xff20_c210 == 0x2520_4000) & (word & 0x005c_0000 != 0);
    // size is 01 or 10
    let luti4c = (word & 0xfffe_fc03 == 0xc08a_9000) | (word & 0xfffe_fc03 == 0xc08a_a000);
    // size is 01
    let luti4s = word & 0xfffe_fc0c == 0xc09a_9000;
    // tszh:tszl is not 000
    let narrow = (word & 0xffa0_c000 == 0x4520_0000) & (word & 0x0058_0000 != 0);
    u32::from(pext1)
        + 2 * u32::from(pext2)
        + 3 * u32::from(psel)
        + 4 * u32::from(luti4c)
        + 5 * u32::from(luti4s)
        + (6 + (word >> 10 & 15)) * u32::from(narrow)
}

#[cfg(test)]
mod tests {
    use super::*;
    use reference::decode::decode;
    use reference::instruction::Instruction;
    use reference::samples::listing_words;
    use reference::setting::FULL;

    #[test]
    fn words_of_document_01() {
        assert_eq!(form_of(0x2520_7010), 1);
        assert_eq!(form_of(0x2520_741f), 2);
        assert_eq!(form_of(0x25e0_4000), 3);
        assert_eq!(form_of(0x2520_4000), 0);
        assert_eq!(form_of(0xc08a_9000), 4);
        assert_eq!(form_of(0xc08a_b000), 0);
        assert_eq!(form_of(0xc09a_9000), 5);
        assert_eq!(form_of(0xc09a_a000), 0);
        assert_eq!(form_of(0x4528_3800), 20);
        assert_eq!(form_of(0x4520_3800), 0);
    }

    fn number(instruction: Instruction) -> u32 {
        match instruction {
            Instruction::Narrow { bits, .. } => 6 + bits,
            other => 1 + other.row() as u32,
        }
    }

    /// Words by stride, and samples rich in matches.
    #[test]
    fn forms_of_the_reference() {
        let by_stride = (0..=u32::MAX).step_by(1021);
        for word in by_stride.chain(listing_words(4, 500_000)) {
            let expected = decode(FULL, word).map_or(0, number);
            assert_eq!(form_of(word), expected, "{word:08x}");
        }
    }
}
