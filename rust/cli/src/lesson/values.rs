//! The right-hand sides of a lesson: numbers, lists of them, counters.

use super::Values;
use crate::counter::{self, Counter};
use crate::failure::quoted;
use crate::register::{Elements, letter_of, size_of_letter};

/// Decimal, or hex after `0x`, or binary after `0b`.
pub fn number(text: &str) -> Option<u64> {
    let (digits, base) = if let Some(digits) = text.strip_prefix("0x") {
        (digits, 16)
    } else if let Some(digits) = text.strip_prefix("0b") {
        (digits, 2)
    } else {
        (text, 10)
    };
    // from_str_radix takes a sign, which only elements have here.
    let plain = digits.bytes().all(|digit| digit.is_ascii_alphanumeric());
    plain.then(|| u64::from_str_radix(digits, base).ok())?
}

/// A number that something holds.
pub fn number_up_to(what: &str, text: &str, greatest: u64) -> Result<u64, String> {
    number(text)
        .filter(|&value| value <= greatest)
        .ok_or_else(|| format!("{what}: {} is no number from 0 to {greatest}", quoted(text)))
}

/// A value of an element, with a sign or without.
fn value(elements: Elements, text: &str) -> Result<i128, String> {
    let (least, greatest) = (elements.least().into(), elements.greatest().into());
    let found = match text.strip_prefix('-') {
        Some(digits) => number(digits).map(|value| -i128::from(value)),
        None => number(text).map(i128::from),
    };
    found
        .filter(|value| (least..=greatest).contains(value))
        .ok_or_else(|| {
            let text = quoted(text);
            format!("{elements}: {text} is no number from {least} to {greatest}")
        })
}

/// The values of a register by element, at most as many as it has elements.
pub fn values(elements: Elements, text: &str, vl: u32) -> Result<Values, String> {
    let mut tokens: Vec<&str> = text.split_whitespace().collect();
    let repeat = tokens.last() == Some(&"repeat");
    if repeat {
        tokens.pop();
    }
    if tokens.is_empty() {
        return Err(format!("{elements}: there are no values"));
    }
    let name = elements.to_string();
    let mut list: Vec<i128> = Vec::new();
    for token in tokens {
        if matches!(token, "..." | "…") {
            return Err(format!(
                "{name}: {token} says too little: 1..8 is 1 to 8, and `repeat` at the end fills the register with the list again and again"
            ));
        }
        let room = elements.count(vl) as usize - list.len();
        let found = match token.split_once("..") {
            Some((from, to)) => range(value(elements, from)?, value(elements, to)?, room),
            None => Some(vec![value(elements, token)?]).filter(|_| room > 0),
        };
        let count = elements.count(vl);
        list.extend(
            found.ok_or_else(|| {
                format!("{name} has {count} elements at VL {vl}, and here are more")
            })?,
        );
    }
    let bits = |value: &i128| *value as u64 & elements.greatest();
    Ok(Values {
        signed: list.iter().any(|&value| value < 0),
        list: list.iter().map(bits).collect(),
        repeat,
    })
}

/// The whole numbers from one to another, up or down; none where they are
/// more than there is room for.
fn range(from: i128, to: i128, room: usize) -> Option<Vec<i128>> {
    if from.abs_diff(to) >= room as u128 {
        return None;
    }
    Some(if from <= to {
        (from..=to).collect()
    } else {
        (to..=from).rev().collect()
    })
}

/// What follows the word `counter`.
pub fn counter(text: &str, vl: u32) -> Result<Counter, String> {
    let tokens: Vec<&str> = text.split_whitespace().collect();
    let size = |letter: &str| {
        size_of_letter(letter).ok_or_else(|| {
            format!(
                "counter: {} is no element size: b, h, s or d",
                quoted(letter)
            )
        })
    };
    let count = |what: &str, size: u32| -> Result<u32, String> {
        let all = counter::elements(size, vl);
        let count = number_up_to("counter", what, u64::from(u32::MAX))? as u32;
        if count > all {
            return Err(format!(
                "counter: four registers have {all} elements .{} at VL {vl}, not {count}",
                letter_of(size)
            ));
        }
        Ok(count)
    };
    match tokens.as_slice() {
        [bits] => {
            let bits = number_up_to("counter", bits, u64::from(u16::MAX))?;
            Ok(Counter::Bits(bits as u16))
        }
        [letter, "none"] => Ok(Counter::First {
            size: size(letter)?,
            count: 0,
        }),
        [letter, "all"] => Ok(Counter::AllBut {
            size: size(letter)?,
            count: 0,
        }),
        [letter, "first", number] => {
            let size = size(letter)?;
            let count = count(number, size)?;
            Ok(Counter::First { size, count })
        }
        [letter, "all", "but", number] => {
            let size = size(letter)?;
            let count = count(number, size)?;
            Ok(Counter::AllBut { size, count })
        }
        _ => Err(
            "a counter is written `counter 0x8021`, `counter b first 16`, `counter b all but 16`, `counter b all` or `counter b none`"
                .to_string(),
        ),
    }
}

#[cfg(test)]
mod tests {
    use super::*;

    #[test]
    fn numbers() {
        assert_eq!(number("0"), Some(0));
        assert_eq!(number("0x1F"), Some(31));
        assert_eq!(number("0b101"), Some(5));
        assert_eq!(number("18446744073709551615"), Some(u64::MAX));
        for text in [
            "",
            "-1",
            "+1",
            "0x",
            "0x+1",
            "0b2",
            "1.5",
            "1e3",
            "18446744073709551616",
            "٣",
            "1_0",
        ] {
            assert_eq!(number(text), None, "{text}");
        }
    }

    #[test]
    fn lists() {
        let z = Elements::from_name("z0.h").unwrap();
        let list = |text| values(z, text, 128).map(|values| values.list);
        assert_eq!(list("1 2 0x10"), Ok(vec![1, 2, 16]));
        assert_eq!(list("0..3 3..0"), Ok(vec![0, 1, 2, 3, 3, 2, 1, 0]));
        assert_eq!(
            values(z, "1 2 repeat", 128).map(|values| values.repeat),
            Ok(true)
        );
        for text in [
            "", "repeat", "65536", "0..8", "0..7 8", "1 2 ...", "0..65535", "1..", "..2",
            "repeat 1", "1,2", "-32769", "--1", "-", "- 1", "+1", "-0x8001", "-4..4",
        ] {
            assert!(list(text).is_err(), "{text}");
        }
        assert_eq!(
            list("-1 -32768 -0x10 65535"),
            Ok(vec![65535, 32768, 65520, 65535])
        );
        assert_eq!(list("-2..1 0..-1"), Ok(vec![65534, 65535, 0, 1, 0, 65535]));
        let signed = |text| values(z, text, 128).map(|values| values.signed);
        assert_eq!([signed("1 65535"), signed("1 -1")], [Ok(false), Ok(true)]);
        let truths = Elements::from_name("p0.h").unwrap();
        assert!(values(truths, "-1", 128).is_err());
        let wide = Elements::from_name("z0.d").unwrap();
        assert_eq!(
            values(wide, "-9223372036854775808", 128).map(|values| values.list),
            Ok(vec![1 << 63])
        );
        assert!(values(wide, "0..18446744073709551615", 2048).is_err());
    }
}
