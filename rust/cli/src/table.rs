//! A register's elements in rows, before and after.

use crate::paint::Paint;

/// How wide the elements of a row may be together.
const ROW: usize = 64;

/// One state of the register.
pub struct Side<'a> {
    pub name: &'a str,
    pub values: &'a [i128],
}

/// How elements are written.
#[derive(Clone, Copy, PartialEq, Eq)]
pub enum Kind {
    /// As numbers, in columns.
    Numbers,
    /// As 0 and 1, in groups of eight.
    Truths,
}

/// The register's name, and each side with its elements; where a side differs
/// from the first, its elements are painted.
pub fn block(label: &str, sides: &[Side], kind: Kind, paint: Paint) -> String {
    let names = sides.iter().map(|side| side.name.len()).max().unwrap_or(0);
    let all = || sides.iter().flat_map(|side| side.values);
    let cell = match kind {
        Kind::Numbers => all()
            .map(|value| value.to_string().len())
            .max()
            .unwrap_or(1),
        Kind::Truths => 1,
    };
    let in_a_row = match kind {
        Kind::Numbers => (1..=6)
            .rev()
            .map(|k| 1 << k)
            .find(|n| n * (cell + 1) <= ROW),
        Kind::Truths => Some(ROW / 2),
    };
    let mut text = String::new();
    for (place, side) in sides.iter().enumerate() {
        let other = if place > 0 {
            Some(sides[0].values)
        } else {
            None
        };
        for (number, row) in rows(side.values, other, kind, cell, in_a_row.unwrap_or(1), paint)
            .into_iter()
            .enumerate()
        {
            let first = place == 0 && number == 0;
            let label_text = if first {
                paint.name(label)
            } else {
                " ".repeat(label.len())
            };
            let name = if number == 0 { side.name } else { "" };
            text.push_str(&format!("{label_text}  {name:<names$}  {row}\n"));
        }
    }
    text
}

fn rows(
    values: &[i128],
    other: Option<&[i128]>,
    kind: Kind,
    cell: usize,
    in_a_row: usize,
    paint: Paint,
) -> Vec<String> {
    let differs = |index: usize| other.is_some_and(|other| other.get(index) != values.get(index));
    if let [first, rest @ ..] = values
        && !rest.is_empty()
        && rest.iter().all(|value| value == first)
    {
        let text = format!("all {first}");
        let painted = (0..values.len()).any(differs);
        return vec![if painted { paint.good(&text) } else { text }];
    }
    let indexes = values.len().saturating_sub(1).to_string().len();
    let chunks = values.chunks(in_a_row).enumerate();
    let row = |(number, chunk): (usize, &[i128])| {
        let start = number * in_a_row;
        let mut row = paint.faint(&format!("{start:>indexes$}:"));
        for (place, value) in chunk.iter().enumerate() {
            if kind == Kind::Numbers || place % 8 == 0 {
                row.push(' ');
            }
            let digits = format!("{value:>cell$}");
            row.push_str(&if differs(start + place) {
                paint.good(&digits)
            } else {
                digits
            });
        }
        row
    };
    chunks.map(row).collect()
}

#[cfg(test)]
mod tests {
    use super::*;

    #[test]
    fn rows_of_numbers_and_of_truths() {
        let before = [0; 10];
        let after: Vec<i128> = (0..10).map(|n| n * 11_111).collect();
        let sides = [
            Side {
                name: "before",
                values: &before,
            },
            Side {
                name: "after",
                values: &after,
            },
        ];
        assert_eq!(
            block("z4.s", &sides, Kind::Numbers, Paint(false)),
            "z4.s  before  all 0\n      \
             after   0:     0 11111 22222 33333 44444 55555 66666 77777\n              \
             8: 88888 99999\n"
        );
        let side = Side {
            name: "after",
            values: &[-5, 12, -32768, 0],
        };
        assert_eq!(
            block("z0.h", &[side], Kind::Numbers, Paint(false)),
            "z0.h  after  0:     -5     12 -32768      0\n"
        );
        let bits: Vec<i128> = (0..16).map(|n| i128::from(n < 3)).collect();
        let side = Side {
            name: "after",
            values: &bits,
        };
        assert_eq!(
            block("p0.b", &[side], Kind::Truths, Paint(false)),
            "p0.b  after   0: 11100000 00000000\n"
        );
    }
}
