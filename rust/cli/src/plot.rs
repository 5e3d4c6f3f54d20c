//! A register's elements as a curve with axes, in SVG.

use crate::svg::Svg;

/// The elements from `first` on.
pub struct Curve {
    pub title: String,
    pub name: String,
    pub first: u32,
    pub values: Vec<i128>,
}

const WIDTH: f64 = 800.0;
const HEIGHT: f64 = 480.0;
const TOP: f64 = 48.0;
const RIGHT: f64 = 28.0;
const BOTTOM: f64 = 60.0;
const FONT: f64 = 13.0;
const COLOUR: &str = "#0b5fa5";
/// About the width of a digit of the labels.
const DIGIT: f64 = 8.0;
/// Beyond so many, points would cover the line.
const MOST_POINTS: usize = 64;

impl Curve {
    pub fn svg(&self) -> String {
        let Scale {
            step,
            lowest,
            highest,
        } = Scale::of(&self.values);
        let digits = [lowest, highest].map(|label| label.to_string().len());
        let left = 44.0 + DIGIT * digits[0].max(digits[1]) as f64;
        let last = self.first + self.values.len().saturating_sub(1) as u32;
        let across = f64::from((last - self.first).max(1));
        let x = |index: u32| left + f64::from(index - self.first) / across * (WIDTH - left - RIGHT);
        let floor = HEIGHT - BOTTOM;
        let high = (highest - lowest) as f64;
        let y = |value: i128| floor - (value - lowest) as f64 / high * (floor - TOP);

        let mut svg = Svg::new(WIDTH, HEIGHT);
        let (start, end) = (left, WIDTH - RIGHT);
        let middle = (start + end) / 2.0;
        svg.words((middle, 28.0), "middle", 16.0, &self.title);
        let ticks = (0..).map(|n| lowest + n * step);
        for tick in ticks.take_while(|&tick| tick <= highest) {
            let line = y(tick);
            let look = if tick == 0 { "#999" } else { "#ddd" };
            svg.line((start, line), (end, line), &format!("stroke=\"{look}\""));
            svg.words((left - 8.0, line + 4.5), "end", FONT, &tick.to_string());
        }
        let every = round_step(i128::from((last - self.first).div_ceil(16))) as u32;
        for tick in (self.first..=last).filter(|tick| tick.is_multiple_of(every)) {
            let at = x(tick);
            svg.line((at, floor), (at, floor + 5.0), "stroke=\"#333\"");
            svg.words((at, floor + 20.0), "middle", FONT, &tick.to_string());
        }
        svg.piece(&format!(
            "<path d=\"M{start:.1} {TOP}V{floor:.1}H{end:.1}\" fill=\"none\" stroke=\"#333\"/>"
        ));
        let below = format!("element of {}", self.name);
        svg.words((middle, HEIGHT - 16.0), "middle", FONT, &below);
        let upright = (TOP + floor) / 2.0;
        svg.piece(&format!(
            "<text transform=\"translate(20 {upright:.1}) rotate(-90)\" text-anchor=\"middle\" font-size=\"{FONT}\">value</text>"
        ));
        let points: Vec<(u32, i128)> = (self.first..).zip(self.values.iter().copied()).collect();
        let path: Vec<String> = points
            .iter()
            .map(|&(index, value)| format!("{:.1},{:.1}", x(index), y(value)))
            .collect();
        svg.piece(&format!(
            "<polyline points=\"{}\" fill=\"none\" stroke=\"{COLOUR}\" stroke-width=\"2\"/>",
            path.join(" ")
        ));
        if points.len() <= MOST_POINTS {
            for (index, value) in points {
                let at = (x(index), y(value));
                svg.dot(at, 4.0, COLOUR, &format!("element {index}: {value}"));
            }
        }
        svg.end()
    }
}

/// The upright axis: multiples of a round step, 0 among them, that the values
/// lie between.
struct Scale {
    step: i128,
    lowest: i128,
    highest: i128,
}

impl Scale {
    fn of(values: &[i128]) -> Scale {
        let least = values.iter().copied().min().unwrap_or(0).min(0);
        let greatest = values.iter().copied().max().unwrap_or(0).max(0);
        let step = round_step((greatest - least + 5) / 6);
        let lowest = least.div_euclid(step) * step;
        let highest = -(-greatest).div_euclid(step) * step;
        Scale {
            step,
            lowest,
            highest: highest.max(lowest + step),
        }
    }
}

/// The least of 1, 2, 5, 10, 20, 50, … that is not below a number.
fn round_step(least: i128) -> i128 {
    let mut power = 1;
    loop {
        for step in [power, 2 * power, 5 * power] {
            if step >= least {
                return step;
            }
        }
        power *= 10;
    }
}

#[cfg(test)]
mod tests {
    use super::*;

    #[test]
    fn steps_are_round() {
        let steps = [0, 1, 2, 3, 6, 11, 9332, i128::from(u64::MAX) / 6].map(round_step);
        assert_eq!(steps[..7], [1, 1, 2, 5, 10, 20, 10_000]);
        assert_eq!(steps[7], 5_000_000_000_000_000_000);
    }

    #[test]
    fn scales_hold_the_values_and_zero() {
        let scale = |values: &[i128]| {
            let Scale {
                step,
                lowest,
                highest,
            } = Scale::of(values);
            [step, lowest, highest]
        };
        assert_eq!(scale(&[]), [1, 0, 1]);
        assert_eq!(scale(&[0, 55987]), [10_000, 0, 60_000]);
        assert_eq!(scale(&[-3]), [1, -3, 0]);
        assert_eq!(scale(&[-32768, 32767]), [20_000, -40_000, 40_000]);
        assert_eq!(scale(&[-1, 100]), [20, -20, 100]);
    }

    /// A negative value lies below 0's line by as much as a positive one above.
    #[test]
    fn negative_values_are_below() {
        let curve = Curve {
            title: String::new(),
            name: "z0.h".to_string(),
            first: 0,
            values: vec![-30, 0, 30],
        };
        let svg = curve.svg();
        // The axis goes from -30 at y = 420 to 30 at y = 48.
        for (value, y) in [(-30, "420.0"), (0, "234.0"), (30, "48.0")] {
            let title = format!("<title>element {}: {value}</title>", value / 30 + 1);
            let dot = svg.lines().find(|line| line.contains(&title)).unwrap();
            assert!(dot.contains(&format!("cy=\"{y}\"")), "{dot}");
        }
        assert!(svg.contains(">-30</text>") && svg.contains("y1=\"234.0\""));
    }

    #[test]
    fn any_values_are_drawn() {
        for values in [
            vec![0],
            vec![7],
            vec![u64::MAX.into(); 256],
            vec![i64::MIN.into(), u64::MAX.into()],
            (-100..200).collect(),
            vec![],
        ] {
            let count = values.len();
            let curve = Curve {
                title: "<a & b>".to_string(),
                name: "z0.d".to_string(),
                first: 3,
                values,
            };
            let svg = curve.svg();
            assert!(svg.ends_with("</svg>\n") && !svg.contains("NaN") && !svg.contains("inf"));
            assert!(svg.contains("&lt;a &amp; b&gt;"));
            let circles = if count <= MOST_POINTS { count } else { 0 };
            assert_eq!(svg.matches("<circle").count(), circles);
        }
    }
}
