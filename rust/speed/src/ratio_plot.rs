//! The ratios as an SVG: a panel for each vector length, a line for each
//! stretch, on one logarithmic axis.

use gighull_cli::svg::{Point, Svg};

use crate::ratios::{Ratios, Row};

const FONT: f64 = 13.0;
/// About the width of a letter.
const LETTER: f64 = 7.8;
const EDGE: f64 = 16.0;
/// What the axis' title takes.
const LEAST_WIDTH: f64 = 640.0;
/// Above the lines: title, legend, and the panels' titles.
const TOP: f64 = 104.0;
/// Below them: the axis' numbers, and its title.
const BOTTOM: f64 = 68.0;
const LINE: f64 = 20.0;
/// Between stretches whose first words differ.
const GROUP: f64 = 8.0;
const PANEL: f64 = 264.0;
const BETWEEN: f64 = 26.0;

const WITHIN: &str = "#0b5fa5";
const OVER: &str = "#c0392b";
const BAR: &str = "#222";

pub fn svg(ratios: &Ratios) -> String {
    let longest = ratios.names.iter().map(|name| name.chars().count());
    let labels = LETTER * longest.max().unwrap_or(0) as f64;
    let axis = Axis::of(ratios);
    let places = places(&ratios.names);
    let left = EDGE + labels + 12.0;
    let across = PANEL + BETWEEN;
    let width = left + across * ratios.lengths.len() as f64 - BETWEEN + EDGE;
    let width = width.max(LEAST_WIDTH);
    let floor = TOP + places.last().map_or(0.0, |last| last + LINE);
    let height = floor + BOTTOM;

    let mut svg = Svg::new(width, height);
    let rounds = match ratios.rounds {
        Some(rounds) => format!(", median of {rounds} rounds"),
        None => String::new(),
    };
    let title = format!("Time of the proved library divided by the baseline's{rounds}");
    svg.words((EDGE, 28.0), "start", 16.0, &title);
    legend(&mut svg, ratios);
    svg.words((left - 12.0, TOP - 10.0), "end", 14.0, "stretch");
    for (name, place) in ratios.names.iter().zip(&places) {
        let at = (left - 12.0, TOP + place + LINE / 2.0 + 4.5);
        svg.words(at, "end", FONT, name);
    }
    let panels = ratios.rows.chunks(ratios.names.len());
    for (number, (vl, rows)) in ratios.lengths.iter().zip(panels).enumerate() {
        let start = left + across * number as f64;
        let panel = Panel { axis, start, floor };
        let at = (start + PANEL / 2.0, TOP - 10.0);
        svg.words(at, "middle", 14.0, &format!("VL {vl}"));
        panel.frame(&mut svg);
        for (row, place) in rows.iter().zip(&places) {
            panel.row(&mut svg, row, TOP + place + LINE / 2.0);
        }
    }
    let title =
        "median ratio proved/baseline, logarithmic: left of 1 the proved library is quicker";
    svg.words((width / 2.0, height - EDGE), "middle", FONT, title);
    svg.end()
}

/// Where each stretch's line begins, from the top of the lines.
fn places(names: &[String]) -> Vec<f64> {
    let mut place = 0.0;
    let mut places = Vec::new();
    let group = |name: &str| name.split(' ').next().map(str::to_string);
    for (number, name) in names.iter().enumerate() {
        if number > 0 && group(name) != group(&names[number - 1]) {
            place += GROUP;
        }
        places.push(place);
        place += LINE;
    }
    places
}

#[derive(Clone, Copy)]
struct Axis {
    least: f64,
    greatest: f64,
}

impl Axis {
    /// So that no ratio, no bar and not 1 is at an end.
    fn of(ratios: &Ratios) -> Axis {
        let rows = ratios.rows.iter();
        let values = rows.flat_map(|row| [Some(row.median), row.bar]).flatten();
        let (least, greatest) = values.fold((1f64, 1f64), |(least, greatest), value| {
            (value.min(least), value.max(greatest))
        });
        Axis {
            least: least * 0.8,
            greatest: greatest * 1.25,
        }
    }

    fn decade(self) -> f64 {
        PANEL / (self.greatest / self.least).log10()
    }

    fn x(self, value: f64) -> f64 {
        (value / self.least).log10() * self.decade()
    }

    fn ticks(self) -> impl Iterator<Item = f64> {
        ticks().filter(move |tick| (self.least..=self.greatest).contains(tick))
    }

    /// Not all where they would touch.
    fn has_label(self, tick: f64) -> bool {
        self.decade() > 105.0 || (tick.log10() - tick.log10().round()).abs() < 1e-6
    }
}

/// 1, 2 and 5 by powers of ten, beyond all ratios that are read.
fn ticks() -> impl Iterator<Item = f64> {
    let power = |exponent: i32| [1.0, 2.0, 5.0].map(|digit| digit * 10f64.powi(exponent));
    (-4..=4).flat_map(power)
}

#[derive(Clone, Copy)]
struct Panel {
    axis: Axis,
    start: f64,
    floor: f64,
}

impl Panel {
    fn x(self, value: f64) -> f64 {
        self.start + self.axis.x(value)
    }

    fn frame(self, svg: &mut Svg) {
        for tick in self.axis.ticks() {
            let (x, is_one) = (self.x(tick), (tick - 1.0).abs() < 1e-6);
            let look = if is_one {
                "stroke=\"#555\" stroke-width=\"1.5\""
            } else {
                "stroke=\"#ddd\""
            };
            svg.line((x, TOP), (x, self.floor), look);
            if self.axis.has_label(tick) {
                let label = format!("{}", (tick * 1e4).round() / 1e4);
                svg.words((x, self.floor + 18.0), "middle", 12.0, &label);
            }
        }
        let (x, high) = (self.start, self.floor - TOP);
        svg.piece(&format!(
            "<rect x=\"{x:.1}\" y=\"{TOP:.1}\" width=\"{PANEL}\" height=\"{high:.1}\" fill=\"none\" stroke=\"#999\"/>"
        ));
    }

    /// A stem from 1 to the ratio, the bar, and the ratio's mark.
    fn row(self, svg: &mut Svg, row: &Row, y: f64) {
        let at = (self.x(row.median), y);
        let colour = if row.is_over() { OVER } else { WITHIN };
        let look = format!("stroke=\"{colour}\" stroke-width=\"2\"");
        svg.line((self.x(1.0), y), at, &look);
        let mut title = format!("{} at VL {}: {}", row.name, row.vl, row.median);
        if let Some(bar) = row.bar {
            bar_mark(svg, (self.x(bar), y));
            title += &format!(", bar {bar}");
        }
        if row.is_over() {
            over_mark(svg, at, &title);
        } else {
            within_mark(svg, at, &title);
        }
    }
}

fn within_mark(svg: &mut Svg, at: Point, title: &str) {
    svg.dot(at, 4.5, WITHIN, title);
}

fn over_mark(svg: &mut Svg, at: Point, title: &str) {
    svg.diamond(at, 6.0, OVER, title);
}

fn bar_mark(svg: &mut Svg, (x, y): Point) {
    let look = format!("stroke=\"{BAR}\" stroke-width=\"2.5\"");
    svg.line((x, y - 8.0), (x, y + 8.0), &look);
}

/// Only of the marks that are there.
fn legend(svg: &mut Svg, ratios: &Ratios) {
    type Mark = fn(&mut Svg, Point);
    let rows = &ratios.rows;
    let entries: [(bool, &str, Mark); 3] = [
        (!rows.iter().all(Row::is_over), "ratio", |svg, at| {
            within_mark(svg, at, "");
        }),
        (
            rows.iter().any(Row::is_over),
            "ratio over its bar",
            |svg, at| over_mark(svg, at, ""),
        ),
        (
            rows.iter().any(|row| row.bar.is_some()),
            "bar (the most the ratio may be)",
            bar_mark,
        ),
    ];
    let (mut x, y) = (EDGE + 6.0, 56.0);
    for (_, words, mark) in entries.into_iter().filter(|(is_there, ..)| *is_there) {
        mark(svg, (x, y));
        svg.words((x + 14.0, y + 4.5), "start", FONT, words);
        x += 38.0 + LETTER * words.len() as f64;
    }
}

#[cfg(test)]
mod tests {
    use super::*;
    use crate::ratios::tests::TABLE;

    #[test]
    fn a_table_is_drawn() {
        let svg = super::svg(&Ratios::parse(TABLE).unwrap());
        assert!(svg.starts_with("<svg ") && svg.ends_with("</svg>\n"));
        assert!(!svg.contains("NaN") && !svg.contains("inf"));
        for part in ["median of 15 rounds", ">VL 64<", ">VL 4096<", ">LEAP B<"] {
            assert_eq!(svg.matches(part).count(), 1, "{part}");
        }
        assert!(svg.contains(">step: a &lt; b &amp; c<"));
        // Each with one in the legend.
        assert_eq!(svg.matches("<circle").count(), 3 + 1);
        assert_eq!(svg.matches("<path").count(), 1 + 1);
        assert_eq!(svg.matches("stroke-width=\"2.5\"").count(), 2 + 1);
    }

    #[test]
    fn an_axis_has_room_for_all() {
        let table = "| form | VL | median | bar |\n|---|---|---|---|\n| A | 1 | 0.001 | 1000 |\n";
        let ratios = Ratios::parse(table).unwrap();
        let axis = Axis::of(&ratios);
        assert!(axis.least < 0.001 && axis.greatest > 1000.0);
        assert!(axis.x(0.001) > 0.0 && axis.x(1000.0) < PANEL);
        let labels = axis.ticks().filter(|&tick| axis.has_label(tick));
        assert_eq!(labels.count(), 7);
        assert!(!svg(&ratios).contains("NaN"));
    }

    #[test]
    fn groups_stand_apart() {
        let names = ["A B", "A H", "C", "C, x"].map(String::from);
        let (l, g) = (LINE, GROUP);
        assert_eq!(places(&names), [0.0, l, 2.0 * l + g, 3.0 * l + 2.0 * g]);
    }
}
