//! The pieces of a picture in SVG.

use std::fmt::Write;

/// A picture that is being drawn.
pub struct Svg {
    text: String,
}

/// Across, and down.
pub type Point = (f64, f64);

impl Svg {
    /// White, and nothing on it.
    pub fn new(width: f64, height: f64) -> Svg {
        Svg {
            text: format!(
                "<svg xmlns=\"http://www.w3.org/2000/svg\" width=\"{width:.0}\" height=\"{height:.0}\" \
                 viewBox=\"0 0 {width:.0} {height:.0}\" font-family=\"sans-serif\">\n\
                 <rect width=\"{width:.0}\" height=\"{height:.0}\" fill=\"white\"/>\n"
            ),
        }
    }

    /// One line of letters; `anchor` is start, middle or end.
    pub fn words(&mut self, (x, y): Point, anchor: &str, size: f64, words: &str) {
        let words = escaped(words);
        self.piece(&format!(
            "<text x=\"{x:.1}\" y=\"{y:.1}\" text-anchor=\"{anchor}\" font-size=\"{size}\">{words}</text>"
        ));
    }

    pub fn line(&mut self, (x1, y1): Point, (x2, y2): Point, look: &str) {
        self.piece(&format!(
            "<line x1=\"{x1:.1}\" y1=\"{y1:.1}\" x2=\"{x2:.1}\" y2=\"{y2:.1}\" {look}/>"
        ));
    }

    /// A dot; `title`, where there is one, is shown over it.
    pub fn dot(&mut self, (x, y): Point, radius: f64, colour: &str, title: &str) {
        let title = titled(title);
        self.piece(&format!(
            "<circle cx=\"{x:.1}\" cy=\"{y:.1}\" r=\"{radius}\" fill=\"{colour}\">{title}</circle>"
        ));
    }

    /// The same as a square on a corner.
    pub fn diamond(&mut self, (x, y): Point, radius: f64, colour: &str, title: &str) {
        let (r, x, title) = (radius, x - radius, titled(title));
        self.piece(&format!(
            "<path d=\"M{x:.1} {y:.1}l{r} -{r}l{r} {r}l-{r} {r}z\" fill=\"{colour}\">{title}</path>"
        ));
    }

    /// Anything else, as it is written.
    pub fn piece(&mut self, piece: &str) {
        let _ = writeln!(self.text, "{piece}");
    }

    pub fn end(mut self) -> String {
        self.piece("</svg>");
        self.text
    }
}

fn titled(title: &str) -> String {
    if title.is_empty() {
        return String::new();
    }
    format!("<title>{}</title>", escaped(title))
}

fn escaped(text: &str) -> String {
    text.replace('&', "&amp;")
        .replace('<', "&lt;")
        .replace('>', "&gt;")
}

#[cfg(test)]
mod tests {
    use super::*;

    #[test]
    fn words_are_escaped_everywhere() {
        let mut svg = Svg::new(100.0, 50.0);
        svg.words((1.0, 2.0), "end", 13.0, "<a & b>");
        svg.dot((1.0, 2.0), 4.0, "red", "<a & b>");
        svg.diamond((1.0, 2.0), 4.0, "red", "<a & b>");
        svg.dot((1.0, 2.0), 4.0, "red", "");
        let text = svg.end();
        assert_eq!(text.matches("&lt;a &amp; b&gt;").count(), 3);
        assert_eq!(text.matches("<title>").count(), 2);
        assert!(text.starts_with("<svg ") && text.ends_with("\n</svg>\n"));
    }
}
