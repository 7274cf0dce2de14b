//! Writing SVG: numbers with one decimal, and the few shapes that pictures have.
use super::escape::escape;
use super::flat::Point;
use std::fmt::Write;

/// An SVG that is being written.
pub struct Svg {
    text: String,
}

/// How a text stands at its point.
#[derive(Clone, Copy)]
pub struct Letters<'a> {
    pub size: f64,
    pub colour: &'a str,
    pub bold: bool,
    pub anchor: &'a str,
}

impl Svg {
    /// A file of its own, with a title and a description for those who can't see it.
    pub fn file(width: f64, height: f64, title: &str, description: &str) -> Svg {
        let mut svg = Svg::begin(width, height, "xmlns=\"http://www.w3.org/2000/svg\" font-family=\"sans-serif\"");
        let ([w, h], title, description) = ([width, height].map(number), escape(title), escape(description));
        let _ = writeln!(svg.text, "\n<title>{title}</title>\n<desc>{description}</desc>");
        let _ = writeln!(svg.text, "<rect width=\"{w}\" height=\"{h}\" fill=\"#fff\"/>");
        svg
    }

    /// A picture within a page, without ids.
    pub fn inline(width: f64, height: f64, label: &str) -> Svg {
        Svg::begin(width, height, &format!("aria-label=\"{}\"", escape(label)))
    }

    fn begin(width: f64, height: f64, attributes: &str) -> Svg {
        let [w, h] = [width, height].map(number);
        let size = format!("width=\"{w}\" height=\"{h}\" viewBox=\"0 0 {w} {h}\"");
        let lines = "fill=\"none\" stroke-linecap=\"round\" stroke-linejoin=\"round\"";
        Svg { text: format!("<svg {attributes} {size} role=\"img\" {lines}>") }
    }

    pub fn end(mut self) -> String {
        self.text.push_str("</svg>\n");
        self.text
    }

    /// A group of shapes with the same attributes.
    pub fn group(&mut self, attributes: &str, shapes: impl FnOnce(&mut Svg)) {
        let _ = write!(self.text, "<g {attributes}>");
        shapes(self);
        self.text.push_str("</g>\n");
    }

    /// A filled polygon; a thin line of its own colour closes the seam to its neighbours.
    pub fn polygon(&mut self, corners: &[Point], colour: &str) {
        let corners = corners.iter().map(|&p| point(p)).collect::<Vec<_>>().join(" ");
        let _ = write!(self.text, "<path d=\"M{corners}z\" fill=\"{colour}\" stroke=\"{colour}\"/>");
    }

    /// Lines as one path with these attributes; nothing where there are none.
    pub fn lines(&mut self, lines: &[[Point; 2]], attributes: &str) {
        let mut path = String::new();
        let mut last = String::new();
        for line in lines {
            let [from, to] = line.map(point);
            if from != last {
                let _ = write!(path, "M{from}");
            }
            let _ = write!(path, "L{to}");
            last = to;
        }
        if !path.is_empty() {
            let _ = write!(self.text, "<path {attributes} d=\"{path}\"/>");
        }
    }

    pub fn circle(&mut self, middle: Point, radius: f64, attributes: &str) {
        let [x, y, r] = [middle[0], middle[1], radius].map(number);
        let _ = write!(self.text, "<circle cx=\"{x}\" cy=\"{y}\" r=\"{r}\" {attributes}/>");
    }

    pub fn square(&mut self, corner: Point, side: f64, colour: &str) {
        let [x, y, side] = [corner[0], corner[1], side].map(number);
        let _ = write!(self.text, "<rect x=\"{x}\" y=\"{y}\" width=\"{side}\" height=\"{side}\" fill=\"{colour}\"/>");
    }

    /// A text with a white rim, so that it can be read across lines.
    pub fn text(&mut self, at: Point, letters: Letters, words: &str) {
        let [x, y, size] = [at[0], at[1], letters.size].map(number);
        let Letters { colour, anchor, bold, .. } = letters;
        let weight = if bold { " font-weight=\"bold\"" } else { "" };
        let _ = write!(self.text, "<text x=\"{x}\" y=\"{y}\" font-size=\"{size}\" text-anchor=\"{anchor}\"{weight}");
        let rim = "stroke=\"#fff\" stroke-width=\"2.6\" stroke-opacity=\".8\" paint-order=\"stroke\"";
        let _ = writeln!(self.text, " fill=\"{colour}\" {rim}>{}</text>", escape(words));
    }
}

fn point(p: Point) -> String {
    let [x, y] = p.map(number);
    format!("{x} {y}")
}

/// A number with one decimal at most.
pub fn number(value: f64) -> String {
    let text = format!("{value:.1}");
    let text = text.strip_suffix(".0").unwrap_or(&text);
    if text == "-0" {
        "0".to_string()
    } else {
        text.to_string()
    }
}
