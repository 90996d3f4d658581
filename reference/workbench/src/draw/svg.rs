//! A small writer of SVG 1.1: shapes, text with escaping, named groups. Coordinates are whole pixels, y downwards; how
//! a shape is filled and stroked is given as presentation attributes (`ink`).

use super::text::Face;

pub type Point = (i32, i32);

#[derive(Clone, Copy, Debug, PartialEq, Eq)]
pub struct Area {
    pub x: i32,
    pub y: i32,
    pub width: i32,
    pub height: i32,
}

/// The elements of a picture in the making, the first ones lowest.
#[derive(Default)]
pub struct Svg {
    body: String,
}

impl Svg {
    pub fn rect(&mut self, area: Area, ink: &str) {
        let Area { x, y, width, height } = area;
        self.body += &format!("<rect x=\"{x}\" y=\"{y}\" width=\"{width}\" height=\"{height}\" {ink}/>\n");
    }

    pub fn line(&mut self, (x1, y1): Point, (x2, y2): Point, ink: &str) {
        self.body += &format!("<line x1=\"{x1}\" y1=\"{y1}\" x2=\"{x2}\" y2=\"{y2}\" {ink}/>\n");
    }

    pub fn circle(&mut self, (x, y): Point, radius: i32, ink: &str) {
        self.body += &format!("<circle cx=\"{x}\" cy=\"{y}\" r=\"{radius}\" {ink}/>\n");
    }

    /// Steps as in the attribute `d`.
    pub fn path(&mut self, steps: &str, ink: &str) {
        self.body += &format!("<path d=\"{steps}\" {ink}/>\n");
    }

    /// One line of text; y is its baseline, x its start, or its middle or end as the face has it.
    pub fn text(&mut self, (x, y): Point, face: Face, words: &str) {
        self.body += &format!("<text x=\"{x}\" y=\"{y}\" {}>{}</text>\n", face.attributes(), escape(words));
    }

    /// What `draw` draws, with a name that a viewer shows beside the pointer.
    pub fn group(&mut self, name: &str, draw: impl FnOnce(&mut Svg)) {
        self.body += &format!("<g><title>{}</title>\n", escape(name));
        draw(self);
        self.body += "</g>\n";
    }

    /// The whole file, on white; `definitions` are the patterns that inks refer to.
    pub fn page(self, width: i32, height: i32, title: &str, definitions: &str) -> String {
        let (title, body) = (escape(title), self.body);
        format!(
            "<?xml version=\"1.0\" encoding=\"UTF-8\"?>\n\
             <svg xmlns=\"http://www.w3.org/2000/svg\" version=\"1.1\" width=\"{width}\" height=\"{height}\" \
             viewBox=\"0 0 {width} {height}\" font-family=\"'DejaVu Sans', sans-serif\">\n\
             <title>{title}</title>\n{definitions}\
             <rect width=\"{width}\" height=\"{height}\" fill=\"#ffffff\"/>\n{body}</svg>\n"
        )
    }
}

/// Text as XML carries it.
pub fn escape(text: &str) -> String {
    let mut escaped = String::new();
    for character in text.chars() {
        match character {
            '&' => escaped += "&amp;",
            '<' => escaped += "&lt;",
            '>' => escaped += "&gt;",
            '"' => escaped += "&quot;",
            '\'' => escaped += "&apos;",
            _ => escaped.push(character),
        }
    }
    escaped
}

/// For tests of pictures: their text elements, and whether their tags are balanced.
#[cfg(test)]
pub mod reading {
    /// The words of each text element, as they stand.
    pub fn texts(picture: &str) -> Vec<&str> {
        let elements = picture.split("<text ").skip(1);
        elements.filter_map(|rest| rest.split_once('>')?.1.split_once("</text>").map(|(words, _)| words)).collect()
    }

    /// Every tag that opens is closed in its turn; no character out of place in between.
    pub fn well_formed(picture: &str) -> bool {
        let mut open = Vec::new();
        let Some(rest) = picture.strip_prefix("<?xml version=\"1.0\" encoding=\"UTF-8\"?>\n<") else {
            return false;
        };
        for part in rest.split('<') {
            let Some((tag, words)) = part.split_once('>') else {
                return false;
            };
            let name = tag.split(' ').next().unwrap_or_default();
            let closed = match name.strip_prefix('/') {
                Some(name) => open.pop() == Some(name),
                None if tag.ends_with('/') => true,
                None => {
                    open.push(name);
                    true
                }
            };
            let references = words.split('&').skip(1);
            let escaped =
                |rest: &str| ["amp;", "lt;", "gt;", "quot;", "apos;"].iter().any(|name| rest.starts_with(name));
            if !closed
                || words.contains('>')
                || tag.matches('"').count() % 2 != 0
                || !references.into_iter().all(escaped)
            {
                return false;
            }
        }
        open.is_empty()
    }
}

#[cfg(test)]
mod tests {
    use super::reading::{texts, well_formed};
    use super::*;

    #[test]
    fn escaped_text() {
        assert_eq!(escape("a < b & \"c\" > 'd'"), "a &lt; b &amp; &quot;c&quot; &gt; &apos;d&apos;");
        let mut svg = Svg::default();
        svg.group("a < b", |svg| svg.text((1, 2), Face::of(10), "</text> & more"));
        let picture = svg.page(10, 10, "R & \"S\"", "");
        assert!(well_formed(&picture), "{picture}");
        assert_eq!(texts(&picture), ["&lt;/text&gt; &amp; more"]);
        assert!(picture.contains("<title>R &amp; &quot;S&quot;</title>"));
    }

    #[test]
    fn ill_formed() {
        let page = |body: &str| Svg { body: body.to_string() }.page(1, 1, "", "");
        assert!(well_formed(&page("<g><g/></g>")));
        for body in ["<g>", "</g>", "<g><a></g></a>", "a > b", "a & b", "a < b", "<a b=\"c/>"] {
            assert!(!well_formed(&page(body)), "{body}");
        }
    }
}
