//! A small tree of SVG elements, and how it is written. Coordinates are whole
//! pixels from the picture's upper left corner; no element moves another.

use std::fmt::Display;

use crate::text::{width, Face};

/// A length or a coordinate, in pixels.
pub type Px = i64;

/// An element with its attributes and what stands inside.
#[derive(Clone, Debug, PartialEq, Eq)]
pub struct Element {
    name: &'static str,
    attributes: Vec<(&'static str, String)>,
    inside: Vec<Inside>,
}

#[derive(Clone, Debug, PartialEq, Eq)]
enum Inside {
    Element(Element),
    Text(String),
}

impl Element {
    /// An empty element.
    pub fn new(name: &'static str) -> Element {
        Element { name, attributes: Vec::new(), inside: Vec::new() }
    }

    /// The same with one more attribute.
    pub fn with(mut self, name: &'static str, value: impl Display) -> Element {
        self.attributes.push((name, value.to_string()));
        self
    }

    /// The same with text inside.
    pub fn saying(mut self, text: impl Display) -> Element {
        self.inside.push(Inside::Text(text.to_string()));
        self
    }

    /// Puts an element inside, behind what is there.
    pub fn add(&mut self, element: Element) {
        self.inside.push(Inside::Element(element));
    }

    /// The element as text, an element a line, in XML's own escapes.
    pub fn written(&self) -> String {
        let mut out = String::new();
        self.write(0, &mut out);
        out
    }

    fn write(&self, depth: usize, out: &mut String) {
        out.push_str(&"  ".repeat(depth));
        out.push('<');
        out.push_str(self.name);
        for (name, value) in &self.attributes {
            out.push_str(&format!(" {name}=\"{}\"", escaped(value)));
        }
        if self.inside.is_empty() {
            out.push_str("/>\n");
            return;
        }
        out.push('>');
        let nested = self.inside.iter().any(|inside| matches!(inside, Inside::Element(_)));
        if nested {
            out.push('\n');
        }
        for inside in &self.inside {
            match inside {
                Inside::Element(element) => element.write(depth + 1, out),
                Inside::Text(text) => out.push_str(&escaped(text)),
            }
        }
        if nested {
            out.push_str(&"  ".repeat(depth));
        }
        out.push_str(&format!("</{}>\n", self.name));
    }
}

/// Letters that XML reads as its own, and those that it forbids, put otherwise.
fn escaped(text: &str) -> String {
    let mut out = String::new();
    for letter in text.chars() {
        match letter {
            '&' => out.push_str("&amp;"),
            '<' => out.push_str("&lt;"),
            '>' => out.push_str("&gt;"),
            '"' => out.push_str("&quot;"),
            letter if letter.is_control() => out.push(' '),
            letter => out.push(letter),
        }
    }
    out
}

/// A group with a class, for those who look for parts of the picture.
pub fn group(class: &str) -> Element {
    Element::new("g").with("class", class)
}

/// A rectangle by its upper left corner and its size.
pub fn rect(x: Px, y: Px, wide: Px, high: Px) -> Element {
    Element::new("rect").with("x", x).with("y", y).with("width", wide).with("height", high)
}

/// A line between two points.
pub fn line(from: (Px, Px), to: (Px, Px)) -> Element {
    Element::new("line").with("x1", from.0).with("y1", from.1).with("x2", to.0).with("y2", to.1)
}

/// A line of text that begins at x, with its foot at y.
pub fn text(x: Px, y: Px, face: Face, words: &str) -> Element {
    let mut element = Element::new("text").with("x", x).with("y", y).with("font-size", face.size);
    if face.bold {
        element = element.with("font-weight", "bold");
    }
    element.saying(words)
}

/// A line of text with its middle at x. It is placed by our own measure, so
/// that every text begins at its x.
pub fn centred(x: Px, y: Px, face: Face, words: &str) -> Element {
    text(x - width(words, face) / 2, y, face, words)
}

#[cfg(test)]
mod tests {
    use super::{group, rect, text, Element};
    use crate::text::PLAIN;

    #[test]
    fn a_tree_is_written_with_escapes() {
        let mut top = group("a\"b");
        top.add(rect(1, 2, 3, 4));
        top.add(text(5, 6, PLAIN, "C < D & \"E\"\u{7}"));
        assert_eq!(
            top.written(),
            "<g class=\"a&quot;b\">\n  <rect x=\"1\" y=\"2\" width=\"3\" height=\"4\"/>\n  \
             <text x=\"5\" y=\"6\" font-size=\"11\">C &lt; D &amp; &quot;E&quot; </text>\n</g>\n"
        );
        assert_eq!(Element::new("g").written(), "<g/>\n");
    }
}
