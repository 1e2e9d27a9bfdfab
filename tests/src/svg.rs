//! Reads an SVG file back: its elements, and the pixels that a path covers.

use std::collections::BTreeMap;

/// An element with its attributes, the elements in it and the text in it.
#[derive(Debug, Default)]
pub struct Element {
    pub name: String,
    attributes: BTreeMap<String, String>,
    pub elements: Vec<Element>,
    pub text: String,
}

impl Element {
    /// The one element that a file is.
    pub fn read(file: &str) -> Element {
        let mut open = vec![Element::default()];
        let mut rest = file;
        while let Some((text, after)) = rest.split_once('<') {
            let (tag, after) = after.split_once('>').expect("a tag ends");
            rest = after;
            open.last_mut().expect("an open element").text += text;
            if let Some(name) = tag.strip_prefix('/') {
                let element = open.pop().expect("an open element");
                assert_eq!(element.name, name, "the element that ends is the one that was opened last");
                open.last_mut().expect("it stands in another").elements.push(element);
            } else if let Some(tag) = tag.strip_suffix('/') {
                open.last_mut().expect("an open element").elements.push(Element::opened(tag));
            } else {
                open.push(Element::opened(tag));
            }
        }
        assert!(rest.trim().is_empty() && open.len() == 1, "every element ends");
        let mut file = open.remove(0);
        assert!(file.text.trim().is_empty() && file.elements.len() == 1, "a file is one element");
        file.elements.remove(0)
    }

    fn opened(tag: &str) -> Element {
        let (name, mut rest) = tag.split_once(char::is_whitespace).unwrap_or((tag, ""));
        let mut attributes = BTreeMap::new();
        while let Some((key, after)) = rest.split_once("=\"") {
            let (value, after) = after.split_once('"').expect("a value ends");
            assert!(attributes.insert(key.trim().to_string(), value.to_string()).is_none(), "{key} once in {tag}");
            rest = after;
        }
        assert!(rest.trim().is_empty(), "{tag} has attributes and nothing else");
        Element { name: name.to_string(), attributes, ..Element::default() }
    }

    pub fn attribute(&self, key: &str) -> &str {
        self.attributes.get(key).unwrap_or_else(|| panic!("{} has {key}", self.name))
    }

    pub fn number(&self, key: &str) -> f64 {
        self.attribute(key).parse().unwrap_or_else(|_| panic!("{key} of {} is a number", self.name))
    }

    /// The elements in it of this name.
    pub fn all(&self, name: &str) -> Vec<&Element> {
        self.elements.iter().filter(|element| element.name == name).collect()
    }
}

/// The pixels that path data of M, H, V and Z covers by the rule evenodd: from the middle of each an odd number of the path's
/// upright lines stands to the west.
pub fn covered(path: &str) -> Vec<(u32, u32)> {
    let mut lines: BTreeMap<u32, Vec<u32>> = BTreeMap::new();
    let mut upright = |x: u32, from: u32, to: u32| {
        for row in from.min(to)..from.max(to) {
            lines.entry(row).or_default().push(x);
        }
    };
    let (mut start, mut now) = ((0, 0), (0, 0));
    let mut rest = path;
    while let Some(command) = rest.chars().next() {
        let end = rest[1..].find(|c: char| c.is_ascii_alphabetic()).map_or(rest.len(), |end| end + 1);
        let numbers: Vec<u32> = rest[1..end].split_whitespace().map(|word| word.parse().expect("a number")).collect();
        let next = match (command, &numbers[..]) {
            ('M', &[x, y]) => {
                start = (x, y);
                now = start;
                start
            }
            ('H', &[x]) => (x, now.1),
            ('V', &[y]) => (now.0, y),
            ('Z', &[]) => start,
            _ => panic!("{command} {numbers:?} in {path}"),
        };
        assert!(now.0 == next.0 || now.1 == next.1, "a line goes along x or y");
        upright(now.0, now.1, if now.0 == next.0 { next.1 } else { now.1 });
        now = next;
        rest = &rest[end..];
    }
    let mut pixels = Vec::new();
    for (row, mut places) in lines {
        places.sort_unstable();
        for pair in places.chunks(2) {
            pixels.extend((pair[0]..pair[1]).map(|x| (x, row)));
        }
    }
    pixels
}

#[cfg(test)]
mod tests {
    use super::*;

    #[test]
    fn a_hole_stays_open() {
        let around: Vec<(u32, u32)> = (0..9).map(|i| (i % 3, i / 3)).filter(|&pixel| pixel != (1, 1)).collect();
        assert_eq!(covered("M0 0H3V3H0ZM1 2H2V1H1Z"), around);
        assert_eq!(covered("M1 0H2V1H1Z"), [(1, 0)]);
    }

    #[test]
    fn elements_in_elements() {
        let file = Element::read("<a b=\"1\"\n c=\"x y\"><d/>\n<e f=\"2\">text</e></a>\n");
        assert_eq!((file.name.as_str(), file.number("b"), file.attribute("c")), ("a", 1.0, "x y"));
        assert_eq!((file.elements.len(), file.all("e")[0].text.as_str()), (2, "text"));
    }
}
