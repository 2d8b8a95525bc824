//! XML, as far as pictures need it: a reader that refuses what is not well-formed.

use std::collections::BTreeMap;

/// An element with its attributes, its text and the elements in it.
#[derive(Debug, Default)]
pub struct Element {
    pub name: String,
    pub attributes: BTreeMap<String, String>,
    pub text: String,
    pub children: Vec<Element>,
}

impl Element {
    /// This element and all within it, in the order of the text.
    pub fn all(&self) -> Vec<&Element> {
        let mut all = vec![self];
        all.extend(self.children.iter().flat_map(Element::all));
        all
    }

    pub fn attribute(&self, name: &str) -> &str {
        self.attributes.get(name).map_or("", String::as_str)
    }

    pub fn number(&self, name: &str) -> f64 {
        self.attribute(name).parse().unwrap_or_else(|_| panic!("{name} of {} is no number", self.name))
    }

    pub fn has_class(&self, class: &str) -> bool {
        self.attribute("class").split(' ').any(|one| one == class)
    }

    /// The elements of a class in this one.
    pub fn of_class(&self, class: &str) -> Vec<&Element> {
        self.all().into_iter().filter(|element| element.has_class(class)).collect()
    }
}

/// The root of a document. Panics where the text is not well-formed.
pub fn parse(text: &str) -> Element {
    let rest = text.strip_prefix("<?xml version=\"1.0\" encoding=\"UTF-8\"?>").expect("the declaration comes first");
    let mut parser = Parser { rest: rest.trim_start() };
    let root = parser.element();
    assert_eq!(parser.rest.trim(), "", "one root, and nothing after it");
    root
}

struct Parser<'a> {
    rest: &'a str,
}

impl Parser<'_> {
    fn take(&mut self, what: &str) {
        self.rest = self.rest.strip_prefix(what).unwrap_or_else(|| panic!("{what} expected: {:.40}", self.rest));
    }

    fn name(&mut self) -> String {
        let end = self.rest.find(|char: char| !char.is_ascii_alphanumeric() && !"-_:".contains(char)).expect("a name ends");
        let (name, rest) = self.rest.split_at(end);
        assert!(name.starts_with(|char: char| char.is_ascii_alphabetic()), "a name begins with a letter: {name}");
        self.rest = rest;
        name.to_string()
    }

    fn element(&mut self) -> Element {
        self.take("<");
        let mut element = Element { name: self.name(), ..Element::default() };
        while self.rest.starts_with(' ') {
            self.take(" ");
            let name = self.name();
            self.take("=\"");
            let (value, rest) = self.rest.split_once('"').expect("a value ends");
            self.rest = rest;
            let earlier = element.attributes.insert(name, unescaped(value));
            assert_eq!(earlier, None, "an attribute stands once");
        }
        if self.rest.starts_with('/') {
            self.take("/>");
            return element;
        }
        self.take(">");
        loop {
            let end = self.rest.find('<').expect("every element is closed");
            let (text, rest) = self.rest.split_at(end);
            element.text += &unescaped(text);
            self.rest = rest;
            if rest.starts_with("</") {
                self.take(&format!("</{}>", element.name));
                return element;
            }
            element.children.push(self.element());
        }
    }
}

/// Text without escapes. A bare `<` or `&`, and what XML does not have, is refused.
fn unescaped(text: &str) -> String {
    let mut plain = String::new();
    let mut rest = text;
    while let Some((before, after)) = rest.split_once('&') {
        let (entity, after) = after.split_once(';').expect("an entity ends");
        plain += before;
        plain += match entity {
            "amp" => "&",
            "lt" => "<",
            "gt" => ">",
            "quot" => "\"",
            other => panic!("no entity of XML: {other}"),
        };
        rest = after;
    }
    plain += rest;
    assert!(!text.contains('<') && !text.chars().any(|char| char.is_control() && !"\n\t".contains(char)));
    plain
}
