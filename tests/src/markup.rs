//! A reader of HTML that is written as XML is: every element closed, every value in quotes, every special character
//! escaped.

use crate::cursor::Cursor;
use std::collections::BTreeMap;

#[derive(Clone, Debug, PartialEq, Eq)]
pub enum Node {
    Text(String),
    Element(Element),
}

#[derive(Clone, Debug, Default, PartialEq, Eq)]
pub struct Element {
    pub name: String,
    pub attributes: BTreeMap<String, String>,
    pub nodes: Vec<Node>,
}

impl Element {
    pub fn get(&self, attribute: &str) -> &str {
        self.attributes.get(attribute).map_or("", String::as_str)
    }

    pub fn elements(&self) -> impl Iterator<Item = &Element> {
        self.nodes.iter().filter_map(|node| match node {
            Node::Element(element) => Some(element),
            Node::Text(_) => None,
        })
    }

    /// This element and all below it, in their order.
    pub fn all(&self) -> Vec<&Element> {
        let below = self.elements().flat_map(Element::all);
        std::iter::once(self).chain(below).collect()
    }

    /// All below it that have this name.
    pub fn named(&self, name: &str) -> Vec<&Element> {
        let all = self.all().into_iter().skip(1);
        all.filter(|element| element.name == name).collect()
    }

    /// All text below it.
    pub fn text(&self) -> String {
        let text = |node: &Node| match node {
            Node::Text(text) => text.clone(),
            Node::Element(element) => element.text(),
        };
        self.nodes.iter().map(text).collect()
    }
}

/// The element `html` of a page, or what is wrong with it.
pub fn read(page: &str) -> Result<Element, String> {
    let mut cursor = Cursor::new(page);
    cursor.expect("<!DOCTYPE html>\n")?;
    let root = element(&mut cursor)?;
    cursor.expect("\n")?;
    match cursor.rest() {
        "" if root.name == "html" => Ok(root),
        _ => Err(cursor.wrong("something after the page, or no page")),
    }
}

/// What may be closed at once in HTML.
const EMPTY: [&str; 5] = ["circle", "line", "meta", "rect", "use"];

/// What comes before one of these characters; there is one.
fn until<'a>(cursor: &mut Cursor<'a>, ends: &[char]) -> Result<&'a str, String> {
    let length = cursor.rest().find(ends).ok_or(cursor.wrong("no end"))?;
    Ok(cursor.part(length))
}

fn name(cursor: &mut Cursor) -> Result<String, String> {
    let name = until(cursor, &[' ', '=', '/', '>'])?;
    let fits = |c: char| c.is_ascii_alphanumeric() || c == '-';
    match !name.is_empty() && name.chars().all(fits) {
        true => Ok(name.to_string()),
        false => Err(cursor.wrong(&format!("{name} is no name"))),
    }
}

/// A text that was taken, with its escapes undone.
fn plain(cursor: &Cursor, text: &str) -> Result<String, String> {
    let names = [("lt;", '<'), ("gt;", '>'), ("quot;", '"'), ("#39;", '\'')];
    let mut parts = text.split('&');
    let mut plain = parts.next().unwrap_or_default().to_string();
    for part in parts {
        let found = names.iter().chain(&[("amp;", '&')]);
        let found = found.filter_map(|(name, c)| Some((c, part.strip_prefix(name)?)));
        let (character, rest) = found.last().ok_or(cursor.wrong("& alone"))?;
        plain.push(*character);
        plain += rest;
    }
    match plain.chars().any(|c| c.is_control() && c != '\n') {
        true => Err(cursor.wrong("a control character")),
        false => Ok(plain),
    }
}

fn attributes(cursor: &mut Cursor) -> Result<BTreeMap<String, String>, String> {
    let mut attributes = BTreeMap::new();
    while cursor.take(" ") {
        let name = name(cursor)?;
        cursor.expect("=\"")?;
        let value = until(cursor, &['"', '<', '>'])?;
        cursor.expect("\"")?;
        if attributes.insert(name, plain(cursor, value)?).is_some() {
            return Err(cursor.wrong("an attribute twice"));
        }
    }
    Ok(attributes)
}

fn element(cursor: &mut Cursor) -> Result<Element, String> {
    cursor.expect("<")?;
    let name = name(cursor)?;
    let attributes = attributes(cursor)?;
    let mut nodes = Vec::new();
    if cursor.take("/>") {
        if !EMPTY.contains(&name.as_str()) {
            return Err(cursor.wrong(&format!("{name} without an end")));
        }
    } else {
        cursor.expect(">")?;
        while !cursor.take("</") {
            nodes.push(node(cursor)?);
        }
        cursor.expect(&name)?;
        cursor.expect(">")?;
    }
    Ok(Element {
        name,
        attributes,
        nodes,
    })
}

fn node(cursor: &mut Cursor) -> Result<Node, String> {
    if cursor.rest().starts_with('<') {
        return Ok(Node::Element(element(cursor)?));
    }
    let text = until(cursor, &['<', '>'])?;
    match cursor.rest().starts_with('>') {
        true => Err(cursor.wrong("> alone")),
        false => Ok(Node::Text(plain(cursor, text)?)),
    }
}
