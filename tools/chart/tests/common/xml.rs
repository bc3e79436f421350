//! A strict reader of what `cue-chart svg` writes: one root, tags closed in order, attributes in double quotes, each once, no character that
//! XML does not have, and no reference but the five of XML and `&#39;`.

/// A start tag, its attributes, and the text behind it.
#[derive(Debug)]
pub struct Element {
    pub name: String,
    pub attributes: Vec<(String, String)>,
    pub text: String,
}

impl Element {
    pub fn get(&self, name: &str) -> Option<&str> {
        self.attributes.iter().find(|attribute| attribute.0 == name).map(|attribute| attribute.1.as_str())
    }
}

const PROLOGUE: &str = "<?xml version=\"1.0\" encoding=\"UTF-8\"?>\n";

/// All elements in order, or the first thing that is wrong.
pub fn elements(text: &str) -> Result<Vec<Element>, String> {
    let mut rest = text.strip_prefix(PROLOGUE).ok_or("no prologue")?;
    let mut elements: Vec<Element> = Vec::new();
    let mut open: Vec<String> = Vec::new();
    while let Some(at) = rest.find('<') {
        let (before, tag) = rest.split_at(at);
        add_text(&mut elements, &open, before)?;
        let end = tag.find('>').ok_or("a tag is not ended")?;
        let inside = &tag[1..end];
        rest = &tag[end + 1..];
        if let Some(name) = inside.strip_prefix('/') {
            let opened = open.pop().ok_or(format!("</{name}> without a start"))?;
            if opened != name {
                return Err(format!("</{name}> for <{opened}>"));
            }
            continue;
        }
        if open.is_empty() && !elements.is_empty() {
            return Err("a second root".to_string());
        }
        let (inside, empty) = inside.strip_suffix('/').map_or((inside, false), |inside| (inside, true));
        let element = start(inside)?;
        if !empty {
            open.push(element.name.clone());
        }
        elements.push(element);
    }
    add_text(&mut elements, &open, rest)?;
    match open.last() {
        Some(name) => Err(format!("<{name}> is not closed")),
        None if elements.is_empty() => Err("no root".to_string()),
        None => Ok(elements),
    }
}

fn add_text(elements: &mut [Element], open: &[String], text: &str) -> Result<(), String> {
    if text.contains('>') {
        return Err("a bare >".to_string());
    }
    let text = plain(text)?;
    if open.is_empty() && !text.trim().is_empty() {
        return Err("text outside the root".to_string());
    }
    if let Some(last) = elements.last_mut() {
        last.text += &text;
    }
    Ok(())
}

fn is_name(name: &str) -> bool {
    name.starts_with(|letter: char| letter.is_ascii_alphabetic()) && name.chars().all(|letter| letter.is_ascii_alphanumeric() || letter == '-')
}

/// A tag's name and attributes.
fn start(inside: &str) -> Result<Element, String> {
    let (name, mut rest) = inside.split_at(inside.find(' ').unwrap_or(inside.len()));
    if !is_name(name) {
        return Err(format!("{name:?} is no name"));
    }
    let mut attributes: Vec<(String, String)> = Vec::new();
    while !rest.is_empty() {
        rest = rest.strip_prefix(' ').ok_or("no blank before an attribute")?;
        let (key, behind) = rest.split_once("=\"").ok_or("an attribute without a value")?;
        let (value, behind) = behind.split_once('"').ok_or("a value is not ended")?;
        if !is_name(key) || attributes.iter().any(|attribute| attribute.0 == key) {
            return Err(format!("{key:?} is no name, or comes twice"));
        }
        if value.contains('<') {
            return Err("a < in a value".to_string());
        }
        attributes.push((key.to_string(), plain(value)?));
        rest = behind;
    }
    Ok(Element { name: name.to_string(), attributes, text: String::new() })
}

/// The text with its references replaced.
fn plain(text: &str) -> Result<String, String> {
    let allowed = |letter: char| matches!(letter, '\n' | ' '..='~' | '\u{a0}'..='\u{d7ff}' | '\u{e000}'..='\u{fffd}' | '\u{10000}'..);
    if let Some(bad) = text.chars().find(|&letter| !allowed(letter)) {
        return Err(format!("character {bad:?}"));
    }
    let mut parts = text.split('&');
    let mut read = parts.next().unwrap_or_default().to_string();
    for part in parts {
        let (name, behind) = part.split_once(';').ok_or("a bare &")?;
        read.push(match name {
            "amp" => '&',
            "lt" => '<',
            "gt" => '>',
            "quot" => '"',
            "apos" | "#39" => '\'',
            _ => return Err(format!("reference &{name};")),
        });
        read += behind;
    }
    Ok(read)
}

/// Where each rectangle of path data is, and how wide.
pub fn rectangles(data: &str) -> Result<Vec<(f64, f64)>, String> {
    let mut found = Vec::new();
    for rectangle in data.split_terminator('z') {
        let rest = rectangle.strip_prefix('M').ok_or("no M")?;
        let (at, rest) = rest.split_once(" 0h").ok_or("no h")?;
        let (width, rest) = rest.split_once('v').ok_or("no v")?;
        let (_, back) = rest.split_once("h-").ok_or("no way back")?;
        if back != width {
            return Err(format!("{width} and back {back}"));
        }
        let number = |text: &str| text.parse::<f64>().map_err(|error| format!("{text}: {error}"));
        found.push((number(at)?, number(width)?));
    }
    Ok(found)
}

/// Everything that a picture must be: well-formed, an SVG, with classes and patterns that it defines.
pub fn check(text: &str) -> Result<Vec<Element>, String> {
    let elements = elements(text)?;
    let root = &elements[0];
    if root.name != "svg" || root.get("xmlns") != Some("http://www.w3.org/2000/svg") {
        return Err("no svg".to_string());
    }
    let style = &elements.iter().find(|element| element.name == "style").ok_or("no style")?.text;
    for element in &elements {
        for class in element.get("class").unwrap_or_default().split(' ').filter(|class| !class.is_empty()) {
            let defined = [",", "{"].iter().any(|end| style.contains(&format!(".{class}{end}")));
            if !defined && !["body", "side", "onsuper"].contains(&class) {
                return Err(format!("class {class} is not defined"));
            }
        }
    }
    for used in style.split("url(#").skip(1) {
        let id = used.split(')').next().unwrap_or_default();
        if !elements.iter().any(|element| element.get("id") == Some(id)) {
            return Err(format!("#{id} is not defined"));
        }
    }
    Ok(elements)
}
