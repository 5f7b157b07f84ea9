//! A small reader of XML, stricter than a viewer: what it takes, every viewer
//! takes. And short ways to the examples and to the parts of a picture.

#![allow(dead_code)]

use std::fs;
use std::path::{Path, PathBuf};

use picture::fold::Keep;
use picture::{draw, script, session};

#[derive(Debug)]
pub struct Tree {
    pub name: String,
    pub attributes: Vec<(String, String)>,
    pub children: Vec<Tree>,
    pub text: String,
}

/// Reads a whole text as one element.
pub fn parse(text: &str) -> Result<Tree, String> {
    let mut rest = text;
    let tree = element(&mut rest)?;
    match rest.trim() {
        "" => Ok(tree),
        more => Err(format!("something follows the last element: {more:.40}")),
    }
}

fn element(rest: &mut &str) -> Result<Tree, String> {
    let inside = rest.strip_prefix('<').ok_or_else(|| format!("no element: {rest:.40}"))?;
    let end = inside.find('>').ok_or("a tag that does not end")?;
    let (tag, after) = (&inside[..end], &inside[end + 1..]);
    *rest = after;
    let (tag, empty) = match tag.strip_suffix('/') {
        Some(tag) => (tag, true),
        None => (tag, false),
    };
    let (name, words) = tag.split_once(' ').unwrap_or((tag, ""));
    if name.is_empty() || !name.chars().all(|letter| letter.is_ascii_alphanumeric()) {
        return Err(format!("no name of an element: '{name}'"));
    }
    let attributes = attributes(words)?;
    let mut tree = Tree { name: name.to_string(), attributes, children: Vec::new(), text: String::new() };
    if !empty {
        content(&mut tree, rest)?;
    }
    Ok(tree)
}

fn content(tree: &mut Tree, rest: &mut &str) -> Result<(), String> {
    loop {
        let next = rest.find('<').ok_or_else(|| format!("<{}> does not end", tree.name))?;
        tree.text += &plain(&rest[..next])?;
        *rest = &rest[next..];
        if let Some(after) = rest.strip_prefix("</") {
            let (name, after) = after.split_once('>').ok_or("an end that does not end")?;
            *rest = after;
            return match name == tree.name {
                true => Ok(()),
                false => Err(format!("<{}> ends as </{name}>", tree.name)),
            };
        }
        tree.children.push(element(rest)?);
    }
}

fn attributes(words: &str) -> Result<Vec<(String, String)>, String> {
    let mut rest = words.trim();
    let mut found: Vec<(String, String)> = Vec::new();
    while !rest.is_empty() {
        let (name, after) = rest.split_once("=\"").ok_or_else(|| format!("no attribute: {rest:.40}"))?;
        let (value, after) =
            after.split_once('"').ok_or_else(|| format!("a value that does not end: {name}"))?;
        if name.contains(char::is_whitespace) || found.iter().any(|(other, _)| other == name) {
            return Err(format!("no name of an attribute, or twice the same: '{name}'"));
        }
        found.push((name.to_string(), plain(value)?));
        rest = after.trim_start();
    }
    Ok(found)
}

/// A text without its escapes.
fn plain(text: &str) -> Result<String, String> {
    let mut out = String::new();
    let mut rest = text;
    while let Some(place) = rest.find('&') {
        out += &rest[..place];
        let (name, after) = rest[place + 1..].split_once(';').ok_or("an escape that does not end")?;
        out += match name {
            "amp" => "&",
            "lt" => "<",
            "gt" => ">",
            "quot" => "\"",
            other => return Err(format!("no escape: {other}")),
        };
        rest = after;
    }
    out += rest;
    match out.contains(['<', '\u{0}']) && !text.contains("&lt;") {
        true => Err(format!("a letter that may not stand there: {out:.40}")),
        false => Ok(out),
    }
}

impl Tree {
    pub fn get(&self, name: &str) -> Option<&str> {
        let found = self.attributes.iter().find(|(other, _)| other == name);
        found.map(|(_, value)| value.as_str())
    }

    pub fn number(&self, name: &str) -> i64 {
        let value = self.get(name).unwrap_or_else(|| panic!("<{}> has no {name}", self.name));
        value.parse().unwrap_or_else(|_| panic!("{name} is no number: {value}"))
    }

    /// This element and all inside it, from the first to the last.
    pub fn all(&self) -> Vec<&Tree> {
        let inside = self.children.iter().flat_map(Tree::all);
        std::iter::once(self).chain(inside).collect()
    }

    /// The groups of a class inside it.
    pub fn groups(&self, class: &str) -> Vec<&Tree> {
        let is = |tree: &&Tree| tree.get("class").is_some_and(|all| all.split(' ').any(|one| one == class));
        self.all().into_iter().filter(|tree| tree.name == "g").filter(is).collect()
    }

    /// What is written inside it, a string for each text.
    pub fn words(&self) -> Vec<&str> {
        self.all().into_iter().filter(|tree| tree.name == "text").map(|tree| tree.text.as_str()).collect()
    }
}

pub fn top() -> PathBuf {
    Path::new(env!("CARGO_MANIFEST_DIR")).join("../..")
}

pub fn read(path: &str) -> String {
    let path = top().join(path);
    fs::read_to_string(&path).unwrap_or_else(|error| panic!("{}: {error}", path.display()))
}

/// A session of decimal numbers as bytes.
pub fn packed(text: &str) -> Vec<u8> {
    let mut bytes = Vec::new();
    pack::text::pack(text.as_bytes(), &mut bytes).expect("numbers");
    bytes
}

pub fn session_svg(bytes: &[u8], keep: Keep) -> String {
    draw(&session::story(bytes, keep, &mut |_, _| {}).unwrap_or_else(|trouble| panic!("{trouble}")))
}

pub fn script_svg(text: &str, keep: Keep) -> String {
    draw(&script::story(text, keep, &mut |_, _| {}).unwrap_or_else(|trouble| panic!("{trouble}")))
}

pub fn session(text: &str) -> Tree {
    parse(&session_svg(&packed(text), Keep::Ends)).unwrap_or_else(|why| panic!("{why}"))
}

pub fn script(text: &str) -> Tree {
    parse(&script_svg(text, Keep::Ends)).unwrap_or_else(|why| panic!("{why}"))
}

/// The lines that the session program prints.
pub fn printed(bytes: &[u8]) -> Vec<String> {
    let text = String::from_utf8(reference::session::run_bytes(bytes)).expect("text");
    text.lines().map(str::to_string).collect()
}

/// Every example that can be drawn, by name.
pub fn examples() -> Vec<(String, Tree)> {
    let folder = fs::read_dir(top().join("examples")).expect("the folder of examples");
    let mut names: Vec<String> =
        folder.map(|entry| entry.expect("an example").file_name().to_string_lossy().into_owned()).collect();
    names.sort();
    let tree = |name: &String| match name.rsplit_once('.') {
        Some((_, "drill")) => Some(script(&read(&format!("examples/{name}")))),
        Some((_, "txt")) => Some(session(&read(&format!("examples/{name}")))),
        _ => None,
    };
    names.iter().filter_map(|name| Some((name.clone(), tree(name)?))).collect()
}

/// A session of many rounds: three nodes that finish everything in time, the
/// third one missing in each seventh round.
pub fn long_session(rounds: u64) -> String {
    let mut text = "3 2 3  10 100 100 40  20 200 200 50  30 400 400 40\n".to_string();
    let mut length = 0;
    for round in 0..rounds {
        let r = 400 * round;
        let report = |node| match length {
            0 => "1 0 0 0".to_string(),
            _ => format!("1 {length} {} 0", r - 360 - node),
        };
        let third = if round % 7 == 6 { "0".to_string() } else { report(2) };
        text += &format!("{r}  3 0 0 1 0 2 1  3 {} {} {third}\n", report(0), report(1));
        length += 3;
    }
    text
}
