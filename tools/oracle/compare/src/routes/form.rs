//! Lines of the planner's text: fixed words around figures.
use super::book::Limit;
use super::text::shown;
use crate::ask_path::Asked;

/// A wanted line: its text with the figures' names in braces, and the figures; or any lines.
#[derive(Clone, Debug)]
pub enum Form {
    Line(String, Vec<String>),
    Any,
}

impl Form {
    pub fn of(text: &str, figures: &[String]) -> Form {
        Form::Line(text.to_string(), figures.to_vec())
    }
    /// A call that a question refuses; the reason in words is not held to anything.
    pub fn refused(asked: Asked) -> Form {
        let figures = [asked.0.to_string(), asked.1.to_string()];
        Form::of("refused by question {question} at place {place}: {reason}", &figures)
    }
    /// A line with the limit that is lost behind it, where there is one.
    pub fn lost(text: &str, figures: [String; 2], lost: Option<Limit>) -> Form {
        let mut figures = figures.to_vec();
        let Some(l) = lost else {
            return Form::Line(text.to_string(), figures);
        };
        figures.extend([shown(l.speed), l.link.to_string()]);
        Form::Line(format!("{text}: it loses a limit, {{speed lost}} of link {{link of the lost}}"), figures)
    }
    /// The line's text; figures that are not held to anything are left out.
    pub fn text(&self) -> String {
        match self {
            Form::Line(text, figures) => filled(text, figures),
            Form::Any => String::new(),
        }
    }
}

/// The fixed words and the names of a text, in turn; the first and the last are words.
fn pieces(text: &str) -> (Vec<&str>, Vec<&str>) {
    let mut words = vec![];
    let mut names = vec![];
    for (k, part) in text.split(['{', '}']).enumerate() {
        if k % 2 == 0 { &mut words } else { &mut names }.push(part);
    }
    (words, names)
}

/// A text with its figures.
pub fn filled(text: &str, figures: &[String]) -> String {
    let (words, _) = pieces(text);
    let mut s = words[0].to_string();
    for (k, w) in words[1..].iter().enumerate() {
        s += figures.get(k).map_or("-", String::as_str);
        s += w;
    }
    s
}

/// The figures of a line that has these fixed words, with their names.
pub fn figures<'a>(text: &'a str, line: &str) -> Option<Vec<(&'a str, String)>> {
    let (words, names) = pieces(text);
    let mut left = line.strip_prefix(words[0])?;
    let mut v = vec![];
    for (k, name) in names.iter().enumerate() {
        let behind = words[k + 1];
        let at = if k + 1 == names.len() { left.len().checked_sub(behind.len())? } else { left.find(behind)? };
        if at == 0 || !left.is_char_boundary(at) || !left[at..].starts_with(behind) {
            return None;
        }
        v.push((*name, left[..at].to_string()));
        left = &left[at + behind.len()..];
    }
    left.is_empty().then_some(v)
}
