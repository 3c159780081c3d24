//! What the planner says beside what it has to say.
use super::form::{figures, filled, Form};
use super::said::File;
use super::Route;
use crate::rng::Rng;

/// A call of a route: its line, its word, and what is to be said of it.
pub struct Wanted {
    pub line: usize,
    pub word: &'static str,
    pub forms: Vec<Form>,
}

/// Every so many calls a figure is altered; 0: never.
pub struct Spoil {
    pub every: u64,
    pub calls: u64,
    pub spoiled: u64,
    pub noticed: u64,
}

/// What a difference is, in general and in this case.
pub type Difference = (String, String);

impl Wanted {
    fn begins(&self) -> String {
        format!("line {}: {}: ", self.line, self.word)
    }
    fn is_refused(&self) -> bool {
        matches!(&self.forms[0], Form::Line(text, _) if text.starts_with("refused"))
    }
    /// Whether the call is held to the questions; `resistance` is not.
    fn is_judged(&self) -> bool {
        self.word != "resistance"
    }
    pub fn text(&self) -> String {
        let all: Vec<String> = self.forms.iter().map(Form::text).collect();
        self.begins() + &all.join("\n") + "\n"
    }
    /// The forms with the lines that they are held to; none where there are too many lines or too few.
    fn pairs<'a>(&'a self, lines: &'a [String]) -> Option<Vec<(&'a Form, &'a String)>> {
        let any = self.forms.iter().position(|f| matches!(f, Form::Any));
        let top = any.unwrap_or(self.forms.len());
        let bottom = self.forms.len() - any.map_or(top, |k| k + 1);
        let fits = if any.is_some() { lines.len() >= top + bottom } else { lines.len() == top };
        let held = lines.iter().take(top).chain(lines.iter().skip(lines.len().saturating_sub(bottom)));
        fits.then(|| self.forms.iter().filter(|f| !matches!(f, Form::Any)).zip(held).collect())
    }
    /// The first difference between a call's lines, the beginning of the first cut off, and the wanted ones.
    fn differs(&self, lines: &[String]) -> Option<Difference> {
        let word = self.word;
        let Some(pairs) = self.pairs(lines) else {
            return Some((format!("{word}: other lines"), format!("wanted {:?}, is {lines:?}", self.text())));
        };
        for (form, line) in pairs {
            let Form::Line(text, wanted) = form else { continue };
            let Some(is) = figures(text, line) else {
                return Some((format!("{word}: other words than {text:?}"), format!("wanted {:?}, is {line:?}", form.text())));
            };
            if let Some(((name, is), want)) = is.iter().zip(wanted).find(|((_, x), y)| x != *y) {
                return Some((format!("{word}: {name}"), format!("wanted {want}, is {is}: {line:?}")));
            }
        }
        None
    }
    /// Alters one figure of the lines, or whether a limit is lost; false where there is none.
    fn spoil(&self, r: &mut Rng, lines: &mut [String]) -> bool {
        let Some(pairs) = self.pairs(lines) else { return false };
        let held: Vec<usize> = (0..pairs.len()).filter(|&k| matches!(pairs[k].0, Form::Line(_, f) if !f.is_empty())).collect();
        if held.is_empty() {
            return false;
        }
        let k = r.of(&held);
        let Form::Line(text, wanted) = pairs[k].0 else { return false };
        let Some(is) = figures(text, pairs[k].1) else { return false };
        let mut is: Vec<String> = is.into_iter().map(|x| x.1).collect();
        let from = lines.iter().position(|l| *l == filled(text, &is));
        let i = r.to(wanted.len());
        is[i] = other_figure(r, &is[i]);
        let mut line = filled(text, &is);
        if text.starts_with("  original Rust") && wanted.len() != 1 && r.chance(500) {
            line = other_loss(&filled(text, wanted));
        }
        from.map(|k| lines[k] = line).is_some()
    }
}

/// Another text of a number: one digit is changed.
fn other_figure(r: &mut Rng, x: &str) -> String {
    let at: Vec<usize> = (0..x.len()).filter(|&k| x.as_bytes()[k].is_ascii_digit()).collect();
    if at.is_empty() {
        return format!("{x}1");
    }
    let k = r.of(&at);
    let digit = (x.as_bytes()[k] - b'0' + 1 + r.to(9) as u8) % 10;
    format!("{}{digit}{}", &x[..k], &x[k + 1..])
}

/// The line with a lost limit where there was none, without it where there was one.
fn other_loss(line: &str) -> String {
    match line.split_once(": it loses") {
        Some((before, _)) => before.to_string(),
        None => format!("{line}: it loses a limit, 5 of link 1"),
    }
}

/// The differences of one file; the first ends the comparison.
pub fn differences(route: &Route, file: &File, spoil: &mut Spoil, r: &mut Rng) -> Option<Difference> {
    if let Some(what) = &route.trouble {
        return Some(("the comparison itself".to_string(), what.clone()));
    }
    for (k, wanted) in route.wanted.iter().enumerate() {
        let Some(lines) = file.calls.get(k) else {
            return Some((format!("{}: nothing is said", wanted.word), wanted.text()));
        };
        let mut lines = lines.clone();
        let Some(first) = lines[0].strip_prefix(&wanted.begins()) else {
            return Some((format!("{}: another call", wanted.word), format!("wanted {:?}, is {:?}", wanted.text(), lines[0])));
        };
        lines[0] = first.to_string();
        if let Some((what, case)) = wanted.differs(&lines) {
            return Some((what, format!("line {}: {case}", wanted.line)));
        }
        spoil.calls += 1;
        if spoil.every != 0 && spoil.calls.is_multiple_of(spoil.every) && wanted.spoil(r, &mut lines) {
            spoil.spoiled += 1;
            spoil.noticed += wanted.differs(&lines).is_some() as u64;
        }
    }
    if file.calls.len() != route.wanted.len() {
        return Some(("more calls than the file has".to_string(), format!("wanted {}, is {}", route.wanted.len(), file.calls.len())));
    }
    ends(route, file)
}

/// The end of a file: how many speed points there are, and behind the table how many calls were done and refused.
fn ends(route: &Route, file: &File) -> Option<Difference> {
    let (lines, n) = (&file.table, file.table.len());
    let is: Vec<&str> = lines[n.saturating_sub(2)..].iter().map(String::as_str).collect();
    let refused = route.wanted.iter().filter(|w| w.is_refused()).count();
    let judged = route.wanted.iter().filter(|w| w.is_judged()).count();
    let points = route.points.text();
    let counted = figures("calls: {done} done, {refused} refused", is.last().unwrap_or(&""));
    let fits = |v: &[(&str, String)]| {
        let number = |k: usize| v[k].1.parse::<usize>().unwrap_or(usize::MAX);
        let all = number(0).saturating_add(number(1)) == route.wanted.len();
        all && if judged == route.wanted.len() { number(1) == refused } else { number(1) >= refused }
    };
    if is.first() == Some(&points.as_str()) && counted.is_some_and(|v| fits(&v)) {
        return None;
    }
    Some(("the end of the file".to_string(), format!("wanted {points:?} and {refused} refused of {}, is {is:?}", route.wanted.len())))
}
