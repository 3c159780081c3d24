//! Random route files: what the planner's program says of them, held to the original's own run of the same calls.
mod book;
mod calls;
mod counts;
mod draw;
mod form;
mod judge;
mod model;
mod run;
mod said;
mod text;

use crate::calls::{Call, Table};
use crate::rng::Rng;
use crate::table::Flat;
use calls::{Line, Scene};
use counts::Counts;
use form::Form;
use judge::Wanted;
use model::Model;
pub use run::{run, show};
use text::Text;

/// Stands apart from the other kinds, so that the numbers drawn are others.
const KIND: usize = 200;
/// Limits laid that the planner lists by their links.
const LISTED: usize = 4096;

/// A route file, what the planner has to say of its calls, and how many speed points are left at the end.
pub struct Route {
    pub seed: u64,
    pub text: String,
    pub wanted: Vec<Wanted>,
    pub points: Form,
    pub counts: Counts,
    pub trouble: Option<String>,
}

/// The next line of a route: `new`, calls in any order, and a trim at the end.
fn next(r: &mut Rng, m: &Model, s: &Scene, k: usize, count: usize) -> Line {
    let links = m.st.path.link_count;
    let line = match k {
        0 if r.chance(20) => calls::any(r, &m.st, s, false),
        0 => Line::Path(Call::New),
        _ if k + 1 == count && links > 2 && m.counts.dropped == 0 => Line::Path(Call::Clear(calls::dropping(r, &m.st))),
        _ if k + 1 == count && links > 1 => Line::Path(Call::Clear(calls::trim(r, &m.st))),
        _ if links == 0 && r.chance(900) => Line::Path(Call::New),
        _ if m.renumbered && r.chance(250) => Line::Path(Call::Recalc),
        _ => calls::any(r, &m.st, s, k + 4 > count),
    };
    match line {
        Line::Path(call) if m.lists(&call) > LISTED => Line::Path(Call::Clear(calls::trim(r, &m.st))),
        line => line,
    }
}

/// The calls of a route, what is to be said of each, and what is left at the end.
fn told(r: &mut Rng, seed: u64, s: &Scene, mut text: Text) -> Route {
    let mut m = Model::new(s.t, s.table, s.long);
    let mut wanted = vec![];
    let count = 4 + r.to(16);
    for k in 0..count {
        let line = next(r, &m, s, k, count);
        let at = text.call(r, &line);
        wanted.push(Wanted { line: at, word: line.word(), forms: m.step(&line) });
        if m.trouble.is_some() {
            break;
        }
    }
    let points = m.points();
    m.counts.routes = 1;
    Route { seed, text: text.text, wanted, points, counts: m.counts, trouble: m.trouble }
}

/// The route of a seed.
pub fn route(seed: u64) -> Route {
    let r = &mut Rng::new(KIND, seed);
    let k = draw::taste(r);
    let t = draw::train(r, k);
    let links = draw::links(r, &t, k);
    let table = Table::new(Flat::of(&links, None));
    let mut text = Text::default();
    text.line(&format!("# compare show routes {seed}"));
    text.train(&t);
    links[1..].iter().for_each(|l| text.link(r, l));
    told(r, seed, &Scene { t: &t, table: &table, long: k.long }, text)
}
