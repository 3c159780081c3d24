//! Paths that a caller made: sound ones, and the same damaged in one or several places. Every path call is made on each.
use super::paths::{new_numbers, some_link, some_links, trim};
use crate::calls::{step, Call, State, Table};
use crate::damage::damage;
use crate::judge::Run;
use crate::original;
use crate::random_table::{table, Taste};
use crate::random_train::{position, train};
use crate::rng::Rng;
use crate::sound_path::{sound_path, Shape};

/// Each path call, with arguments that suit the path as far as it is whole.
fn every_call(r: &mut Rng, st: &State, table: &Table, wild: bool) -> Vec<Call> {
    let links = &st.cols.offsets[..st.path.link_count.min(st.cols.offsets.len())];
    let n = r.to(4);
    vec![
        Call::Finish,
        Call::Clear(trim(r, st)),
        Call::Extend(some_links(r, st, table, n, 10)),
        Call::Reindex(new_numbers(r, table.entries.len())),
        Call::Recalc,
        Call::LinkGrades(some_link(r, &st.path)),
        Call::LinkCurves(some_link(r, &st.path)),
        Call::Locate(position(r, links, wild)),
        Call::New,
    ]
}

pub fn run(run: &mut Run) {
    let wild = run.r.chance(250);
    let t = train(&mut run.r, wild);
    let taste = Taste { wild, samples: 4, limits: 3, apart: false, faults: true };
    let table = Table::new(table(&mut run.r, &t, taste));
    let shape = Shape { links: run.r.of(&[0, 1, 1, 2, 3, 4, 6]), numbers: table.entries.len(), wild };
    let (mut path, mut cols) = sound_path(&mut run.r, shape);
    let whole = format!("{t:?}\ntable {:?}\nsound path\n{}", table.entries, cols.text(&path));
    let times = run.r.of(&[0, 1, 1, 1, 2, 3]);
    (0..times).for_each(|_| damage(&mut run.r, &mut path, &mut cols));
    run.say(|| format!("{whole}damaged {times} times\n{}", cols.text(&path)));
    run.size = 3 * cols.offsets.len() + times;
    let st = State { original: original::path(&path, &cols, &t), path, cols };
    for call in every_call(&mut run.r, &st, &table, wild) {
        let mut each = st.clone();
        if step(run, &mut each, &call, &t, &table) && run.differences.is_empty() {
            // what a done call left is a path like any other
            let next = every_call(&mut run.r, &each, &table, wild);
            let k = run.r.to(next.len());
            step(run, &mut each, &next[k], &t, &table);
        }
        if !run.differences.is_empty() {
            return;
        }
    }
}
