//! Positions on paths that calls made and on paths made by hand, sound ones mostly: `set_link_and_offset`.
use super::paths::some_links;
use crate::calls::{step, Call, State, Table};
use crate::columns::Cols;
use crate::damage::damage;
use crate::judge::Run;
use crate::original;
use crate::random_table::{table, Taste};
use crate::random_train::{position, train};
use crate::sound_path::{sound_path, Shape};
use mochaspit::sys::{PathTpc, Train};

/// A path by `new` and `extend`, some of them finished.
fn by_calls(run: &mut Run, t: &Train, wild: bool) -> State {
    let taste = Taste { wild, samples: 3, limits: 2, apart: false, faults: false };
    let table = Table::new(table(&mut run.r, t, taste));
    let cols = Cols::zeros([40, 160, 400, 400, 200, 200, 80]);
    let mut st = State { path: PathTpc::default(), cols, original: original::path(&PathTpc::default(), &Cols::default(), t) };
    step(run, &mut st, &Call::New, t, &table);
    if st.path.link_count == 1 {
        let n = run.r.to(8);
        let l = some_links(&mut run.r, &st, &table, n, 0);
        step(run, &mut st, &Call::Extend(l), t, &table);
        if run.r.chance(300) {
            step(run, &mut st, &Call::Finish, t, &table);
        }
    }
    st
}

/// A path made by hand, now and then with many links or damaged.
fn by_hand(run: &mut Run, t: &Train, wild: bool) -> State {
    let links = if run.r.chance(10) { run.r.of(&[200, 1024]) } else { run.r.of(&[0, 1, 2, 3, 5, 9]) };
    let (mut path, mut cols) = sound_path(&mut run.r, Shape { links, numbers: 9, wild });
    if run.r.chance(100) {
        damage(&mut run.r, &mut path, &mut cols);
    }
    State { original: original::path(&path, &cols, t), path, cols }
}

pub fn run(run: &mut Run) {
    let wild = run.r.chance(250);
    let mut t = train(&mut run.r, wild);
    (t.length, t.speed_max, t.train_type) = (30.0, 30.0, t.train_type.min(6));
    let mut st = if run.r.chance(300) { by_calls(run, &t, wild) } else { by_hand(run, &t, wild) };
    run.size = st.cols.offsets.len();
    run.say(|| st.cols.text(&st.path));
    let none = Table::new(Default::default());
    for _ in 0..8 {
        let links = &st.cols.offsets[..st.path.link_count.min(st.cols.offsets.len())];
        let s = position(&mut run.r, links, wild);
        step(run, &mut st, &Call::Locate(s), &t, &none);
        if !run.differences.is_empty() {
            return;
        }
    }
}
