//! A train, links and calls as the lines of a route file (docs/ROUTES.md).
use super::calls::Line;
use crate::calls::Call;
use crate::rng::Rng;
use crate::table::{Lk, Set};
use mochaspit::sys::Train;

pub const TYPES: [&str; 7] = ["none", "freight", "passenger", "intermodal", "high_speed_passenger", "tilt_train", "commuter"];
const FIGURES: [&str; 3] = ["mass", "brake", "axles"];
const COMPARISONS: [&str; 5] = ["=", ">", "<", ">=", "<="];

/// A number that is read back as the same bits: a decimal where it is short, its bits otherwise.
pub fn number(x: f64) -> String {
    let text = format!("{x}");
    let digits = text.bytes().filter(u8::is_ascii_digit).count();
    if x.is_finite() && digits <= 15 && x.to_bits() != (-0.0f64).to_bits() {
        text
    } else {
        format!("0x{:016x}", x.to_bits())
    }
}

/// A number of the show, rounded to three places as the planner does: half up in size.
pub fn shown(x: f64) -> String {
    let t = x.abs() * 1000.0 + 0.5;
    let minus = |m: bool| if m { "-" } else { "" };
    if x.is_nan() {
        return "NaN".to_string();
    }
    if t >= 18446744073709551616.0 {
        return format!("{}over 1.8e16", minus(x.is_sign_negative()));
    }
    let t = t as u64;
    let places = if t % 1000 == 0 { String::new() } else { format!(".{:03}", t % 1000) };
    format!("{}{}{places}", minus(x.is_sign_negative() && t != 0), t / 1000)
}

/// The text so far and how many lines it has.
#[derive(Default)]
pub struct Text {
    pub text: String,
    pub lines: usize,
}

impl Text {
    pub fn line(&mut self, s: &str) {
        self.text += s;
        self.text.push('\n');
        self.lines += 1;
    }
    /// Now and then a line that says nothing.
    fn pause(&mut self, r: &mut Rng) {
        match r.to(20) {
            0 => self.line(""),
            1 => self.line("  # a comment, new"),
            _ => {}
        }
    }
    pub fn train(&mut self, t: &Train) {
        let n = [t.length, t.speed_max, t.towed_mass_static, t.mass_per_brake].map(number).join(" ");
        let c = [t.curve_coeff_0, t.curve_coeff_1, t.curve_coeff_2].map(number).join(" ");
        self.line(&format!("train {n} {} {} {c}", t.axle_count, TYPES[t.train_type as usize]));
    }
    pub fn link(&mut self, r: &mut Rng, l: &Lk) {
        self.pause(r);
        self.line(&format!("link {} {} {} {} {} {}", l.own, number(l.length), l.next, l.next_alt, l.prev, l.prev_alt));
        l.elevs.iter().for_each(|e| self.line(&format!("elev {}", e.map(number).join(" "))));
        l.heads.iter().for_each(|h| self.line(&format!("heading {}", h.map(number).join(" "))));
        l.powers.iter().for_each(|(p, d)| self.line(&format!("power {} {d}", p.map(number).join(" "))));
        let mut order: Vec<usize> = (0..8).collect();
        order.rotate_left(r.to(8));
        for k in order {
            if let Some(s) = &l.sets[k] {
                self.set(r, if k == 0 { "all" } else { TYPES[k - 1] }, s);
            }
        }
    }
    fn set(&mut self, r: &mut Rng, whose: &str, s: &Set) {
        self.line(&format!("set {whose} {}", if s.head_end == 1 { "head" } else { "tail" }));
        let when = |c: &(u32, u32, f64)| format!("when {} {} {}", FIGURES[c.0 as usize - 3], COMPARISONS[c.1 as usize - 1], number(c.2));
        let conds = s.conds.iter().map(when);
        let lims = s.lims.iter().map(|l| format!("limit {}", l.map(number).join(" ")));
        let all: Vec<String> = if r.chance(500) { conds.chain(lims).collect() } else { lims.chain(conds).collect() };
        for line in all {
            self.line(&line);
            self.pause(r);
        }
    }
    /// A call's line; its number in the file.
    pub fn call(&mut self, r: &mut Rng, l: &Line) -> usize {
        self.pause(r);
        let list = |word: &str, n: &[u32]| n.iter().fold(word.to_string(), |s, k| format!("{s} {k}"));
        let text = match l {
            Line::Path(Call::Extend(n)) => list("extend", n),
            Line::Path(Call::Reindex(n)) => list("reindex", n),
            Line::Path(Call::Clear(x)) => format!("clear {}", number(*x)),
            Line::Path(Call::Locate(s)) => format!("locate {} {}", number(s.offset), number(s.offset_back)),
            Line::Path(Call::LinkGrades(k)) => format!("grades {k}"),
            Line::Path(Call::LinkCurves(k)) => format!("curves {k}"),
            Line::Posted(x) => format!("posted {}", number(*x)),
            Line::Path(_) | Line::Show | Line::Powers => l.word().to_string(),
            Line::Resistance(front, back) => format!("resistance unk {} {} 6000000", number(*front), number(*back)),
        };
        self.line(&text);
        self.lines
    }
}
