//! Stored vectors for the program crates/replay: calls as text, and beside them what the original answers. The port is not called.
mod list_part;
mod path_part;

use crate::judge::OWN;
use crate::original::Out;
use std::collections::BTreeMap;
use std::fmt::Write;

/// The codes of the calls, as crates/replay reads them.
pub mod code {
    pub const TRAIN: u64 = 0x1;
    pub const TABLE: u64 = 0x2;
    pub const NEW: u64 = 0x3;
    pub const EXTEND: u64 = 0x4;
    pub const CLEAR: u64 = 0x5;
    pub const FINISH: u64 = 0x6;
    pub const RECALC: u64 = 0x7;
    pub const REINDEX: u64 = 0x8;
    pub const LIST: u64 = 0x9;
    pub const CALC_IDX: u64 = 0xa;
    pub const STATE: u64 = 0xb;
    pub const POINT_NEW: u64 = 0xc;
    pub const POINT_RES: u64 = 0xd;
    pub const STRAP_NEW: u64 = 0xe;
    pub const STRAP_RES: u64 = 0xf;
    pub const LOCATE: u64 = 0x10;
    pub const POINT: u64 = 0x11;
    pub const STRAP: u64 = 0x12;
    pub const LINK_GRADES: u64 = 0x13;
    pub const LINK_CURVES: u64 = 0x14;
    pub const POINT_VALUES: u64 = 0x15;
    pub const STRAP_VALUES: u64 = 0x16;
    pub const POINT_FIX: u64 = 0x17;
    pub const STRAP_FIX: u64 = 0x18;
}

/// Bytes and words that crates/replay has room for, and bytes that `rt` lets a program write.
const TEXT_ROOM: usize = 400_000;
const WORD_ROOM: usize = 100_000;
const ANSWER_ROOM: usize = 1 << 20;

/// The two files, and how many calls of each name are done and refused.
#[derive(Default)]
pub struct Vectors {
    pub calls: String,
    pub answers: String,
    pub tally: BTreeMap<&'static str, [u64; 2]>,
    pub codes: BTreeMap<u64, u64>,
}

/// An f64 as 16 digits.
fn real(x: f64) -> String {
    format!("{:016x}", x.to_bits())
}

/// A count, a number or an index.
fn whole(x: u64) -> String {
    format!("{x:x}")
}

/// What goes into the answers: the words of a done call, or none for a refusal. A call that the port refuses by a question of its own
/// while the original goes on is left out altogether.
fn expected(asked: u32, out: Out<Vec<u64>>) -> Result<Option<Vec<u64>>, LeftOut> {
    match out {
        Out::Done(_) if OWN.contains(&asked) => Err(LeftOut),
        Out::Done(w) => Ok(Some(w)),
        _ => Ok(None),
    }
}

/// That a call is left out of the vectors.
struct LeftOut;

impl Vectors {
    /// Whether crates/replay has room for the calls, and may write the answers.
    pub fn fits(&self) -> bool {
        let words = self.calls.split_whitespace().count();
        self.calls.len() <= TEXT_ROOM && words <= WORD_ROOM && self.answers.len() <= ANSWER_ROOM
    }
    /// A call: its code, how many words follow, and the words.
    fn call(&mut self, code: u64, words: &[u64]) {
        *self.codes.entry(code).or_default() += 1;
        write!(self.calls, "{code:x} {:x}", words.len()).unwrap();
        words.iter().for_each(|w| write!(self.calls, " {w:x}").unwrap());
        self.calls.push('\n');
    }
    /// The line of an answer.
    fn answer(&mut self, name: &'static str, values: Option<&[String]>) {
        self.tally.entry(name).or_default()[values.is_none() as usize] += 1;
        self.line(&format!("{name} {}", if values.is_some() { "done" } else { "refused" }), values.unwrap_or(&[]));
    }
    fn line(&mut self, name: &str, values: &[String]) {
        self.answers += name;
        values.iter().for_each(|v| write!(self.answers, " {v}").unwrap());
        self.answers.push('\n');
    }
}

/// COUNT paths and twice as many lists from a seed on, `command` being what the first line says.
pub fn vectors(seed: u64, count: u64, command: &str) -> Vectors {
    let mut v =
        Vectors { calls: format!("# calls and their words in hex for the program replay, made by: {command}\n"), ..Default::default() };
    for k in 0..count {
        writeln!(v.calls, "# path {k}").unwrap();
        path_part::run(&mut v, seed.wrapping_add(k));
        for l in [2 * k, 2 * k + 1] {
            writeln!(v.calls, "# list {l}").unwrap();
            list_part::run(&mut v, seed.wrapping_mul(2).wrapping_add(l));
        }
    }
    v
}
